/* The state of a slot. */

#ifdef BUG_WAKE_SWALLOWED
/* Who has the number isn't told that something came. */
#define set_again(y) skip
#else
#define set_again(y) slot_state[y] = AGAIN
#endif

/* SlotState::wake: a look, the exchange of READY for AGAIN, and that of IDLE for READY. If the caller is to queue the
   number, `queues()` comes next, and else `leaves()`. */
#define SLOT_WAKE(y, queues, leaves)                                                                         \
    atomic {                                                                                                 \
        if                                                                                                   \
        :: slot_state[y] == OVER || slot_state[y] == AGAIN -> leaves()                                       \
        :: slot_state[y] == IDLE -> goto was_idle                                                            \
        :: slot_state[y] == READY                                                                            \
        fi                                                                                                   \
    };                                                                                                       \
    atomic {                                                                                                 \
        if                                                                                                   \
        :: slot_state[y] == READY -> set_again(y); leaves()                                                  \
        :: else                                                                                              \
        fi                                                                                                   \
    };                                                                                                       \
was_idle:                                                                                                    \
    atomic {                                                                                                 \
        if                                                                                                   \
        :: slot_state[y] == IDLE -> slot_state[y] = READY; be_ticket(y); queues()                            \
        :: else -> leaves()                                                                                  \
        fi                                                                                                   \
    }
