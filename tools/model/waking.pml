/* Parkers, and how threads wake each other. */

#ifdef BUG_FORGETFUL_PARKER
/* An unpark before the park is lost. */
bool parked[WORKERS + 1];
#define give_token(thread) token[thread] = parked[thread]
inline park(thread) {
    parked[thread] = true;
    atomic { token[thread] -> token[thread] = false; parked[thread] = false }
}
#else
/* The token is kept until its thread parks. */
#define give_token(thread) token[thread] = true
inline park(thread) {
    if
    :: atomic { token[thread] -> token[thread] = false }
#if SPURIOUS
    :: atomic { spurious > 0 -> spurious-- }
#endif
    fi
}
#endif

/* waking.rt: Unparkers::wake */
inline unpark(one) {
    atomic { assert(one != NOBODY); give_token(one + 1); one = NOBODY }
}
