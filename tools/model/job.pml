/* A job, in the loop of a worker: some steps of one instance. */

begins:
    atomic { lock_slot() };
    if
    :: signs_closed -> goto more
    :: !signs_closed
    fi;
take:
    /* job.rt: step. What begins it; and then, as one choice, what its transition does. */
    atomic {
        if
        :: !started[number] -> started[number] = true
#if SAVES
        /* Receiver::take: what is drawn comes first, and then it draws. */
        :: started[number] && !saving[number] && waiting[number] > 0 -> waiting[number]--
        :: started[number] && (saving[number] || waiting[number] == 0) && queue[number] > 0 -> queue[number]--
        :: started[number] && (saving[number] || waiting[number] == 0) && queue_savable[number] > 0 ->
            queue_savable[number]--;
            if
            :: saving[number] -> waiting[number]++; goto take
            :: else
            fi
        :: started[number] && (saving[number] || waiting[number] == 0) && !IN_QUEUE(number) ->
#else
        :: started[number] && IN_QUEUE(number) -> queue[number]--
        :: started[number] && !IN_QUEUE(number) ->
#endif
#if CONDITIONS
            if
            :: conditions[number] > 0 -> conditions[number]--
            :: else -> goto idle
            fi
#else
            goto idle
#endif
        fi;
#ifdef LIMIT
        made++;
#endif
#ifdef CREATE
        if
        :: may_create -> may_create = false; creates = true
        :: true
        fi;
#endif
        if
        :: sends > 0 -> first = 1
        :: sends > 0 -> first = 2
#if INSTANCES > 2
        :: sends > 0 -> first = 3
#endif
        :: true
        fi;
        if
        :: first > 0 -> sends--;
#if SAVES
            if
            :: savable = true
            :: true
            fi;
#endif
            if
            :: sends > 0 -> sends--; second = 1
            :: sends > 0 -> sends--; second = 2
#if INSTANCES > 2
            :: sends > 0 -> sends--; second = 3
#endif
            :: true
            fi
        :: else
        fi;
        if
        :: timers > 0 && fuse[number] == 0 -> timers--; sets = true
#if AT_ONCE
        :: at_once > 0 -> at_once--; sets_now = true
#endif
        :: true
        fi;
#if CONDITIONS
        if
        :: may_be_true > 0 -> may_be_true--; conditions[number]++
        :: true
        fi;
#endif
#if SAVES
        if
        :: saves > 0 && !saving[number] -> saves--; saving[number] = true
        :: saving[number] -> saving[number] = false
        :: true
        fi;
#endif
#if STOPS
        if
        :: stops > 0 -> stops--; stops_then = true
        :: true
        fi;
#endif
#ifdef BUG_LOOK_EARLY
        /* It looks before its step puts anything. */
        looked_empty = !IN_QUEUE(number) && !TRUE_CONDITIONS(number);
#endif
        next_act()
    };

#ifdef CREATE
makes:
    /* making.rt: enter. Entries::enter; Slot::enter, first under the slot's lock, then SlotState::begin. */
    entered[INSTANCES] = true;
    atomic { assert(!locked[INSTANCES]); seated[INSTANCES] = true };
#ifdef BUG_BEGIN_IDLE
    /* Its state doesn't say that its number is to be queued. */
    slot_state[INSTANCES] = IDLE;
    atomic { be_ticket(INSTANCES);
#else
    atomic { be_ticket(INSTANCES);
        slot_state[INSTANCES] = READY;
#endif
        /* step_runtime.rt: create */
        put_number(hand[me], INSTANCES);
        creates = false;
        next_act()
    };
#endif

puts:
    atomic {
        put(first);
#if SAVES
        savable = false;
#endif
#ifndef BUG_WAKE_FIRST
        if
        :: to_wake == 0 -> to_wake = first
        :: else -> then_wake = first
        fi;
#endif
        first = second;
        second = 0;
        next_act()
    };

#if AT_ONCE
sets_at_once:
    /* thread_world.rt: arm. A timer that is due as it is set is put into the own port. */
    atomic { queue[number]++; sets_now = false; next_act() };
#endif

arms:
    /* own.rt: Own::arm, under the wheel's lock. */
    atomic { fuse[number] = clock + 1; sets = false; next_act() };

wakes:
    SLOT_WAKE(to_wake, into_hand, woke);

counts:
#if FAILS
    if
    /* job.rt: steps_of. The lock is left, and then its number is in this worker's hand. */
    :: atomic { fails > 0 ->
        fails--;
        locked[number] = false;
        note_job(0);
        put_number(hand[me], number);
        number = 0
       } -> goto failed
    :: true
    fi;
#endif
#ifdef LIMIT
    /* job.rt: count */
    atomic {
        moves++;
        if
        :: moves >= PART -> add_moves()
        :: else
        fi
    };
    if
    /* Signs::close */
    :: atomic { count == 1 -> signs_closed = true; count = 0 }
    :: count == 0
    fi;
#endif
#if STOPS
    if
    :: atomic { stops_then -> stops_then = false } -> goto ended
    :: !stops_then
    fi;
#endif
    /* job.rt: turn. Instance::ahead, a look at the port. What is drawn and waits there is the worker's own, so the step
       is a look at the queue. */
    if
#ifdef BUG_LOOK_EARLY
    :: atomic { looked_empty -> looked_empty = false } -> goto idle
    :: !looked_empty
#elif defined(BUG_LOOK_QUEUE)
    /* It doesn't look at what is drawn and waits. */
    :: !IN_QUEUE(number) && !TRUE_CONDITIONS(number) -> goto idle
    :: IN_QUEUE(number) || TRUE_CONDITIONS(number)
#elif defined(BUG_LOOK_CONDITIONS)
    /* It doesn't look whether the state has continuous signals. */
    :: !IN_QUEUE(number) -> goto idle
    :: IN_QUEUE(number)
#elif SAVES
    :: !IN_QUEUE(number) && waiting[number] == 0 && !TRUE_CONDITIONS(number) -> goto idle
    :: IN_QUEUE(number) || waiting[number] > 0 || TRUE_CONDITIONS(number)
#else
    :: !IN_QUEUE(number) && !TRUE_CONDITIONS(number) -> goto idle
    :: IN_QUEUE(number) || TRUE_CONDITIONS(number)
#endif
#if CONDITIONS
    /* The state has a continuous signal, which isn't true. */
    :: true
#endif
    fi;
    /* Another step; or its turn is over: that is here whenever it likes. */
    if
    :: !signs_closed && empty(hand[me]) -> goto take
    :: !signs_closed && nempty(hand[me])
    :: true -> goto more
    fi;
    /* job.rt: turn. LocalQueue::put_all, under its lock. */
    atomic { move_all(hand[me], locals[me]) };
    goto take;

more:
    /* job.rt: steps_of. The lock is left, and then its number is in this worker's hand. */
    atomic { locked[number] = false; note_job(0); put_number(hand[me], number); number = 0 };
    goto round;

#if STOPS
ended:
    locked[number] = false;
    /* SlotState::end */
    atomic {
        slot_state[number] = OVER;
        stopped[number] = true;
        ticket[number] = false;
        queue[number] = 0;
#if SAVES
        queue_savable[number] = 0;
        waiting[number] = 0;
        saving[number] = false;
#endif
#if CONDITIONS
        conditions[number] = 0;
#endif
        note_job(0);
        number = 0
    };
    goto round;
#endif

idle:
#ifndef BUG_REST_LOCKED
    locked[number] = false;
#endif
    /* SlotState::rest: the exchange of READY for IDLE. */
    atomic {
        if
#ifdef BUG_REST_UNCHECKED
        /* It doesn't look whether something came meanwhile. */
        :: slot_state[number] = IDLE; ticket[number] = false
#else
        :: slot_state[number] == READY -> slot_state[number] = IDLE; ticket[number] = false
        :: else -> goto again
#endif
        fi;
#ifndef BUG_REST_LOCKED
        note_job(0);
        number = 0;
        goto round
#endif
    };
#ifdef BUG_REST_LOCKED
    /* It leaves the lock only after its state is set. */
    atomic { locked[number] = false; number = 0 };
    goto round;
#endif

again:
    /* SlotState::rest: the store of READY. */
    atomic {
        slot_state[number] = READY;
#ifdef BUG_REST_LOCKED
        locked[number] = false;
#endif
        note_job(0);
        put_number(hand[me], number);
        number = 0
    };
    goto round;
