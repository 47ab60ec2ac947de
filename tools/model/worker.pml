/* The loop of a worker. */

proctype worker(byte me) {
    byte number;                /* The number of its job. */
    byte first, second;         /* Whom its step is to send something. */
    byte to_wake, then_wake;    /* Whom it has sent something, and is to wake. */
    byte other = NOBODY;        /* Who is to be unparked. */
    byte count, taken, kept, moved;
    bool worked;                /* Whether it has made a job since it asked the injector. */
    bool may_relieve;           /* Whether it has made one since it relieved another one. */
    bool sets, creates, stops_then;
#if AT_ONCE
    bool sets_now;
#endif
#if SAVES
    bool savable;
#endif
#ifdef LIMIT
    byte moves;
#endif
#ifdef BUG_WAKE_FIRST
    bool woken;
#endif
#ifdef BUG_LOOK_EARLY
    bool looked_empty;
#endif

#if FAILS
    /* worker.rt: rounds. There is no memory for what it has for itself. */
    if
    :: atomic { fails > 0 -> fails-- } -> goto failed
    :: true
    fi;
#endif

round:
    /* worker.rt: round, help. LocalQueue::len */
    atomic {
        if
        :: signs_closed -> goto ends
        :: !signs_closed && len(locals[me]) + len(hand[me]) < 2 -> goto gets
        :: !signs_closed && len(locals[me]) + len(hand[me]) >= 2
        fi
    };
    /* worker.rt: help. Signs::has_idle, if it has two numbers. */
    if
    :: sleepers > 0 -> goto gives
    :: sleepers == 0
    fi;
    if
    :: seekers > 0 -> goto gives
    :: seekers == 0 -> goto gets
    fi;
gives:
    /* worker.rt: share. LocalQueue::put_all, under its lock. LocalQueue::share, under the injector's lock and its
       own. */
    atomic { move_all(hand[me], locals[me]) };
    atomic {
        injector_share(me, other);
        set_signs();
        if
        :: other == NOBODY -> goto gets
        :: else
        fi
    };
    unpark(other);

gets:
    if
    /* worker.rt: exchange, after 61 jobs: that is here after any job, or not. */
#ifdef BUG_EXCHANGE_ASLEEP
    /* It counts jobs from before it slept. So one that woke by itself exchanges while it is noted as asleep. */
    :: nempty(injector) -> goto exchanges
#else
    :: atomic { worked && nempty(injector) -> worked = false } -> goto exchanges
#endif
    /* relief.rt: relieve_others, after 61 jobs, of those that haven't come to their queues: that is here after any job,
       or not, of any other worker. Tables::relieve, under the injector's lock and that queue's. */
#if WORKERS > 1
    :: atomic { may_relieve && me != 0 && nempty(locals[0]) ->
        may_relieve = false; injector_relieve(0, other) } -> goto relieves
    :: atomic { may_relieve && me != 1 && nempty(locals[1]) ->
        may_relieve = false; injector_relieve(1, other) } -> goto relieves
#endif
#if WORKERS > 2
    :: atomic { may_relieve && me != 2 && nempty(locals[2]) ->
        may_relieve = false; injector_relieve(2, other) } -> goto relieves
#endif
#ifdef BUG_RELIEF_TAKES_JOB
    /* It takes the number of a job, too. */
    :: atomic { at_job[1 - me] > 0 -> put_number(injector, at_job[1 - me]); set_queued() } -> goto gets
#endif
#ifdef BUG_RELIEF_TO_A_WORKER
    /* It puts the numbers into another worker's queue, which may sleep. */
    :: atomic { nempty(locals[me]) -> move_number(locals[me], locals[1 - me]) } -> goto gets
#endif
#ifdef BUG_RELIEF_KEEPS
    /* It takes them for itself, even if it is noted as asleep. */
    :: atomic { nempty(locals[1 - me]) -> move_all(locals[1 - me], locals[me]) } -> goto gets
#endif
    /* LocalQueue::next. With an empty queue, which stays so, the number in hand is the next one. Else, under its lock,
       the first of all. */
    :: atomic { empty(locals[me]) && len(hand[me]) == 1 -> hand[me] ? number; note_job(number) } -> goto begins
    :: atomic { nempty(locals[me]) || len(hand[me]) > 1 ->
        move_all(hand[me], locals[me]);
        locals[me] ? number;
        note_job(number)
       } -> goto begins
#ifdef BUG_SLEEPS_WITH_NUMBERS
    /* It asks the injector for its turn though its local queue has a number. */
#define HAS_NONE empty(hand[me])
#else
#define HAS_NONE (empty(hand[me]) && empty(locals[me]))
#endif
#if defined(LIMIT) && !defined(BUG_MOVES_UNTOLD)
    :: atomic { HAS_NONE && moves > 0 -> add_moves() } -> goto told_moves
#define HAS_TOLD (HAS_NONE && moves == 0)
#else
#define HAS_TOLD HAS_NONE
#endif
    /* signs.rt: Signs::seek. It looks for a while whether a number is queued, whether the run is over, and whether
       anybody steps. Whatever it saw, it asks the injector then. */
    :: atomic { HAS_TOLD -> seekers++ } -> goto seeks
    fi;
exchanges:
    /* LocalQueue::put_all, under its lock. LocalQueue::exchange, under the injector's lock and its own. */
    atomic { move_all(hand[me], locals[me]) };
    atomic { injector_exchange(me); set_queued() };
    goto gets;
relieves:
    if
    :: other == NOBODY -> goto gets
    :: other != NOBODY
    fi;
    unpark(other);
    goto gets;
#ifdef LIMIT
told_moves:
    if
    :: atomic { count == 1 -> signs_closed = true; count = 0 }
    :: count == 0
    fi;
    seekers++;
#endif
seeks:
#ifdef BUG_SEEKER_TRUSTS
    /* If it has seen no number in the end, it is noted as asleep without a look under the lock. */
    if
    :: atomic { queued == 0 && !signs_closed -> seekers-- } -> goto trusts
    :: atomic { queued > 0 || signs_closed -> seekers-- }
    fi;
#else
    seekers--;
#endif
    if
    :: signs_closed -> goto ends
    :: !signs_closed
    fi;
asks:
#if FAILS
    if
    :: atomic { fails > 0 -> fails-- } -> goto failed
    :: true
    fi;
#endif
    /* worker.rt: next_turn. LocalQueue::turn: Injector::turn, and the words of the injector, under its lock and the
       queue's. */
    atomic {
        worked = false;
#if SPURIOUS
        asleep = asleep & ~(1 << me);
#else
        /* Injector::rouse finds nobody: whoever takes a worker out of those that sleep unparks it. */
        assert(!(asleep & (1 << me)));
#endif
        if
        :: injector_closed ->
            take_sleeper(other);
            set_signs();
            if
            :: other == NOBODY -> goto gone
            :: else -> goto told_end
            fi
        :: !injector_closed && empty(injector) ->
trusts:     asleep = asleep | (1 << me);
            set_signs();
            if
            :: COUNT_OF(asleep) == workers -> goto rests
            :: else -> goto parks
            fi
        :: !injector_closed && nempty(injector) ->
            injector_take(me);
            if
            :: nempty(injector) -> take_sleeper(other)
            :: empty(injector)
            fi;
            set_signs();
            if
            :: other == NOBODY -> goto round
            :: else
            fi
        fi
    };
    unpark(other);
    goto round;

rests:
    /* All workers sleep. */
#ifndef BUG_REST_UNTOLD
    give_token(DRIVER);
#endif
parks:
    park(me + 1);
    goto round;

#include "job.pml"

failed:
    leave_hand();
    /* worker.rt: work. Tables::fail */
    signs_failed = true;
ends:
    /* worker.rt: end */
#ifndef BUG_END_UNTOLD
    close(other);
#endif
    give_token(DRIVER);
    goto gone;

told_end:
    unpark(other);
gone:
#if defined(LIMIT) && !defined(BUG_LAST_UNTOLD)
    /* worker.rt: rounds. It adds what it has, once it has made its last round. */
    atomic {
        if
        :: moves > 0 -> add_moves()
        :: moves == 0
        fi
    };
    if
    :: atomic { count == 1 -> signs_closed = true; count = 0 }
    :: count == 0
    fi;
#endif
    leave_hand();
    done++
}
