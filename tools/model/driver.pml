/* The calling thread: it starts the workers, and drives. */

inline begin(y) {
    entered[y] = true;
    seated[y] = true;
    slot_state[y] = READY;
    be_ticket(y);
    put_number(injector, y)
}

/* driver.rt: next_time, next_due of the wheel. */
inline least_due(y) {
    if
    :: fuse[y] > 0 && (next == 0 || fuse[y] < next) -> next = fuse[y]
    :: else
    fi
}

/* What is due at one time is put before anybody is woken. */
inline check_none_steps() {
    assert(!ticket[1]);
    assert(!ticket[2]);
#if INSTANCES > 2
    assert(!ticket[3]);
#endif
    skip
}

#define is_due(y) (fuse[y] > 0 && fuse[y] <= clock)

/* Environment::expire */
inline expire() {
    atomic {
        check_none_steps();
        hear(number);
        number = 0
    }
}

inline hear(y) {
    if
    :: !stopped[y] -> queue[y]++
    :: else
    fi;
    woken ! y
}

/* A run that is whole: all rest, the script is heard, and no timer is due by its end. */
inline check_whole() {
    check_rest();
    assert(heard == LINES && last_heard);
    assert(fuse[1] == 0 || fuse[1] > LAST);
    assert(fuse[2] == 0 || fuse[2] > LAST);
#if INSTANCES > 2
    assert(fuse[3] == 0 || fuse[3] > LAST);
#endif
    skip
}

inline woken_one() {
    number = 0;
    goto queues
}

inline is_to_queue() {
    numbers ! number;
    number = 0;
    goto queues
}

/* Whom to wake, in the order in which it was put. */
chan woken = [INSTANCES + LINES] of { byte };

/* The numbers of those that are woken and are to be queued. */
chan numbers = [INSTANCES] of { byte };

init {
    byte started_workers, other = NOBODY, next, number, count;

    /* start.rt: begin. pool.rt: join_all */
    atomic {
        begin(1);
        begin(2);
#if FIRST > 2
        begin(3);
#endif
        run worker(0);
        started_workers = 1
    };
#if WORKERS > 1
    if
    :: atomic { run worker(1); started_workers++ }
#ifdef FEWER
    :: skip
#endif
    fi;
#endif
#if WORKERS > 2
    if
    :: atomic { run worker(2); started_workers++ }
#ifdef FEWER
    :: skip
#endif
    fi;
#endif
    /* Injector::set_workers, under the injector's lock. */
    workers = started_workers;

look:
    /* driver.rt: look, under the injector's lock. */
    if
    :: injector_closed || signs_closed -> goto over
#ifdef BUG_REST_OF_ALL_BUT_ONE
    /* It takes the run for one at rest while a worker is awake. */
    :: !injector_closed && !signs_closed && COUNT_OF(asleep) + 1 >= workers && empty(injector)
    :: !injector_closed && !signs_closed && (COUNT_OF(asleep) + 1 < workers || nempty(injector)) -> goto waits
#else
    :: !injector_closed && !signs_closed && COUNT_OF(asleep) == workers && empty(injector)
    :: !injector_closed && !signs_closed && (COUNT_OF(asleep) != workers || nempty(injector)) -> goto waits
#endif
    fi;
#if FAILS
    /* It finds no memory. So the run has no report, as if a worker had found none. */
    if
    :: atomic { fails > 0 -> fails--; signs_failed = true } -> goto over
    :: skip
    fi;
#endif
    /* driver.rt: tick, next_time, under the wheel's lock. */
    atomic {
        check_rest();
        least_due(1);
        least_due(2);
#if INSTANCES > 2
        least_due(3);
#endif
        if
        :: heard < LINES && (next == 0 || 1 < next) -> next = 1
        :: heard == LINES && !last_heard && (next == 0 || LAST < next) -> next = LAST
        :: else
        fi;
#ifdef BUG_LAST_LEFT_OUT
        /* What is due at the time of the last line isn't done. */
        if
        :: next == 0 || next >= LAST -> next = 0; goto ends
#else
        if
        :: next == 0 || next > LAST -> next = 0; goto ends
#endif
        :: else
        fi
    };
    /* driver.rt: move_to. Ticker::advance */
    atomic { assert(clock <= next); clock = next; next = 0 };
    /* driver.rt: expire_due. Each time fire, under the wheel's lock, and then Environment::expire. */
    do
    :: atomic { is_due(1) -> fuse[1] = 0; number = 1 }; expire()
    :: atomic { is_due(2) && !is_due(1) -> fuse[2] = 0; number = 2 }; expire()
#if INSTANCES > 2
    :: atomic { is_due(3) && !is_due(1) && !is_due(2) -> fuse[3] = 0; number = 3 }; expire()
    :: !is_due(1) && !is_due(2) && !is_due(3) -> break
#else
    :: !is_due(1) && !is_due(2) -> break
#endif
    od;
    /* driver.rt: hear_due. Environment::hear routes a signal to some instance that lives, and puts it. */
    do
    :: atomic { heard < LINES && clock >= 1 ->
        heard++;
        check_none_steps();
        if
        :: !stopped[1] -> hear(1)
        :: !stopped[2] -> hear(2)
#if INSTANCES > 2
        :: entered[3] && !stopped[3] -> hear(3)
#endif
        :: stopped[1] && stopped[2]
        fi }
    :: atomic { heard == LINES && !last_heard && clock >= LAST -> last_heard = true }
    :: (heard < LINES && clock < 1) || (heard == LINES && (last_heard || clock < LAST)) -> break
    od;
    /* driver.rt: queue_all. Each that something came for is woken. If its number is in no queue, it is the driver's
       until all are woken. The code has the injector's lock from the first wake on. Here each wake is a moment of its
       own, in which others may have that lock: so all schedules of the code are among these. */
queues:
    if
    :: atomic { nempty(woken) -> woken ? number };
        SLOT_WAKE(number, is_to_queue, woken_one)
    :: empty(woken)
    fi;
    /* Injector::add, under the injector's lock. */
    atomic {
        count = len(numbers);
        do
        :: nempty(numbers) -> numbers ? number; put_number(injector, number); number = 0
        :: empty(numbers) -> break
        od;
        set_signs()
    };
#ifdef BUG_QUEUE_UNTOLD
    /* Nobody is told of the numbers that were queued. */
    count = 0;
#endif
wakes:
    /* Tables::sleeper, under the injector's lock: as many as there were numbers, while some sleep and some are
       queued. */
    atomic {
        if
        :: count > 0 && nempty(injector) -> count--; take_sleeper(other); set_signs()
        :: count == 0 || empty(injector)
        fi;
        if
        :: other == NOBODY -> count = 0; goto look
        :: else
        fi
    };
    unpark(other);
    goto wakes;

waits:
    park(DRIVER);
    goto look;

ends:
    close(other);
over:
    /* pool.rt: join_all */
    close(other);
    done == started_workers;

    /* The threads are joined. */
    atomic {
        if
        :: signs_failed
        :: !signs_failed ->
#ifdef LIMIT
            assert(sum == made);
            if
            :: made >= LIMIT ->
                /* The run is cut. The sum reached the limit once, and the run went past it by little. */
                assert(cuts == 1);
                assert(made < LIMIT + WORKERS * PART)
            :: made < LIMIT ->
                assert(cuts == 0);
                check_whole()
            fi
#else
            check_whole()
#endif
        fi
    }
}
