/* The common queue and the workers that sleep: what is done under the injector's lock. */

/* Takes a worker out of those that sleep. Which one, is left open: the code takes the last of its list. */
inline take_sleeper(one) {
    if
    :: asleep & 1 -> asleep = asleep & ~1; one = 0
#if WORKERS > 1
    :: asleep & 2 -> asleep = asleep & ~2; one = 1
#endif
#if WORKERS > 2
    :: asleep & 4 -> asleep = asleep & ~4; one = 2
#endif
    :: asleep == 0 -> one = NOBODY
    fi
}

/* signs.rt: Signs::set_queued, Signs::set_sleepers. */
inline set_queued() {
    queued = len(injector)
}

inline set_signs() {
    sleepers = COUNT_OF(asleep);
    set_queued()
}

/* Injector::part: of what waits, as much as each worker gets, and one at least. */
inline part(count) {
    count = len(injector) / workers;
    if
    :: count == 0 && len(injector) > 0 -> count = 1
    :: else
    fi
}

/* Injector::take: a worker's part goes to the end of its local queue. */
inline injector_take(me) {
    part(count);
    do
    :: count > 0 -> move_number(injector, locals[me]); count--
    :: else -> break
    od
}

/* Injector::share: the first half of a worker's local queue goes to the end of the injector's. */
inline injector_share(me, one) {
    count = len(locals[me]) / 2;
    do
    :: count > 0 -> move_number(locals[me], injector); count--
    :: else -> break
    od;
    take_sleeper(one);
#ifdef BUG_SHARE_UNTOLD
    /* The sleeper that was taken out is told nothing. */
    one = NOBODY;
#endif
}

/* Injector::exchange: the first numbers of a worker go to the end of the injector's queue, those from its front to the
   front of the worker's local queue. */
inline injector_exchange(me) {
    part(taken);
    count = (len(locals[me]) < len(injector) -> len(locals[me]) : len(injector));
    taken = (count > taken -> count : taken);
    kept = len(locals[me]) - count;
#ifdef BUG_EXCHANGE_DROPS
    /* One of the numbers that it gives goes nowhere. */
    if
    :: count > 0 -> locals[me] ? moved; moved = 0; count--
    :: else
    fi;
#endif
    do
    :: count > 0 -> move_number(locals[me], injector); count--
    :: else -> break
    od;
    do
    :: taken > 0 -> move_number(injector, locals[me]); taken--
    :: else -> break
    od;
    /* VecDeque::rotate_right: what is new is in front. */
    do
    :: kept > 0 -> locals[me] ? moved; locals[me] ! moved; moved = 0; kept--
    :: else -> break
    od
}

/* tables.rt: Tables::relieve. LocalQueue::relieve, under that queue's lock: all of its numbers go to the end of the
   injector's queue. One that sleeps is taken out, to be unparked. */
inline injector_relieve(worker, one) {
#ifdef BUG_RELIEF_DROPS
    locals[worker] ? moved;
    moved = 0;
#endif
    move_all(locals[worker], injector);
    take_sleeper(one);
#ifdef BUG_RELIEF_UNTOLD
    /* The sleeper that was taken out is told nothing. */
    one = NOBODY;
#endif
    set_signs()
}

/* own.rt: Own::end_with. Shared::queue_all, under the injector's lock: what a worker that ends has in hand goes to the
   end of the injector's queue. Those that sleep stay among those that sleep. */
inline leave_hand() {
    if
    :: atomic { nempty(hand[me]) ->
        move_all(hand[me], injector);
#ifdef BUG_HAND_UNTOLD
        /* One that sleeps is taken out, and is told nothing. */
        take_sleeper(other);
        other = NOBODY;
#endif
        set_signs()
       }
    :: empty(hand[me])
    fi
}

/* tables.rt: Tables::close. The word, and then a section under the injector's lock. */
inline close(one) {
    signs_closed = true;
    atomic { injector_closed = true; take_sleeper(one) };
    if
    :: one != NOBODY -> unpark(one)
    :: one == NOBODY
    fi
}
