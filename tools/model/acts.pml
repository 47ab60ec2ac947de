/* What a step of an instance does, one thing after the other, and what a worker does beside. */

/* thread_world.rt: send, and Outbox::put. What is sent to a number that nobody has yet is gone; what one gets that has
   stopped, nobody looks at. */
inline put(y) {
    if
#if SAVES
    :: entered[y] && !stopped[y] && savable -> queue_savable[y]++
    :: entered[y] && !stopped[y] && !savable -> queue[y]++
#else
    :: entered[y] && !stopped[y] -> queue[y]++
#endif
    :: else
    fi
}

/* What comes next in a step. It creates, puts what it sends, and sets its timer, as its transition has it. Then its
   fuse goes into the wheel (job.rt: step), and whom it has sent something is woken. */
inline next_act() {
    if
#ifdef CREATE
    :: creates -> goto makes
#endif
#ifdef BUG_WAKE_FIRST
    /* Whom it sends something is woken before that is put. */
    :: !creates && first > 0 && !woken -> woken = true; to_wake = first; goto wakes
    :: !creates && first > 0 && woken && to_wake == 0 -> woken = false; goto puts
#else
    :: !creates && first > 0 -> goto puts
#endif
#if AT_ONCE
    :: !creates && first == 0 && sets_now -> goto sets_at_once
    :: !creates && first == 0 && sets && !sets_now -> goto arms
    :: !creates && first == 0 && !sets && !sets_now && to_wake > 0 -> goto wakes
    :: !creates && first == 0 && !sets && !sets_now && to_wake == 0 -> goto counts
#else
    :: !creates && first == 0 && sets -> goto arms
    :: !creates && first == 0 && !sets && to_wake > 0 -> goto wakes
    :: !creates && first == 0 && !sets && to_wake == 0 -> goto counts
#endif
    fi
}

/* job.rt: wake, wake_all. The number of who is woken is in the worker's hand; then the next one is woken. */
inline woke() {
    to_wake = then_wake;
    then_wake = 0;
    next_act()
}

inline into_hand() {
    put_number(hand[me], to_wake);
    woke()
}

/* job.rt: steps_of, turns_of. Slot::lock: the lock is free, and somebody is there. */
inline lock_slot() {
    assert(!locked[number] && seated[number]);
    locked[number] = true;
    worked = true;
    may_relieve = true
}

/* job.rt: tell_moves. Signs::add_moves; `count` is whether the sum has reached the limit. */
inline add_moves() {
#ifdef LIMIT
    if
    :: sum < LIMIT && sum + moves >= LIMIT -> cuts++
    :: else
    fi;
    sum = sum + moves;
#ifndef BUG_MOVES_TWICE
    moves = 0;
#else
    /* It tells of all that it has made, and not only of what is new. */
#endif
    count = (sum >= LIMIT)
#else
    skip
#endif
}

