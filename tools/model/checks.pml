/* What must be so if the clock moves, or if the run ends whole: nobody steps, and nobody is to. */

inline check_number(y) {
    assert(!ticket[y]);                             /* No queue and no worker has the number. */
    assert(!locked[y]);                             /* Nobody is in the slot.  */
    assert(slot_state[y] == IDLE || slot_state[y] == OVER);
    assert(stopped[y] || !entered[y] || (started[y] && !TRUE_CONDITIONS(y) && !CAN_TAKE(y)))
}

inline check_rest() {
    check_number(1);
    check_number(2);
#if INSTANCES > 2
    check_number(3);
#endif
#ifdef LIMIT
    assert(sum == made && made < LIMIT);
#endif
    skip
}
