/* What the threads share, and what only the model knows. */

/* slot_state.rt */
#define OVER 0
#define IDLE 1
#define READY 2
#define AGAIN 3

#define DRIVER 0
#define NOBODY 255

/* A slot: its state, its lock, and whether somebody is there. Numbers are from 1. */
byte slot_state[INSTANCES + 1];
bool locked[INSTANCES + 1];
bool seated[INSTANCES + 1];

/* An instance: whether it is entered, so that signals to it reach its port; whether its start is made;
   whether it has stopped; how many of its continuous signals are true. */
bool entered[INSTANCES + 1];
bool started[INSTANCES + 1];
bool stopped[INSTANCES + 1];
#if CONDITIONS
byte conditions[INSTANCES + 1];
#define TRUE_CONDITIONS(n) (conditions[n] > 0)
#else
#define TRUE_CONDITIONS(n) false
#endif

/* Its port: what is in the queue that others put into. Some of it may be saved by a state: that is drawn and waits. */
byte queue[INSTANCES + 1];
#if SAVES
byte queue_savable[INSTANCES + 1];
byte waiting[INSTANCES + 1];
bool saving[INSTANCES + 1];
#define IN_QUEUE(n) (queue[n] > 0 || queue_savable[n] > 0)
#define CAN_TAKE(n) (queue[n] > 0 || ((queue_savable[n] > 0 || waiting[n] > 0) && !saving[n]))
#else
#define IN_QUEUE(n) (queue[n] > 0)
#define CAN_TAKE(n) (queue[n] > 0)
#endif

/* tables.rt: the wheel, of which each instance has one fuse at most, with its time; the clock. */
byte fuse[INSTANCES + 1];
byte clock;

/* injector.rt: the common queue, who sleeps (a bit for each worker), how many workers there are, and whether the run is
   over. */
chan injector = [INSTANCES] of { byte };
byte asleep;
byte workers = WORKERS;
bool injector_closed;

/* local.rt: the local queue of each worker. Only it puts numbers in; others may take them out. */
chan locals[WORKERS] = [INSTANCES] of { byte };

/* own.rt: the numbers that a worker has in its hand, beside that of its job. Only it looks there. */
chan hand[WORKERS] = [INSTANCES] of { byte };

/* signs.rt: the words. */
byte sleepers;
byte seekers;
byte queued;
bool signs_closed;
bool signs_failed;
#ifdef LIMIT
byte sum;
#endif

/* The token of each thread's parker: the driver's, then those of the workers. */
bool token[WORKERS + 1];
byte done;

/* From here on what only the model knows. */

/* What may happen still. */
byte sends = SENDS;
byte timers = TIMERS;
byte heard;
bool last_heard;
#ifdef CREATE
bool may_create = true;
#endif
#if AT_ONCE
byte at_once = AT_ONCE;
#endif
#if STOPS
byte stops = STOPS;
#endif
#if CONDITIONS
byte may_be_true = CONDITIONS;
#endif
#if SAVES
byte saves = SAVES;
#endif
#if FAILS
byte fails = FAILS;
#endif
#if SPURIOUS
byte spurious = SPURIOUS;
#endif
#ifdef LIMIT
byte made;
byte cuts;
#endif

/* Whether a queue or a worker has the number. */
bool ticket[INSTANCES + 1];

#ifdef BUG_RELIEF_TAKES_JOB
/* The number of each worker's job. */
byte at_job[WORKERS];
#define note_job(y) at_job[me] = y
#else
#define note_job(y) skip
#endif

#if WORKERS == 1
#define COUNT_OF(set) ((set) & 1)
#elif WORKERS == 2
#define COUNT_OF(set) (((set) & 1) + (((set) >> 1) & 1))
#elif WORKERS == 3
#define COUNT_OF(set) (((set) & 1) + (((set) >> 1) & 1) + (((set) >> 2) & 1))
#endif

inline be_ticket(y) {
    assert(!ticket[y]);
    ticket[y] = true
}

#define HAS_NUMBER(worker, y) ((locals[worker] ?? [eval(y)]) || (hand[worker] ?? [eval(y)]))

/* A number goes into a queue, or into a hand: it is in no other. */
inline put_number(into, y) {
    assert(ticket[y]);
    assert(!(injector ?? [eval(y)]) && !HAS_NUMBER(0, y));
#if WORKERS > 1
    assert(!HAS_NUMBER(1, y));
#endif
#if WORKERS > 2
    assert(!HAS_NUMBER(2, y));
#endif
    into ! y
}

inline move_number(from, into) {
    from ? moved;
    put_number(into, moved);
    moved = 0
}

inline move_all(from, into) {
    do
    :: nempty(from) -> move_number(from, into)
    :: empty(from) -> break
    od
}
