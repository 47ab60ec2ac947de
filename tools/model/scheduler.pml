/* How the threads of a run share out its instances, as a model for Spin. README.md beside it says what is modelled.

   A step of the model is one access to a word that threads share, or one section under a lock, with the thread's own
   work before or after it. Each step names the function whose step it is, by file and name: slot_state.rt, slots.rt and
   injector.rt are of threads_instance (queue); signs.rt, tables.rt, making.rt and own.rt of threads_shared; worker.rt,
   job.rt, driver.rt, pool.rt and start.rt of threads_workers.

   Each file is named after the one whose steps it has, so far as there is one.

   A macro that begins with BUG_ plants the bug that its comment tells. Variables of a thread are 0 while it doesn't
   need them, so that states which differ in nothing else are one. For the same reason a step ends with a `goto` to the
   next one that is to be made, over those that aren't. */

/* What is explored: `run` sets these. */

#ifndef WORKERS
#define WORKERS 2
#endif
/* Instances with which the run begins, and those that may be there in the end: one more, if one can be created. */
#ifndef FIRST
#define FIRST 2
#endif
#ifdef CREATE
#define INSTANCES (FIRST + 1)
#else
#define INSTANCES FIRST
#endif
/* How many signals all instances together send at most, how many timers they set, how many of these are due at once. */
#ifndef SENDS
#define SENDS 1
#endif
#ifndef TIMERS
#define TIMERS 1
#endif
#ifndef AT_ONCE
#define AT_ONCE 0
#endif
/* Lines of the script with a signal, all at time 1; and the time of its last line, which has none. */
#ifndef LINES
#define LINES 1
#endif
#ifndef LAST
#define LAST 1
#endif
/* How many instances stop at most; how often a continuous signal becomes true; how often a state is entered that saves
   the signals that may be saved; how often a thread finds no memory; how often a parked thread wakes by itself. */
#ifndef STOPS
#define STOPS 0
#endif
#ifndef CONDITIONS
#define CONDITIONS 0
#endif
#ifndef SAVES
#define SAVES 0
#endif
#ifndef FAILS
#define FAILS 0
#endif
#ifndef SPURIOUS
#define SPURIOUS 0
#endif
/* LIMIT: the limit of transitions. PART: how many of them a worker makes before it tells of them. */
#ifndef PART
#define PART 1
#endif
/* FEWER: each worker but the first may not start. */

#include "shared.pml"
#include "waking.pml"
#include "injector.pml"
#include "slot_state.pml"
#include "checks.pml"
#include "acts.pml"
#include "worker.pml"
#include "driver.pml"
