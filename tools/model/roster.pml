/* How threads look up who lives, while another one makes an instance, as a model for Spin. README.md beside it says what
   is modelled. It stands apart from scheduler.pml: no ticket and no queue plays a part in it.

   A step of the model is one access to a word that threads share, or one section under the roster's lock of which
   nobody sees a part. Each names the function whose step it is, by file and name: making.rt, own.rt, signs.rt and
   tables.rt are of threads_shared.

   A macro that begins with BUG_ plants the bug that its comment tells. */

/* How many threads look up, and how often each does. */
#ifndef LOOKERS
#define LOOKERS 2
#endif
#ifndef LOOKS
#define LOOKS 2
#endif

/* The roster's lock, and what it guards: the version, and whether the instance lives that can be made. Another one
   lives from the start, and may end. */
bool locked = false;
byte version = 0;
bool lives = false;

/* The word of the version (signs.rt), and the entry of the instance, by which a signal to its number reaches its port:
   both are seen without the lock. */
byte word = 0;
bool entered = false;

inline lock() { atomic { !locked -> locked = true } }

/* making.rt: make_in, a create. Its number may be known from the script. It may find no memory. */
proctype creator()
{
    lock();
#ifdef BUG_ENTERED_FIRST
    /* It shows the entry before it has announced the version. */
    entered = true;
#else
    if
    :: word = version + 1; /* making.rt: enter, signs.rt: announce_version */
       if
       :: entered = true /* entries.enter */
       :: goto refused
       fi
    :: goto refused
    fi;
#endif
    atomic { lives = true; version++ } /* threads_ports: Roster::live */
    word = version; /* signs.rt: note_version */
    locked = false;
    goto done;
refused:
#ifndef BUG_ANNOUNCED_FOR_EVER
    word = version; /* making.rt: give_back */
#endif
    locked = false;
done:
    skip
}

/* tables.rt: end, of the instance that lives from the start. */
proctype ender()
{
    lock();
    version++;
    word = version;
    locked = false
}

/* A thread whose step sends to the number of the instance, and then looks up who lives (step_runtime.rt: route). */
proctype looker()
{
    byte own_version = 0, looks = 0;
    bool own_lives = false, reached = false;
    do
    :: looks < LOOKS ->
        looks++;
        /* thread_world.rt: a signal to the number. It reaches the port if the instance is entered. */
        if
        :: atomic { entered -> reached = true }
        :: skip
        fi;
        /* own.rt: look */
        if
        :: word == own_version
        :: word != own_version ->
           lock();
           d_step { own_version = version; own_lives = lives };
           locked = false
        fi;
        /* Who has reached it finds it by what it has looked up, as if all of the create were one moment; and who finds
           it reaches it. */
        assert(!reached || own_lives);
        assert(!own_lives || entered)
    :: else -> break
    od
}

/* Once all is done the word is that of the roster, so nobody looks for nothing. */
active proctype checker()
{
    byte thread;
    atomic {
        run creator();
        run ender();
        for (thread : 1 .. LOOKERS) {
            run looker()
        }
    }
    _nr_pr == 1 -> assert(word == version && !locked)
}
