/* The door of the desk, the array lock, and those who sleep at either. `README.md` says which line of the code each
   line here stands for. A statement that touches a shared variable is one atomic step of the code; `atomic { .. }` is
   one such step, with what it changes in the worker itself and in what the code does not have. */

#ifndef WORKERS
#define WORKERS 4
#endif

/* How often each worker hands a call in. */
#ifndef TURNS
#define TURNS 2
#endif

/* How many flags there are: in the code 64, at least as many as workers. */
#ifndef FLAGS
#define FLAGS WORKERS
#endif

/* How many workers, the first ones, come to the line beside the door. */
#ifndef BESIDE
#define BESIDE 0
#endif

/* How many sleeps, in all, may end for no reason. */
#ifndef SPURIOUS
#define SPURIOUS 0
#endif

/* The words of the table: the ticket that is drawn next, and the flags. */
byte next;
bit flag[FLAGS];

/* The door, but for its sleepers. */
bit shut;
byte looking;
bit called;

/* The event counts: one for each flag, and behind these the door's. */
#define DOOR FLAGS
byte waiters[FLAGS + 1];

/* The epoch of an event count is only ever compared with the one that a worker read there before. So it is kept as the
   answer to that: one more than the number of the event count whose epoch the worker read and which is the same since,
   or 0. */
byte same[WORKERS];

/* Where the kernel has a worker asleep: one more than the number of the event count, or 0. */
byte asleep[WORKERS];

/* What the code does not have: how many calls were taken, whether a worker is inside or leaving, how many workers have
   ended, and how many sleeps have ended for no reason. */
byte entries;
bit taken;
byte ended;
byte spurious;

/* The event count. */

inline read_epoch(at) {
    same[me] = at + 1
}

#define IS_SAME(at) (same[me] == at + 1)
#define RAISED_FOR(w, at) same[w] = (same[w] == at + 1 -> 0 : same[w])
#define WAKES(w, at) atomic { asleep[w] == at + 1 -> asleep[w] = 0 }

inline raise_epoch(at) {
    atomic {
        RAISED_FOR(0, at);
#if WORKERS > 1
        RAISED_FOR(1, at);
#endif
#if WORKERS > 2
        RAISED_FOR(2, at);
#endif
#if WORKERS > 3
        RAISED_FOR(3, at);
#endif
#if WORKERS > 4
#error "four workers at the most"
#endif
    }
}

/* Any one of those who sleep there wakes, if any does. */
inline wake_one(at) {
    if
    :: WAKES(0, at)
#if WORKERS > 1
    :: WAKES(1, at)
#endif
#if WORKERS > 2
    :: WAKES(2, at)
#endif
#if WORKERS > 3
    :: WAKES(3, at)
#endif
    :: else
    fi
}

inline prepare_wait(at) {
    waiters[at]++;
    read_epoch(at)
}

inline drop_key(at) {
    atomic { waiters[at]--; same[me] = 0 }
}

/* The kernel compares and puts to sleep in one step. */
inline park(at) {
    if
    :: !IS_SAME(at)
    :: atomic { IS_SAME(at) -> asleep[me] = at + 1 };
       if
       :: asleep[me] == 0
#if SPURIOUS > 0
       :: atomic { asleep[me] != 0 && spurious < SPURIOUS -> asleep[me] = 0; spurious++ }
#endif
       fi
    fi
}

inline wait(at) {
    do
    :: !IS_SAME(at) -> break
    :: IS_SAME(at) -> park(at)
    od;
    drop_key(at)
}

inline notify_one(at) {
    if
    :: waiters[at] == 0
    :: waiters[at] != 0 ->
       raise_epoch(at);
       wake_one(at)
    fi
}

/* The door. */

/* A look that finds the door open and takes it. One that finds it shut, or that another one was faster than, changes
   nothing. */
inline take_the_door() {
    atomic { shut == 0 -> shut = 1 }
}

inline take_back_the_call() {
    called = 0
}

inline sleep_at_door() {
#ifdef DOOR_LOOKS_FIRST
    if
    :: shut == 0
    :: shut == 1 ->
       looking--;
       prepare_wait(DOOR);
       take_back_the_call();
       wait(DOOR);
       looking++;
       take_back_the_call()
    fi
#else
    prepare_wait(DOOR);
#ifndef DOOR_KEEPS_AN_OLD_CALL
    take_back_the_call();
#endif
#if !defined(DOOR_COUNTS_THE_LAST_LOOK) && !defined(DOOR_COUNTS_SLEEPERS)
    looking--;
#endif
    if
    :: shut == 0 ->
#ifdef DOOR_COUNTS_THE_LAST_LOOK
       looking--;
#endif
       drop_key(DOOR)
    :: shut == 1 ->
#ifdef DOOR_COUNTS_THE_LAST_LOOK
       looking--;
#endif
       wait(DOOR)
    fi;
#ifndef DOOR_COUNTS_SLEEPERS
    looking++;
#endif
#ifndef DOOR_KEEPS_THE_CALL
    take_back_the_call()
#endif
#endif
}

/* Whoever is awake at the door looks a few times, and sleeps where the last look did not let it in. */
inline look_at_the_door() {
    looking++;
    do
    :: take_the_door() -> break
    :: shut == 1 -> sleep_at_door()
    od;
    looking--
}

inline come_in() {
    if
    :: take_the_door()
    :: shut == 1 -> look_at_the_door()
    fi
}

inline open_the_door() {
    atomic { shut = 0; ticket = 0; turns++ }
}

/* Who leaves with nobody looking calls a sleeper. */
inline call_a_sleeper() {
    if
    :: called == 1
    :: atomic { called == 0 -> called = 1 }; notify_one(DOOR)
    fi
}

inline go_out() {
#if defined(DOOR_CALLS_FIRST)
    if
    :: looking != 0
    :: looking == 0 -> call_a_sleeper()
    fi;
    open_the_door()
#elif defined(DOOR_SEES_WHO_LOOKS_FIRST)
    if
    :: looking != 0 -> open_the_door()
    :: looking == 0 -> open_the_door(); call_a_sleeper()
    fi
#else
    open_the_door();
    if
    :: looking != 0
    :: looking == 0 -> call_a_sleeper()
    fi
#endif
}

/* The lock. */

#define PLACE (ticket % FLAGS)
#define NEXT_PLACE ((ticket + 1) % FLAGS)

/* A look that finds the flag open. From here to the shut flag the book is this worker's, and the call is taken. */
inline look() {
    atomic {
        flag[PLACE] == 1 ->
        assert(taken == 0);
        taken = 1;
        assert(ticket == entries);
        entries++
    }
}

inline draw() {
#ifdef DRAWS_IN_TWO_STEPS
    ticket = next;
    next = ticket + 1
#else
    atomic { ticket = next; next++ }
#endif
}

inline enter() {
    draw();
    if
    :: look()
    :: flag[PLACE] == 0 ->
       do
#ifdef PLACE_LOOKS_FIRST
       :: look(); break
       :: flag[PLACE] == 0 ->
          prepare_wait(PLACE);
          wait(PLACE)
#else
       :: prepare_wait(PLACE);
          if
          :: look(); drop_key(PLACE); break
          :: flag[PLACE] == 0 -> wait(PLACE)
          fi
#endif
       od
    fi
}

inline open_next() {
    atomic { flag[NEXT_PLACE] = 1; taken = 0 }
}

inline leave() {
#if defined(PLACE_WAKES_FIRST)
    flag[PLACE] = 0;
    notify_one(NEXT_PLACE);
    open_next()
#elif defined(PASSES_BEFORE_IT_SHUTS)
    flag[NEXT_PLACE] = 1;
    notify_one(NEXT_PLACE);
    atomic { flag[PLACE] = 0; taken = 0 }
#else
    flag[PLACE] = 0;
    open_next();
    notify_one(NEXT_PLACE)
#endif
}

/* One turn of a worker that comes to the line beside the door. */
inline turn_beside_the_door() {
    enter();
    leave();
    atomic { ticket = 0; turns++ }
}

proctype worker(byte me) {
    byte turns, ticket;
    do
    :: turns < TURNS && me >= BESIDE ->
       come_in();
       enter();
       leave();
       go_out()
    :: turns < TURNS && me < BESIDE -> turn_beside_the_door()
    :: turns == TURNS -> break
    od;
    atomic {
        ended++;
        if
        :: ended == WORKERS ->
           assert(entries == WORKERS * TURNS);
           assert(shut == 0);
           assert(looking == 0);
           assert(taken == 0)
        :: else
        fi
    }
}

init {
    atomic {
        flag[0] = 1;
        byte w;
        for (w : 0 .. WORKERS - 1) {
            run worker(w)
        }
    }
}
