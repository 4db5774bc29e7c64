/* How the gatherer and its workers wait for each other: a model of crates/mwc_gather, which
 * tests/model.sh searches by `spin`, also with slips that it must find.
 *
 * Left out are the coalitions, how often a thread looks before it announces its sleep (here once),
 * and memory orders, because all atomics that decide a sleep are sequentially consistent. Left out
 * are also wake-ups that only come in addition: after some full rows, or because another thread
 * came between two steps that are one here. A thread that never ends is an invalid end state, and
 * so is a lost wake-up, unless the longest sleep makes up for it (TIMED). */
#ifndef TASKS
#define TASKS 2
#endif
#ifndef SLICES
#define SLICES 2
#endif
/* the most coalitions of a slice */
#define COALITIONS 2
/* the most words that the gatherer takes at once */
#define ROW 2
/* the number of the gatherer's waker; that of a worker is its own number */
#define GATHERER WORKERS
/* whom the gatherer wakes for worker i */
#ifdef WAKES_WORKER_0
#define WOKEN 0
#else
#define WOKEN i
#endif

/* words: a coalition, the end of a slice, the end of the work, or its end after one coalition too
 * many; tasks: a slice, or that there is none. Open changes nothing, and is left out. */
mtype = { One, Done, End, Cut, Slice, Dismiss };

chan words[WORKERS] = [RING] of { mtype };
chan tasks[WORKERS] = [TASKS] of { mtype };
/* Waker: whether its thread sleeps or is about to, and whether its parker was told to go on */
bool asleep[WORKERS + 1];
bool unparked[WORKERS + 1];
/* how many threads of workers have not ended */
byte alive;

/* Waker::wake */
inline wake(who) {
    atomic {
        if
        :: asleep[who] -> asleep[who] = false; unparked[who] = true
        :: !asleep[who]
        fi
    }
}

/* Backoff::renew, of the thread's own backoff */
inline renew(who) {
    if
    :: announced -> asleep[who] = false; announced = false
    :: !announced
    fi
}

/* Backoff::wait, after a look that found nothing: announces a sleep, before one more look; or sleeps
 * if it was announced */
inline wait(who) {
    if
    :: atomic { !announced -> asleep[who] = true; announced = true }
#ifdef SLEEPS_AT_ONCE
        ;
        atomic { unparked[who] -> unparked[who] = false; renew(who) }
#endif
    :: atomic { announced && unparked[who] -> unparked[who] = false; renew(who) }
#ifdef TIMED
    :: atomic { announced -> renew(who) }
#endif
    fi
}

/* run_worker: `ones` coalitions and then `last` are to be sent, or nothing if `last` is 0 */
proctype worker(byte me) {
    bool announced;
    byte ones;
    mtype task, last;
next:
    do
    :: atomic { last == 0 && task == Dismiss -> alive--; break }
    /* next_task */
    :: atomic {
            last == 0 && task != Dismiss && nempty(tasks[me]) ->
            tasks[me]?task;
            renew(me);
            if
            :: task == Dismiss -> last = End
            :: task == Slice -> ones = 1; last = Done
            :: task == Slice -> ones = COALITIONS; last = Cut; task = Dismiss
            fi
        };
        wake(GATHERER)
    /* send: puts in a word, and wakes the gatherer if it is the last; full rows may wake nobody */
    :: atomic {
            last != 0 && nfull(words[me]) ->
            renew(me);
            if
            :: ones > 0 -> words[me]!One; ones--; goto next
            :: ones == 0 ->
                if
#ifdef SENDS_NO_DONE
                :: last == Done
#endif
#ifdef SENDS_NO_END
                :: last == End
#endif
                :: words[me]!last
                fi;
                last = 0
            fi
        };
#ifndef WAKES_NOBODY
        wake(GATHERER)
#endif
    /* send: its ring is full, and it wakes the gatherer before it waits */
    :: atomic {
            last != 0 && full(words[me]);
#ifndef FILLS_IN_SILENCE
            wake(GATHERER)
#endif
        };
        wait(me)
    /* next_task: it has none */
    :: atomic { last == 0 && task != Dismiss && empty(tasks[me]) -> skip };
        wait(me)
    od
}

/* gather, with the thread that calls it */
init {
    bool announced, stopped, moved;
    bool idle[WORKERS], dismissed[WORKERS], ended[WORKERS];
    byte i, started, running, taken, given;
    mtype word;
    /* open_all: a worker may not start, and then none after it */
    atomic {
        do
        :: started < WORKERS -> idle[started] = true; run worker(started); started++
        :: started < WORKERS -> stopped = true; break
        :: started == WORKERS -> break
        od;
        running = started;
        alive = started
    };
    /* read_all: each worker in turn */
    do
    :: atomic { running == 0 -> i = 0; break }
    :: atomic {
            /* serve: takes what has arrived */
            running > 0;
            do
            :: taken < ROW && nempty(words[i]) ->
                words[i]?word;
                taken++;
                assert(!ended[i]);
                if
                :: word == Done -> idle[i] = true
                :: word == Cut -> ended[i] = true; running--; stopped = true
                :: word == End -> ended[i] = true; running--
                /* for a coalition room may be refused */
                :: word == One
                :: word == One -> stopped = true
                fi
            :: taken == ROW || empty(words[i]) -> break
            od;
            word = 0;
            if
            :: taken > 0 -> taken = 0; moved = true
            :: taken == 0 -> goto assign_next
            fi
        };
        wake(WOKEN);
assign_next:
        atomic {
            if
            :: !idle[i] || dismissed[i] -> goto next
            :: idle[i] && !dismissed[i] && (stopped || given == SLICES) -> dismissed[i] = true; tasks[i]!Dismiss
            :: idle[i] && !dismissed[i] && !stopped && given < SLICES -> idle[i] = false; given++; tasks[i]!Slice
            fi
        };
        wake(WOKEN);
next:
        atomic {
            i++;
            if
            :: i < started
            :: i == started && (moved || running == 0) -> i = 0; moved = false; renew(GATHERER)
            :: i == started && !moved && running > 0 -> i = 0; goto nothing
            fi
        };
        if
        :: true
        :: false ->
nothing:    wait(GATHERER)
        fi
    od;
    /* finish_all: joins the workers, whose rings are then empty */
    alive == 0;
    do
    :: atomic { i == started -> break }
    :: atomic { i < started -> assert(empty(words[i]) && (stopped || idle[i])); i++ }
    od;
    /* without a fault each slice was given, and finished */
    assert(stopped || given == SLICES)
}
