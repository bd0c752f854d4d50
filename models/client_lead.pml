/*
 * How callers that lead, callers that wait, and the thread of input and output hand over to each other: crates/ca_client_context/src.
 *
 * Each block names the function that it follows, in the function's own order; threads take turns between statements. Some things are one step, and hide no
 * lost wake by that:
 *   - the taking of the mutex and what is done under it, since nobody else can look meanwhile. It is let go in a step of its own, so that a try can fail;
 *   - the exchange of `asleep` with the write to the waker: a wake that is written later is still written;
 *   - the look at `waiting` with the wake of `pass`: a later wake would wake more;
 *   - the look at `turns` and `ended` with the call that sleeps, which looks at the word again itself.
 *
 * The number of turns has no end. Here each caller has a bit, whether the number is another than it saw (`stale`). A request goes through three bits: out (it
 * waits in the core), net (the server has it), rx (its reply is in the socket); `filled` is its ticket. Edges are kept until a poll takes them.
 *
 * Left out: bytes and messages, searches and datagrams, memory, the length of a wait, the tries before the mutex sleeps, subscriptions that are cancelled, more
 * than one circuit.
 *
 * -D switches:
 *   N=2          callers that ask and wait
 *   ROUNDS=1     requests of each, one after another
 *   TIMEOUTS=0   no wait ends by time: what needs it stands still, and is found as a stuck state
 *   TIMEOUTS=1   a wait may end by time, at any time
 *   STEADY       10 ms pass only while a poll takes them, and then they do: fewer states
 *   LATELY=1     for how many times 10 ms things are remembered
 *   TOGETHER=n   the n-th request that was not sent sends all
 *   MONITOR      somebody subscribes, and an update comes after that
 *   LISTENS      with MONITOR: the listener waits for a reply, as a caller does
 *   ENDS         somebody calls `end`
 *   CLEARS       somebody clears the channel
 *   QUITS        the first caller may have no time left, after any of its turns
 *   CUTS         once, while a caller leads, the thread finds the circuit closed as it sends
 *   STALLS       the first caller that leads may lose its processor for ever (TIMEOUTS=1)
 *   PLANT=n      a wrong form, which is to be found
 *     1  doze looks whether somebody waits before it says that it leaves the sockets
 *     2  park looks whether the sockets are left before it says that it waits
 *     3  a leader that goes looks whether others wait while it still has the sockets
 *     4  the thread says that it has woken at the end of its turn, and not before it
 *     5  doze says where it waits after it let the lock go
 *     6  a leader that goes does not look whether others wait
 *     7  a leader that goes counts its turn only if it saw somebody wait
 *     8  a circuit that ended while a caller leads is told to nobody (CUTS)
 *     9  `end` wakes the thread alone (ENDS)
 *    10  `clear` wakes the thread alone (CLEARS)
 *    11  a wait that is parked has no end by time (LISTENS)
 *    12  the thread never reads while a caller leads (STALLS)
 */
#ifndef N
#define N 2
#endif
#ifndef ROUNDS
#define ROUNDS 1
#endif
#ifndef TIMEOUTS
#define TIMEOUTS 0
#endif
#ifndef PLANT
#define PLANT 0
#endif
#ifndef LATELY
#define LATELY 1
#endif
#ifdef STEADY
#define MAY_TICK late
#define NEED_NOT_TICK !(late && (wished != 0 || crowded != 0))
#else
#define MAY_TICK true
#define NEED_NOT_TICK true
#endif

mtype = { NOWHERE, AT_SOCKETS, AT_CALL, NOBODY, THREAD, CALLER };

/* Under the lock: LockedClient, and Lead. */
bit lock;
mtype watcher = NOBODY;
byte wished;
byte unseen;            /* of the caller that leads: 2 is late */
bit hears;
bit ending;
byte unsent;
bit told;
bit out[N];

/* The board, which takes no lock. */
bit filled[N];

/* The system. */
bit net[N];
bit rx[N];
bit rx_update;
bit socket_edge;        /* a circuit's socket, at the poll for the sockets */
bit socket_wake;        /* sockets_waker, there too */
bit call_wake;          /* thread_waker, at the thread's own poll */
bit polling;            /* SharedClient.sockets is locked */

/* Words that take no lock: SharedClient. */
mtype asleep = NOWHERE;
bit asked;
bit stale[N];
byte waiting;
byte crowded;
bit ended;
bit parked[N];

/* Callers that want the mutex. The thread lets them have it first: a fair mutex, which the properties of progress need. */
#if TIMEOUTS
bit queued[N];
#define QUEUE(me) queued[me] = 1
#define TAKEN(me) queued[me] = 0
#define NOBODY_QUEUES (!queued[0] && !queued[1])
#else
#define QUEUE(me) skip
#define TAKEN(me) skip
#define NOBODY_QUEUES true
#endif

/* For what is asked of the model. */
bit wants[N];
bit update_came, update_heard;
bit engine_over;
bit was_cut, was_cleared;
bit stalled[N];

/* LockedClient::send. */
inline send_out() {
    unsent = 0;
    for (k : 0 .. N - 1) {
        if
        :: out[k] -> out[k] = 0; net[k] = 1
        :: else
        fi
    };
    k = 0
}

/* LockedClient::move_all. `came` is whether something did. */
inline receive(came) {
    came = 0;
    send_out();
    for (k : 0 .. N - 1) {
        if
        :: rx[k] -> rx[k] = 0; filled[k] = 1; came = 1
        :: else
        fi
    };
    k = 0;
    if
    :: rx_update -> rx_update = 0; told = 1; came = 1
    :: else
    fi
}

/* A circuit ends, or its channel is cleared: so do all requests. */
inline end_all() {
    for (k : 0 .. N - 1) {
        if
        :: out[k] || net[k] || rx[k] -> out[k] = 0; net[k] = 0; rx[k] = 0; filled[k] = 1
        :: else
        fi
    };
    k = 0
}

/* LockedClient::calls. */
#define CALLS (hears || ending || told)

/* SharedClient::wake. */
inline wake() {
    d_step {
        if
        :: asleep == AT_SOCKETS -> socket_wake = 1
        :: asleep == AT_CALL -> call_wake = 1
        :: else
        fi;
        asleep = NOWHERE
    }
}

/* SharedClient::pass. */
inline add_turn() {
    d_step {
        for (k : 0 .. N - 1) { stale[k] = 1 };
        k = 0
    }
}

inline pass() {
    add_turn();
    d_step {
        if
        :: waiting != 0 ->
            for (k : 0 .. N - 1) { parked[k] = 0 };
            k = 0
        :: else
        fi
    }
}

/* SharedClient::leave. */
inline leave(calls) {
#if PLANT == 7
    if
    :: waiting != 0 -> pass(); wake()
    :: waiting == 0 && calls -> wake()
    :: waiting == 0 && !calls
    fi
#elif PLANT == 6
    add_turn();
    if
    :: calls -> wake()
    :: else
    fi
#else
    pass();
    if
    :: calls || waiting != 0 -> wake()
    :: !calls && waiting == 0
    fi
#endif
}

/* SharedClient::call_all. */
inline call_all() {
    pass();
    socket_wake = 1;
    wake()
}

/* SharedClient::watch. Nobody ever finds the mutex of the sockets taken. */
inline watch(late) {
    d_step { assert(!polling); polling = 1 };
    if
    :: d_step { socket_edge || socket_wake -> socket_edge = 0; socket_wake = 0; polling = 0 }
#if TIMEOUTS
    :: d_step { late = 1; polling = 0 }
#endif
    fi
}

/* The same by the thread, which may wait there when all is done. */
inline watch_as_thread(late) {
    d_step { assert(!polling); polling = 1 };
end_at_sockets:
    if
    :: d_step { socket_edge || socket_wake -> socket_edge = 0; socket_wake = 0; polling = 0 }
#if TIMEOUTS
    :: d_step { late = 1; polling = 0 }
#endif
    fi
}

/* Context::issue. */
inline issue(me) {
    QUEUE(me);
    d_step {
        lock == 0 -> lock = 1;
        TAKEN(me);
        filled[me] = 0;
        wants[me] = 1;
        if
        :: was_cleared || was_cut && ending -> filled[me] = 1
        :: else -> out[me] = 1
        fi;
        if
        :: unsent == 0 -> asked = 1
        :: else
        fi;
#ifdef TOGETHER
        unsent++;
        if
        :: unsent >= TOGETHER -> send_out()
        :: else
        fi
#else
        unsent = 1
#endif
    };
    lock = 0
}

/* SharedClient::flush, SharedClient::send_now. */
inline flush() {
    d_step { was = asked; asked = 0 };
    if
    :: was && waiting != 0 -> wake()
    :: was && waiting == 0 ->
        if
        :: d_step { lock == 0 -> lock = 1; send_out() }; lock = 0
        :: lock != 0 -> wake()
        fi
    :: !was
    fi;
    was = 0
}

/* The thread of input and output: Engine::run. */
proctype Engine() {
    mtype place = NOWHERE;
    bit any, late, heard, left_to;
    byte k;

    do
    ::  /* Engine::rest. */
        if
        :: place == NOWHERE
        :: place == AT_SOCKETS -> watch_as_thread(late)
        :: place == AT_CALL ->
end_at_call:
            if
            :: d_step { call_wake -> call_wake = 0 }
#if TIMEOUTS
            :: late = 1
#endif
            fi
        fi;
#if PLANT != 4
        asleep = NOWHERE;
#endif
        /* Engine::work, turn. */
        atomic {
            lock == 0 && NOBODY_QUEUES -> lock = 1;
            if                          /* Lead::rise */
            :: watcher != CALLER -> watcher = NOBODY
            :: else
            fi;
#ifdef STALLS
            if
            :: watcher == CALLER && late && unseen < 2 -> unseen++
            :: else
            fi;
#endif
            if                          /* 10 ms may have passed: Lead::rise, SharedClient::tick */
            :: (wished != 0 || crowded != 0) && MAY_TICK ->
                if
                :: wished != 0 -> wished--
                :: else
                fi;
                if
                :: crowded != 0 -> crowded--
                :: else
                fi
            :: NEED_NOT_TICK
            fi;
            any = told;                 /* told_before */
#ifdef CUTS
            if                          /* what LockedClient::send_all finds */
            :: watcher == CALLER && !was_cut ->
                d_step {
                    was_cut = 1;
                    end_all();
#if PLANT != 8
                    any = 1
#endif
                }
            :: true
            fi;
#endif
            d_step {
                if                      /* LockedClient::serve */
#if PLANT == 12
                :: watcher == CALLER -> send_out()
#else
                :: watcher == CALLER && unseen < 2 -> send_out()
#endif
                :: else -> receive(heard); any = any || heard
                fi;
                heard = told;           /* the swap of `told` */
                told = 0;
                if                      /* call_leader */
                :: any && watcher == CALLER -> socket_wake = 1
                :: else
                fi;
                if
                :: ending -> end_all()  /* close_all */
                :: else ->
                    if
                    :: any -> place = NOWHERE
                    :: else ->          /* SharedClient::doze begins: Lead::is_left, Lead::take */
                        asked = 0;
                        left_to = watcher == CALLER || (wished != 0 && crowded == 0 && !hears);
                        place = AT_SOCKETS
                    fi
                fi
            }
        };
        if
        :: ending -> lock = 0; ended = 1; pass(); break
        :: !ending && place == NOWHERE -> lock = 0
        :: !ending && place != NOWHERE ->
            /* The rest of doze. */
#if PLANT == 1
            if
            :: left_to && (watcher == CALLER || waiting == 0) -> place = AT_CALL
            :: else -> watcher = THREAD
            fi;
            asleep = place;
            lock = 0
#elif PLANT == 5
            if
            :: left_to && (watcher == CALLER || waiting == 0) -> place = AT_CALL
            :: else -> watcher = THREAD
            fi;
            lock = 0;
            asleep = place
#else
            if
            :: left_to ->
                asleep = AT_CALL;
                if
                :: watcher == CALLER || waiting == 0 -> place = AT_CALL
                :: else
                fi
            :: else
            fi;
            if
            :: place == AT_SOCKETS -> d_step { watcher = THREAD; asleep = AT_SOCKETS }
            :: else
            fi;
            lock = 0
#endif
        fi;
#if PLANT == 4
        asleep = NOWHERE;
#endif
        /* tell_all. */
#ifdef LISTENS
        if
        :: heard && update_came && !update_heard ->
            /* The listener waits for a reply that only this thread would read: SharedClient::park. */
            waiting++;
            if
#if PLANT != 11
            :: skip                     /* its time is over */
#endif
            :: ended
            fi;
            waiting--
        :: else
        fi;
#endif
        /* Waits::end. After a poll that took its 10 ms the last end was 10 ms ago. */
        d_step {
            if
            :: heard && update_came -> update_heard = 1
            :: else
            fi;
            heard = any || late;
            any = 0;
            late = 0;
            left_to = 0
        };
        if
        :: heard -> heard = 0; pass()
        :: else
        fi
    od;
    engine_over = 1
}

/* A caller in its thread. */
proctype Caller(byte me) {
    bit came, found, waits, calls, was;
    byte k, rounds;

next:
    if
    :: ended || rounds == ROUNDS -> goto over
    :: else -> rounds++
    fi;
    issue(me);
    /* Context::wait_for. */
    if
    :: filled[me] -> goto got
    :: else
    fi;
turn:
    /* Context::wait_once. */
    stale[me] = 0;
    /* SharedClient::hold_to_lead, SharedClient::is_crowded. */
    d_step {
        if
        :: waiting != 0 -> crowded = LATELY
        :: else
        fi;
        was = crowded != 0
    };
    if
    :: was -> was = 0; goto left
    :: else
    fi;
    QUEUE(me);
    d_step {
        lock == 0 -> lock = 1;
        TAKEN(me);
        wished = LATELY;                /* LockedClient::may_lead */
        was = !hears && watcher == NOBODY && !ending;
        if
        :: was ->
            asked = 0;
            receive(came)               /* Context::lead */
        :: !was && watcher == CALLER -> crowded = LATELY
        :: !was && watcher != CALLER
        fi
    };
    if
    :: was -> was = 0
    :: else -> lock = 0; goto left
    fi;
    d_step {
        found = filled[me];
        waits = !came && !found;
        came = 0;
        if
        :: waits -> watcher = CALLER; unseen = 0
        :: else
        fi;
        calls = CALLS;
        lock = 0
    };
    if
    :: waits ->
        /* Context::follow. */
        watch(came);
#ifdef STALLS
        if
        :: me == 0 -> stalled[me] = 1; goto over
        :: true
        fi;
#endif
#if PLANT == 3
        leave(calls);
#endif
        QUEUE(me);
        d_step {
            lock == 0 -> lock = 1;
            TAKEN(me);
            watcher = NOBODY;
            receive(came);
            calls = CALLS;
            came = 0
        };
        lock = 0
    :: else
    fi;
#if PLANT == 3
    if
    :: !waits -> leave(calls)
    :: else
    fi;
#else
    leave(calls);
#endif
    d_step { calls = 0; waits = 0 };
    if
    :: found -> found = 0; goto got
    :: else -> goto look_again
    fi;

left:
    flush();
    if
    :: filled[me] -> goto got
    :: else
    fi;
    /* SharedClient::park. */
#if PLANT != 2
    waiting++;
#endif
    if
    :: asleep == AT_CALL -> wake()
    :: else
    fi;
#if PLANT == 2
    waiting++;
#endif
    if
    :: d_step { !stale[me] && !ended -> parked[me] = 1 };
        if
        :: parked[me] == 0
#if TIMEOUTS && PLANT != 11
        :: parked[me] = 0
#endif
        fi
    :: stale[me] || ended
    fi;
    waiting--;
    if
    :: ended -> goto last_look
    :: else
    fi;

look_again:
    if
    :: filled[me] -> goto got
    :: else
    fi;
#ifdef QUITS
    if
    :: me == 0 -> goto last_look
    :: true
    fi;
#endif
    goto turn;

got:
    wants[me] = 0;
    goto next;

last_look:
    wants[me] = 0;
over:
    skip
}

/* The server, and the network. */
proctype Server() {
end:
    do
    :: d_step { net[0] -> net[0] = 0; rx[0] = 1; socket_edge = 1 }
    :: d_step { net[1] -> net[1] = 0; rx[1] = 1; socket_edge = 1 }
#ifdef MONITOR
    :: d_step { hears && !update_came -> update_came = 1; rx_update = 1; socket_edge = 1 }
#endif
    od
}

#ifdef MONITOR
/* Context::monitor. */
proctype Monitor() {
    d_step { lock == 0 -> lock = 1; hears = 1 };
    lock = 0;
    wake()
}
#endif

#ifdef ENDS
/* Context::end. */
proctype Ender() {
    byte k;
    d_step { lock == 0 -> lock = 1; ending = 1 };
    lock = 0;
#if PLANT == 9
    wake()
#else
    call_all()
#endif
}
#endif

#ifdef CLEARS
/* Context::clear. */
proctype Clearer() {
    byte k;
    d_step { lock == 0 -> lock = 1; was_cleared = 1; end_all() };
    lock = 0;
#if PLANT == 10
    wake()
#else
    call_all()
#endif
}
#endif

init {
    byte c;
    atomic {
        run Engine();
        run Server();
        for (c : 0 .. N - 1) { run Caller(c) };
#ifdef MONITOR
        run Monitor();
#endif
#ifdef ENDS
        run Ender();
#endif
#ifdef CLEARS
        run Clearer();
#endif
        c = 0
    }
}

#if defined(MONITOR) && !TIMEOUTS && !defined(LISTENS)
/* When nothing more happens by itself, an update that came was heard. */
active proctype Quiet() {
end:
    timeout;
    assert(!rx_update && !told && (!update_came || update_heard))
}
#endif

/* Each wait ends (under weak fairness). */
ltl first { [] (wants[0] -> <> !wants[0]) }
ltl second { [] (wants[1] -> <> !wants[1]) }
