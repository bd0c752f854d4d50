/*
 * The server's circuits, each of which pumps for itself, the bells by which they wake one another, the processing threads, and the end:
 * crates/ca_serve/src.
 *
 * Each block names the function that it follows, in the function's own order; threads take turns between statements. What is done under the mutex is one step with
 * the taking of the mutex, since nobody else can look meanwhile; the letting go, and what follows, are steps of their own.
 *
 * With PARKS a circuit begins parked, and is parked again as nothing comes to its poll, also while its socket is full, so many times at most. While it has a poll of its own (`own`, of which `life` is the number)
 * it is told by `edge` and `bell`. While it is parked its socket is among those of the polling thread (`joined`, `told`), and its thread waits for `token`. Either poll reports
 * at once what is there as a socket comes in. Where there is no descriptor for a poll the circuit stays parked. Without PARKS each circuit has its poll for ever.
 *
 * A circuit has `rx`, messages in its socket; `input`, messages in the core; `due`, updates that wait in the core for a pump, which leaves them there once the output is full;
 * `output`, bytes in the core that wait to be sent; `line`, bytes that the thread took out, all that there were, and has not written; `room`, whether the socket takes bytes.
 * Edges (`edge`, `bell`) are kept until a poll takes them. No wait of the server ends by time, but for the pauses of a thread without memory and of what a closed circuit left, which are left out,
 * and for that of PATIENCE.
 *
 * A message is a put. On a quick record it is applied at once, and is an update for each circuit that watches. On a slow one it makes the record busy, or waits for
 * it; a processing thread finishes it: that is a late reply to its circuit, and the next put that waits is applied. One message a turn stands for many. Whoever applied
 * or finished a put notes the bells of the idle circuits that it reached under the mutex (`is_due`). In each turn, and in each finish, a thread takes FEW of those along (`rings`),
 * and rings them one by one once it has let go: FEW is the number of one that noted none, and those that did may take more.
 *
 * A wait for a condition looks at the number of notifications under the mutex, lets go, and sleeps unless that changed (`unseen`).
 *
 * -D switches:
 *   C=2         circuits (the last is accepted late with LATE)
 *   PUTS=1      messages of each client that sends
 *   SENDERS=1   how many clients send, from the first on; all, if it is not said
 *   WATCHERS=1  how many circuits watch, from the last on; all, if it is not said
 *   LIMIT=2     the core's output is full with so much; with 1 more updates may wait than a pump puts into it at once
 *   SLOW        puts may be on the slow record
 *   FULL        a client may stop reading for a time
 *   DEAF        and the client of circuit 0 for ever
 *   CLOSES      the client of circuit 0 may close it
 *   LATE        the last circuit is accepted at any time
 *   LACKS       there may be no memory for an update, which ends its circuit
 *   FEW=1       bells that a thread takes along
 *   PARKS=1     how often a circuit is parked again
 *   PATIENCE    a wait for room may end by time, and the circuit is cut then
 *   ENDS        the server ends at some time
 *   P=1         processing threads
 *   PLANT=n     a wrong form, which is to be found
 *     1  a circuit says that it is idle before the pump, which is made under another hold
 *     2  bells are taken and rung before the put is applied, which is done under another hold
 *     3  a circuit says that it is idle after it has let the lock go
 *     4  a circuit's thread waits at its socket before it reads (FULL)
 *     5  a finish does not ring the circuit of its put (SLOW)
 *     6  `end` rings no bell (ENDS)
 *     7  the last of those that a put reached is left out
 *     8  a record that a finish makes busy again is not handed on (SLOW)
 *     9  a finish does not ring those that its next put reached (SLOW)
 *    10  a circuit's thread that is about to wait forgets that its bell was rung
 *    11  a circuit that its update ended is not rung (LACKS)
 *    12  only who noted a bell takes some along (C=3)
 *    13  a circuit that is parked waits before it takes a turn (PARKS)
 *    14  the polling thread takes the bells of those that it wakes (PARKS=0: a wait that ends by time hides it)
 *    15  a parked circuit whose socket is full does not ask to be told of room (PARKS, FULL)
 *    16  the bell of a parked circuit is that of the poll that it had (PARKS)
 *    17  `end` rings no bell of a parked circuit (PARKS, ENDS)
 *    18  a circuit that has a poll of its own again does not ring it (PARKS, FULL, DEAF, ENDS)
 *    19  a parked circuit has no limit of patience (PARKS, FULL, DEAF, PATIENCE)
 *    20  a circuit that is parked while its socket is full waits before it takes a turn (PARKS, FULL)
 *    21  a circuit is idle once its output was taken out, although updates may be left (LIMIT=1)
 *    22  one that was idle handles no message that came
 */
#ifndef C
#define C 2
#endif
#ifndef PUTS
#define PUTS 1
#endif
#ifndef SENDERS
#define SENDERS C
#endif
#ifndef WATCHERS
#define WATCHERS C
#endif
#ifndef LIMIT
#define LIMIT 2
#endif
#ifndef FEW
#define FEW 1
#endif
#ifndef P
#define P 1
#endif
#ifndef PLANT
#define PLANT 0
#endif
#ifdef SLOW
#define PROCESSORS P
#else
#define PROCESSORS 0
#endif
#ifdef PARKS
#define POLLERS 1
#else
#define POLLERS 0
#endif
#define HELPERS (PROCESSORS + POLLERS)
#define MOST_DUE 2      /* a newer update takes the place of the newest */

mtype = { LATER, COUNT, OVER, BUSY, IDLE, CLOSED };

/* The mutex, and what lies under it: LockedServer, and the core. */
bit lock;
byte input[C];
byte due[C];
byte output[C];
bit open[C];
bit is_idle[C];
bit has_bell[C];
bit has_waker[C];       /* Bell.waker: it has that of the poll which the circuit has */
bit busy;               /* the slow record */
byte busy_of;
byte waits[C];
bit given;              /* its name is in LockedServer.busy */
bit ending;

bit is_due[C];          /* Bells.due */

/* The condition that a record became busy. */
bit unseen, sleeps;

/* Sockets and wakers. */
byte rx[C];
bit shut[C];
bit room[C];
bit edge[C];
bit bell[C];
bit own[C];
bit life[C];
bit joined[C];
bit told[C];
bit asks_room[C];       /* the polling thread is told of room, too */
bit token[C];           /* the parker's */
bit end_told;           /* the polling thread's waker */
byte line[C];
bit entered[C];
bit gone[C];            /* LockedServer.gone has it: the thread is at its end */

byte ended_threads;

#define PENDING(c) (due[c] != 0 || output[c] != 0 || line[c] != 0)

#ifdef FULL
#define FILL(c) if :: room[c] = 0 :: true fi
#else
#define FILL(c) skip
#endif

inline let_go() { lock = 0 }

/* What the polls are told as a socket has bytes, or is shut; and as it has room. */
inline tell(c) { edge[c] = own[c]; told[c] = told[c] || joined[c] }
inline tell_room(c) { edge[c] = own[c]; told[c] = told[c] || (joined[c] && asks_room[c]) }

/* Bell::wake, and its ring: the parker, or the waker of a poll by its life. One of a poll that was let go wakes nobody. */
#define PARKER 1
#define WAKE(k) (has_waker[k] -> 2 + life[k] : PARKER)
inline ring(k, wake) {
    if
    :: wake == PARKER -> token[k] = 1
    :: wake > PARKER && own[k] && life[k] == wake - 2 -> bell[k] = 1
    :: else
    fi
}

/* Condvar::notify_all. */
inline notify() { d_step { unseen = 1; sleeps = 0 } }

#if C == 2
#define ANY_TOLD (told[0] || told[1])
#else
#define ANY_TOLD (told[0] || told[1] || told[2])
#endif
#define WATCHES(c) ((c) + WATCHERS >= C)
#ifdef LACKS
#define MAY_END(c) if :: open[c] = 0; due[c] = 0; output[c] = 0; input[c] = 0; waits[c] = 0 :: true fi
#else
#define MAY_END(c) skip
#endif
#if PLANT == 7
#define LAST C - 2
#else
#define LAST C - 1
#endif
#if PLANT == 11
#define IS_RUNG(c) (is_idle[c] && open[c])
#else
#define IS_RUNG(c) is_idle[c]
#endif

/* A put of circuit c is applied, or one by a processing thread, for which c is C. The updates of c are its own matter: it is in its turn. */
inline post(c) {
    for (k : 0 .. C - 1) {
        if
        :: open[k] && WATCHES(k) ->
            if
            :: due[k] < MOST_DUE -> due[k]++
            :: else
            fi;
            if
            :: k != c -> MAY_END(k)
            :: else
            fi
        :: else
        fi
    };
    k = 0
}

/* LockedServer::reach: the bells of those that the put reached are noted. */
inline reach(c) {
    for (k : 0 .. LAST) {
        if
        :: WATCHES(k) && k != c && has_bell[k] && IS_RUNG(k) -> is_idle[k] = 0; is_due[k] = 1; noted = 1
        :: else
        fi
    };
    k = 0
}

/* Bells::share_out, in the same hold. One that took a turn since it was noted is left out, and so is one that is closed. */
inline share_out() {
    for (k : 0 .. C - 1) {
        if
#if PLANT == 12
        :: is_due[k] && taken < FEW && noted ->
#else
        :: is_due[k] && taken < FEW ->
#endif
            is_due[k] = 0;
            if
            :: has_bell[k] && !is_idle[k] -> rings[k] = WAKE(k); taken++
            :: else
            fi
        :: else
        fi
    };
    k = 0;
    taken = 0;
    noted = 0
}

/* Rings::ring_all. */
inline ring_all() {
    do
    :: k < C ->
        if
        :: rings[k] -> d_step { ring(k, rings[k]); rings[k] = 0 }
        :: else
        fi;
        k++
    :: else -> break
    od;
    k = 0
}

/* State::pump. */
inline pump(c) {
    do
    :: open[c] && due[c] != 0 && output[c] < LIMIT -> due[c]--; output[c]++
    :: else -> break
    od;
    skip
}

/* State::cut. */
inline cut(c) {
    open[c] = 0;
    due[c] = 0;
    output[c] = 0;
    input[c] = 0;
    waits[c] = 0
}

#ifdef PARKS
/* unpark: the circuit has a poll of its own, or there is none to be had. */
inline unpark() {
    if
    :: true ->
        /* CircuitSocket::leave */
        d_step { life[c] = 1 - life[c]; own[c] = 1; edge[c] = rx[c] != 0 || shut[c] || room[c]; bell[c] = 0 };
        d_step { joined[c] = 0; told[c] = 0; asks_room[c] = 0 };
#if PLANT != 18
        bell[c] = 1;
#endif
        /* hang */
        d_step { lock == 0 -> has_waker[c] = 1 }
    :: true
    fi
}

/* park */
inline park() {
    d_step { joined[c] = 1; told[c] = rx[c] != 0 || shut[c] };
    /* hang */
#if PLANT != 16
    d_step { lock == 0 -> has_waker[c] = 0 };
#endif
    /* CircuitSocket::drop_own */
    d_step { own[c] = 0; edge[c] = 0; bell[c] = 0 }
}
#endif

/* A circuit's thread: CircuitThread::run. */
proctype Circuit(byte c) {
    mtype moved = LATER, turn = IDLE;
    bit is_given, noted, slow, all, again, has_no_room, came, was_idle;
    byte rings[C];
    byte k, taken, steps, parks;

    entered[c];
#ifdef PARKS
    d_step { joined[c] = 1; told[c] = rx[c] != 0 || shut[c] };
#endif
    do
    ::  /* turned */
#if PLANT == 2
        if
        :: moved == COUNT || input[c] != 0 ->
            atomic { lock == 0 -> lock = 1; d_step { reach(c); share_out() } };
            let_go();
            ring_all()
        :: else
        fi;
#endif
        atomic {
            lock == 0 -> lock = 1;
            /* take_in */
            if
            :: ending || moved == OVER -> d_step { cut(c) }
            :: !ending && moved == COUNT -> d_step { input[c] = input[c] + steps }
            :: else
            fi;
            came = moved == COUNT;
#if PLANT != 22
            was_idle = was_idle && moved == LATER;
#endif
            moved = LATER;
            steps = 0;
            /* steps */
            if
            :: was_idle -> turn = IDLE
            :: else ->
            if
            :: !open[c] -> turn = CLOSED
            :: open[c] && output[c] >= LIMIT -> turn = BUSY
            :: open[c] && output[c] < LIMIT && input[c] == 0 ->
                turn = IDLE
            :: open[c] && output[c] < LIMIT && input[c] != 0 ->
                input[c]--;
                turn = BUSY;
#ifdef PARKS
                /* Of the messages of a turn the last may have been handled. */
                if
                :: input[c] == 0 -> turn = IDLE
                :: true
                fi;
#endif
#ifdef SLOW
                if
                :: slow = 1
                :: slow = 0
                fi;
#endif
                /* LockedServer::step */
                if
                :: slow && busy -> waits[c]++
                :: else ->
                    if
                    :: slow -> busy = 1; busy_of = c; given = 1
                    :: else
                    fi;
                    post(c);
#if PLANT != 2
                    d_step { reach(c) }
#endif
                fi;
                slow = 0
            fi
            fi;
            was_idle = 0;
            /* take_out, with State::pump_over */
            d_step {
                if
                :: turn == CLOSED -> has_bell[c] = 0
                :: else ->
                    all = 0;
                    if
                    :: line[c] == 0 ->
#if PLANT != 1
                        pump(c);
#endif
                        all = 1;
#if PLANT != 21
                        all = output[c] < LIMIT;
#endif
                        line[c] = output[c];
                        output[c] = 0
                    :: else
                    fi;
                    if
                    :: turn == IDLE && !(all && open[c]) -> turn = BUSY
                    :: else
                    fi;
#if PLANT != 3
                    is_idle[c] = turn == IDLE
#else
                    is_idle[c] = 0
#endif
                fi;
                all = 0
            };
            is_given = given;
            d_step { share_out() }
        };
        let_go();
        if
        :: is_given -> is_given = 0; notify()
        :: else
        fi;
#if PLANT == 3
        d_step { is_idle[c] = turn == IDLE };
#endif
#if PLANT == 1
        if
        :: turn == IDLE ->
            atomic { lock == 0 -> lock = 1; d_step { pump(c); is_idle[c] = 1 } };
            let_go()
        :: else
        fi;
#endif
        if
        :: turn == CLOSED -> ring_all(); line[c] = 0; break       /* write_left, which ends by itself */
        :: else
        fi;
        /* It has much to write, or little. */
        if
        :: true
        :: ring_all()
        fi;
        /* CircuitSocket::write; a circuit whose socket took some is busy, too */
        has_no_room = 0;
        if
        :: line[c] != 0 && shut[c] -> line[c] = 0; moved = OVER
        :: line[c] != 0 && !shut[c] && room[c] -> d_step { line[c] = 0; came = 1 }; FILL(c)
#ifdef FULL
        :: line[c] > 1 && !shut[c] && room[c] -> d_step { line[c]--; came = 1; room[c] = 0 }; has_no_room = 1
#endif
        :: line[c] != 0 && !shut[c] && !room[c] -> has_no_room = 1
        :: line[c] == 0
        fi;
        ring_all();
        was_idle = turn == IDLE;
        /* go_on */
#ifdef PARKS
        if
        :: moved != OVER && came && !own[c] -> unpark()
        :: else
        fi;
#endif
        if
        :: has_no_room ->
            /* CircuitSocket::is_full */
            if
            :: own[c] ->
end_full:
                if
                :: edge[c] || bell[c] -> d_step { edge[c] = 0; bell[c] = 0 }
#ifdef PARKS
                :: parks < PARKS && !edge[c] && !bell[c] ->
                    parks++;
                    park();
#if PLANT == 20
                    goto parked_full
#endif
#endif
#ifdef PATIENCE
                :: !edge[c] && !bell[c] -> moved = OVER
#endif
                fi
            :: !own[c] ->
#if PLANT != 15
                if
                :: !asks_room[c] -> d_step { asks_room[c] = 1; told[c] = told[c] || room[c] || rx[c] != 0 || shut[c] }
                :: asks_room[c]
                fi;
#endif
#if PLANT == 20
parked_full:
#endif
end_parked_full:
                if
                :: token[c] -> token[c] = 0
#if defined(PATIENCE) && PLANT != 19
                :: !token[c] -> moved = OVER
#endif
                fi
            fi;
            goto turned_again
        :: else
        fi;
        if
        :: moved == OVER || turn == BUSY
        :: moved != OVER && turn == IDLE ->
            /* read: it reads, waits if nothing was there, and reads again. */
            again = 1;
#if PLANT == 4
            goto waiting;
#endif
reading:
            atomic {
                if
                :: rx[c] != 0 -> steps = rx[c]; rx[c] = 0; moved = COUNT
                :: rx[c] == 0 && shut[c] -> moved = OVER
                :: else -> moved = LATER
                fi
            };
            if
            :: moved == LATER && again ->
waiting:
                again = 0;
#if PLANT == 10
                bell[c] = 0;
#endif
                /* CircuitSocket::is_idle */
                if
                :: own[c] ->
end_idle:
                    if
                    :: edge[c] || bell[c] -> d_step { edge[c] = 0; bell[c] = 0 }
#ifdef PARKS
                    :: parks < PARKS && !edge[c] && !bell[c] ->
                        parks++;
                        park();
#if PLANT == 13
                        goto waiting
#else
                        goto turned_again
#endif
#endif
                    fi
                :: !own[c] ->
end_parked:
                    token[c] -> token[c] = 0
                fi;
                goto reading
            :: else
            fi
        fi;
turned_again:
        has_no_room = 0;
        again = 0;
        turn = IDLE;
        came = 0;
        is_given = 0
    od;
    /* note_gone */
    atomic { lock == 0 -> lock = 1; gone[c] = 1 };
    let_go();
    d_step { own[c] = 0; joined[c] = 0; edge[c] = 0; bell[c] = 0; told[c] = 0; token[c] = 0 }
}

#ifdef PARKS
/* The polling thread: Poller::run. */
proctype Poller() {
    bit ready[C];
    byte k;

end_polling:
    do
    ::  d_step {
            ANY_TOLD || end_told ->
            for (k : 0 .. C - 1) { ready[k] = told[k]; told[k] = 0 };
            end_told = 0;
            k = 0
        };
        /* noted */
        atomic {
            lock == 0 ->
            d_step {
                for (k : 0 .. C - 1) {
                    ready[k] = ready[k] && has_bell[k];
#if PLANT == 14
                    is_idle[k] = is_idle[k] && !ready[k]
#endif
                };
                k = 0
            };
            if
            :: ending -> break
            :: else
            fi
        };
        do
        :: k < C ->
            if
            :: ready[k] -> d_step { ready[k] = 0; token[k] = 1 }
            :: else
            fi;
            k++
        :: else -> break
        od;
        k = 0
    od;
    ended_threads++
}
#endif

#ifdef SLOW
/* A processing thread: Processor::run. */
proctype Processor() {
    bit work, next, noted;
    byte rings[C];
    byte k, taken;

    do
    ::  atomic { lock == 0 -> lock = 1 };
        do
        :: !given && !ending ->
            d_step { unseen = 0; lock = 0 };
            d_step {
                if
                :: !unseen -> sleeps = 1
                :: else
                fi
            };
end_asleep:
            !sleeps;
            atomic { lock == 0 -> lock = 1 }
        :: else -> break
        od;
        if
        :: ending -> let_go(); break
        :: else -> d_step { given = 0; lock = 0 }
        fi;
        /* process, task_of */
        d_step { lock == 0 -> work = busy && !ending };
        if
        :: work ->
            /* The device processes, with no lock held. Then LockedServer::finish. */
            atomic {
                lock == 0 -> lock = 1;
#if PLANT != 5
                d_step {
                    if
                    :: has_bell[busy_of] && is_idle[busy_of] -> is_idle[busy_of] = 0; is_due[busy_of] = 1; noted = 1
                    :: else
                    fi
                };
#endif
                d_step {
                    if
                    :: open[busy_of] -> output[busy_of]++       /* the late reply */
                    :: else
                    fi;
                    busy = 0;
                    busy_of = 0;
                    for (k : 0 .. C - 1) {
                        if
                        :: waits[k] != 0 && !busy -> waits[k]--; busy = 1; busy_of = k
                        :: else
                        fi
                    };
                    k = 0;
                    next = busy
                };
                if
                :: next ->
                    post(C);
#if PLANT != 9
                    d_step { reach(C) };
#endif
#if PLANT != 8
                    given = 1;
#endif
                    next = 0
                :: else
                fi;
                d_step { share_out() }
            };
            let_go();
            ring_all()
        :: else
        fi;
        work = 0
    od;
    ended_threads++
}
#endif

/* The client of a circuit. */
proctype Client(byte c) {
    byte sent;
    bit over;

    entered[c];
end:
    do
    :: d_step { c < SENDERS && sent < PUTS && !over -> sent++; rx[c]++; tell(c) }
#ifdef DEAF
    :: d_step { c != 0 && !room[c] -> room[c] = 1; tell_room(c) }
#else
    :: d_step { !room[c] -> room[c] = 1; tell_room(c) }
#endif
#ifdef CLOSES
    :: d_step { c == 0 && !over -> over = 1; shut[c] = 1; room[c] = 1; tell(c) }
#endif
    od
}

/* accept_one, late; and SharedServer::end, join_all and join_helpers. */
proctype Main() {
    byte k;

#ifdef LATE
    atomic { lock == 0 -> lock = 1; d_step { open[C - 1] = 1; has_bell[C - 1] = 1 } };
    let_go();
    entered[C - 1] = 1;
#endif
#ifdef ENDS
    d_step {
        lock == 0 -> lock = 1;
        ending = 1;
#if PLANT != 6
        for (k : 0 .. C - 1) {
            if
#if PLANT == 17
            :: has_bell[k] && has_waker[k] -> ring(k, WAKE(k))
#else
            :: has_bell[k] -> ring(k, WAKE(k))
#endif
            :: else
            fi
        };
        k = 0
#endif
    };
    let_go();
    notify();
    end_told = 1;
    do
    :: k < C -> gone[k]; k++
    :: else -> break
    od;
    ended_threads == HELPERS;
#endif
    skip
}

init {
    byte c;
    atomic {
        for (c : 0 .. C - 1) {
            room[c] = 1;
#ifndef PARKS
            own[c] = 1;
            has_waker[c] = 1;
#endif
            run Circuit(c);
            run Client(c)
        };
#ifdef LATE
        for (c : 0 .. C - 2) { open[c] = 1; entered[c] = 1; has_bell[c] = 1 };
#else
        for (c : 0 .. C - 1) { open[c] = 1; entered[c] = 1; has_bell[c] = 1 };
#endif
#ifdef PARKS
        run Poller();
#endif
#ifdef SLOW
        for (c : 1 .. P) { run Processor() };
#endif
        run Main();
        c = 0
    }
}

/* When nothing more happens by itself, nothing waits for a client that reads. No wait ends by time, so what was lost would wait here for ever. */
active proctype Quiet() {
    byte c;
end:
    timeout;
    d_step {
        do
        :: c < C ->
            assert(!open[c] || !PENDING(c));
            assert(!open[c] || input[c] == 0 && rx[c] == 0);
            assert(!open[c] || !shut[c]);
            assert(open[c] || !entered[c] || gone[c]);
            c++
        :: else -> break
        od;
        /* At the end the puts that no thread took up are left. */
        assert(ending || !busy && !given)
    }
}

/* Under weak fairness, with no more than the messages that clients send. */
ltl written { [] (PENDING(1) -> <> !PENDING(1)) }
#ifdef ENDS
ltl joined { <> (gone[0] && gone[1] && ended_threads == HELPERS) }
#endif
