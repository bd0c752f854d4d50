/*
 * Which slow record is processed next: Processor::run, process and LockedServer::finish of crates/ca_serve/src.
 *
 * Two processing threads, and three slow records. Of the first two another put waits whenever one is finished, for ever; the third is put once. `busy` is the queue
 * of records; the mutex is left out, since each hold of it is one step here. A call of the device may take any time, and ends.
 *
 * -D switches:
 *   PLANT=1  a thread stays at its record until no put makes it busy
 */
#ifndef PLANT
#define PLANT 0
#endif

chan busy = [3] of { byte };
byte since;             /* puts that were finished since the third record was put, until it was taken up; 3 stands for more */
bit put, taken, done;

/* LockedServer::finish, after the device's call. */
inline finish(name) {
    if
    :: name == 2 -> done = 1
    :: name != 2 && put && !taken && since < 3 -> since++
    :: else
    fi
}

proctype Processor() {
    byte name;

    do
    ::  atomic {
            busy ? name;
            if
            :: name == 2 -> taken = 1
            :: else
            fi
        };
#if PLANT == 1
        do
        :: name != 2 -> d_step { finish(name) }
        :: else -> d_step { finish(name) }; break
        od
#else
        d_step {
            finish(name);
            if
            :: name != 2 -> busy ! name
            :: else
            fi
        }
#endif
    od
}

init {
    atomic {
        busy ! 0;
        busy ! 1;
        run Processor();
        run Processor()
    };
    atomic { put = 1; busy ! 2 }
}

/* The third is done, under weak fairness. Before it is taken up each thread finishes the put that it had, and no more. */
ltl third { <> done }
ltl soon { [] (since <= 2) }
