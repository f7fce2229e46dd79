/* The threads of the GSettings module, and who takes what: capi/gsettings, over libdconfdb and the lock of the folder. Each `inline` has the name of the
 * function whose locks and answers it has; what is done under a lock is one step of it. Checked by capi/verify/run:
 *
 * - no deadlock: none of these waits for ever (`end` marks where the worker may rest);
 * - a sync that says yes has written all that was set before (`assert` in store_sync);
 * - every sync ends (ltl sync_ends), and no notice stays untold but at the program's end (ltl told);
 * - a lock is waited for only by who has none of those that come after it in this order, which capi/verify/threads/trace asks of the C, too:
 *
 * order: folder listing living_lock turn refreshing lock handing
 *
 * A wait that has an end may end at any moment: the time is not counted. */

#define FREE 255
#define FOLDER 0
#define LISTING 1
#define LIVING 2
#define TURN 3
#define REFRESHING 4
#define LOCK 5
#define HANDING 6

#ifndef SETS
#define SETS 2
#endif
#ifndef FAULTS
#define FAULTS 1 /* how often a write fails */
#endif

byte owner[7] = FREE;

byte waiting, taken;         /* changes that wait, and that the worker has taken */
byte added, settled;         /* as the backend counts them */
byte written;                /* changes that the user's file has */
byte tries, failed;          /* tries to write, and the last that failed for good; 0: none */
byte faults;
byte untold;                 /* notices for the worker */
bool is_asked, waked, has_ended, is_over, gave_up, has_synced, has_exited;
bool is_let_go;
bool waits_in_line;          /* the worker has a Wait */
bool has_thread, has_come;   /* a thread of its own waits for the turn; and has it */

/* ---- locks. `mine` is what a process has, a bit for each */

inline TAKE(m) { assert((mine >> m) == 0); atomic { owner[m] == FREE -> owner[m] = _pid; mine = mine | (1 << m) } }
inline GIVE(m) { atomic { assert(owner[m] == _pid); owner[m] = FREE; mine = mine & ~(1 << m) } }

/* ---- the library */

inline dconfdb_store_snapshot() { TAKE(HANDING); GIVE(HANDING) }
inline store_renew() { TAKE(HANDING); GIVE(HANDING) }
inline dconfdb_store_refresh() { TAKE(REFRESHING); if :: store_renew() :: skip fi; GIVE(REFRESHING) }
inline heed_others() { TAKE(REFRESHING); GIVE(REFRESHING) }
inline settle_store() { TAKE(REFRESHING); GIVE(REFRESHING) }

/* What was taken is written, or not: `ok`. */
inline locked_change() {
    TAKE(REFRESHING);
    if
    :: atomic { written = written + taken; ok = true }; store_renew()
    :: faults < FAULTS -> atomic { faults++; ok = false }
    fi;
    GIVE(REFRESHING)
}

/* ---- notices */

inline worker_wake() { waked = true }
inline notice_tell() { TAKE(LOCK); GIVE(LOCK) }
inline worker_tells() {
    TAKE(LOCK);
    if
    :: !has_ended && !is_over -> untold++; worker_wake(); GIVE(LOCK)
    :: else -> GIVE(LOCK); notice_tell()
    fi
}
inline tell_untold() {
    do
    :: TAKE(LOCK);
        if
        :: untold > 0 -> untold--; GIVE(LOCK); notice_tell()
        :: else -> GIVE(LOCK); break
        fi
    od
}

/* ---- a look; `turn` is held */

inline is_shown() { dconfdb_store_snapshot() }
inline hand_newest() { settled = settled + done; done = 0; dconfdb_store_snapshot() }
inline renew() { TAKE(LOCK); hand_newest(); GIVE(LOCK) }
inline look() {
    dconfdb_store_refresh(); is_shown();
    if
    :: skip
    :: renew(); if :: heed_others() :: skip fi
    fi
}
inline store_look() { TAKE(TURN); look(); GIVE(TURN); notice_tell() }
inline look_again_later() { TAKE(LOCK); GIVE(LOCK) }
inline look_quietly() { look(); if :: look_again_later() :: skip fi; GIVE(TURN); if :: worker_tells() :: notice_tell() fi }
/* Where the worker writes, what it has seen in its turn is handed out. */
inline go_on_barred() {
    TAKE(LOCK); if :: is_shown(); hand_newest() :: skip fi; GIVE(LOCK);
    if :: worker_tells() :: notice_tell() fi
}
inline look_beside() {
    if
    :: atomic { owner[TURN] == FREE -> owner[TURN] = _pid; mine = mine | (1 << TURN) }; look_quietly()
    :: owner[TURN] != FREE -> go_on_barred()
    fi
}
inline store_peek() { TAKE(LOCK); GIVE(LOCK); look_beside() }

/* ---- a write, by the worker */

/* What is in the file already needs no turn: others have made it so. */
inline waiting_settle() {
    atomic {
        if
        :: settled = settled + waiting; written = written + waiting; waiting = 0
        :: waiting > 1 -> settled++; written++; waiting--
        :: skip
        fi
    }
}
inline settle_what_is_there() { TAKE(LOCK); waiting_settle(); GIVE(LOCK) }
inline has_asking() { TAKE(LOCK); GIVE(LOCK) }
inline store_settle() { has_asking(); TAKE(TURN); look(); if :: settle_what_is_there() :: skip fi; GIVE(TURN); notice_tell() }

/* The turn is had at once, or waited for in line by a thread of its own, or, if none can be had, asked for again. */
inline folder_lock() { TAKE(FOLDER); TAKE(LISTING); GIVE(LISTING) }
inline is_thread_over() {
    TAKE(LOCK); ok = has_come; GIVE(LOCK);
    if
    :: ok -> atomic { has_thread = false; has_come = false; owner[FOLDER] = _pid; mine = mine | (1 << FOLDER) }
    :: else
    fi
}
inline turn_take() {
    waits_in_line = true;
    if
    :: !has_thread && owner[FOLDER] == FREE ->
        if
        :: atomic { owner[FOLDER] == FREE -> owner[FOLDER] = _pid; mine = mine | (1 << FOLDER) }; TAKE(LISTING); GIVE(LISTING); ok = true
        :: owner[FOLDER] != FREE -> ok = false
        fi
    :: !has_thread && owner[FOLDER] != FREE -> if :: has_thread = true; is_thread_over() :: ok = false fi
    :: has_thread -> is_thread_over()
    fi
}
inline turn_give() { TAKE(LISTING); GIVE(LISTING); GIVE(FOLDER); waits_in_line = false }
inline turn_leave() {
    if
    :: !has_thread -> waits_in_line = false
    :: has_thread -> is_thread_over(); if :: ok -> turn_give() :: else fi
    fi
}
inline leave_line() { turn_leave() }

/* What could not be written waits again. At the program's end it counts at once; else only if it lasts. */
inline end_try() {
    TAKE(LOCK);
    atomic {
        if
        :: ok -> done = taken; taken = 0
        :: else ->
            waiting = waiting + taken; taken = 0;
            if
            :: failed = tries
            :: !has_ended
            fi
        fi
    };
    hand_newest();
    GIVE(LOCK)
}
inline write_in() {
    TAKE(TURN);
    TAKE(LOCK); atomic { taken = waiting; waiting = 0; tries++ }; GIVE(LOCK);
    if
    :: taken > 0 ->
        locked_change();
        end_try()
    :: else
    fi;
    GIVE(TURN)
}
inline store_write() { turn_take(); if :: ok -> write_in(); turn_give(); notice_tell() :: else fi }

inline know_what_waits() { now = waiting; has_failed = failed > last_try }
inline know_anew() { TAKE(LOCK); atomic { know_what_waits() }; GIVE(LOCK) }

/* In the order of the proved call. `goes` is false: the program ends, and nothing waits, or a write has failed since. A backend that is let go is kept
 * until the thread in line has come to its turn. */
inline takes_turn() {
    TAKE(LOCK); atomic { ends = has_ended; is_left = is_let_go; is_asked = false; know_what_waits() }; GIVE(LOCK);
    tell_untold();
    if :: store_look() :: skip fi;
    if :: now > 0 -> store_settle(); know_anew() :: skip fi;
    if :: now > 0 -> store_write(); know_anew() :: else fi;
    if :: now == 0 && waits_in_line -> leave_line() :: else fi;
    atomic {
        goes = !ends || ((now > 0 || (waits_in_line && is_left)) && !has_failed);
        gave_up = gave_up || (!goes && now > 0)
    }
}

byte last_try = 255;

/* The worker's thread. Where something waits again, or no thread can be had that waits in line, it is woken by the time. */
proctype work()
{
    byte mine = 0, done = 0, now = 0;
    bool ok = false, goes = true, ends = false, is_left = false, has_failed = false;
    do
    :: takes_turn();
        if
        :: !goes -> break
        :: else
        fi;
end_rest:
        if
        :: atomic { waked -> waked = false }
        :: waiting > 0 && !has_thread
        fi
    od;
    TAKE(LOCK); is_over = true; GIVE(LOCK);
    assert(!is_let_go || !has_thread) /* which has the backend */
}

/* The thread that waits in line: in the kernel, where others have the turn. Its lock is the worker's, once it is over. */
inline wait_in_kernel() {
    folder_lock();
    TAKE(LOCK); atomic { has_come = true; mine = mine & ~(1 << FOLDER) }; worker_wake(); GIVE(LOCK)
}

proctype line()
{
    byte mine = 0;
end_idle:
    do
    :: has_thread && !has_come -> wait_in_kernel()
    od
}

/* ---- the program's threads */

inline waiting_add() { atomic { waiting++; added++ } }
inline make() { TAKE(LOCK); waiting_add(); worker_wake(); GIVE(LOCK) }
inline ask_for_a_try() { TAKE(LOCK); atomic { is_asked = true; worker_wake() }; GIVE(LOCK) }

/* The condition lets go of `lock`, and has it again. `ok`: all is settled. */
inline await_settled() {
    TAKE(LOCK);
    want = added;
    do
    :: settled >= want -> ok = true; break
    :: settled < want && failed > before -> ok = false; break
    :: settled < want && failed <= before -> GIVE(LOCK);
        if
        :: settled >= want || failed > before
        :: ok = false; goto timed_out
        fi;
        TAKE(LOCK)
    od;
    GIVE(LOCK);
timed_out: skip
}
inline settle() { TAKE(LOCK); GIVE(LOCK); if :: settle_store() :: skip fi }

inline store_sync() {
    TAKE(LOCK); atomic { before = tries; asks = failed != 0 }; GIVE(LOCK);
    if :: asks -> ask_for_a_try() :: else fi;
    await_settled();
    if
    :: ok ->
        if
        :: TAKE(TURN); look(); settle(); GIVE(TURN); notice_tell(); assert(written >= want)
        :: skip /* mutex_lock_until(): others have it for too long */
        fi
    :: else
    fi
}

proctype program()
{
    byte mine = 0, done = 0, before = 0, want = 0, sets = 0;
    bool ok = false, asks = false;
    do
    :: sets < SETS -> sets++; make()
    :: sets > 0 -> break
    od;
    store_sync();
    has_synced = true
}

proctype reader()
{
    byte mine = 0, done = 0;
    store_peek()
}

/* ---- fork(), while the others go on. The child has `lock`, as who forks has it, and `turn`, anew. What is to be done before is done in the other order
 * than it was asked for: the folder's lock asks for it at the first write, and the backend when its class is made. */

inline before_fork() { TAKE(LISTING); TAKE(LIVING); TAKE(LOCK) }
inline after_fork() { GIVE(LOCK); GIVE(LIVING); GIVE(LISTING) }

proctype forks()
{
    byte mine = 0;
    before_fork();
    assert(owner[LOCK] == _pid && owner[LISTING] == _pid); /* so what both guard is whole in the child */
    after_fork()
}

/* ---- exit(): each wait has an end, and what it can't have it does without */

inline mark_exit() { TAKE(LOCK); atomic { has_ended = true; is_asked = true; last_try = tries }; worker_wake(); GIVE(LOCK) }

/* Or it is doubted whether all is written. */
inline counts_until() { if :: TAKE(LOCK); GIVE(LOCK) :: skip fi }
inline worker_end() {
    if
    :: TAKE(LIVING); GIVE(LIVING);
        if
        :: mark_exit();
            if
            :: is_over
            :: gave_up
            :: true /* its time is over */
            fi
        :: skip
        fi;
        counts_until()
    :: skip
    fi
}

proctype exits()
{
    byte mine = 0;
    worker_end();
    has_exited = true
}

/* Another program has its turn, and one more. */
proctype others()
{
    byte mine = 0;
    TAKE(FOLDER);
    GIVE(FOLDER);
    TAKE(FOLDER);
    GIVE(FOLDER)
}

/* ---- nobody holds the backend any longer: its worker is waited for, for a while, or left to itself */

inline mark_let_go() { atomic { has_ended = true; is_asked = true; is_let_go = true }; worker_wake() }
inline await_over() {
    GIVE(LOCK);
    if
    :: is_over
    :: true
    fi;
    TAKE(LOCK)
}
inline worker_let_go() { TAKE(LOCK); mark_let_go(); await_over(); GIVE(LOCK) }

proctype lets_go()
{
    byte mine = 0;
    run others();
    has_synced -> worker_let_go()
}

init { atomic { run work(); run line(); run program(); run PART() } }

ltl sync_ends { <> has_synced }
ltl told { [] (untold > 0 -> <> (untold == 0 || has_ended || is_over)) }
