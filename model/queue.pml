/* A model of the queue that threads share (shared_queue.rt and taking.rt of crates/cadence_queue/src). Callers offer
   texts, and a worker takes several at once and hands them on one by one. The queue is stopped by a thread that then
   waits for the worker's end, or by the drop of its last handle. The queue uses the kit's Condvar, step by step, and a
   lock. The lock is a plain one, or, if KIT is 1, the kit's Mutex, step by step. README.md says what is checked, and
   .ci/model checks it. Each process is a thread. Each statement is one step, and so is each `atomic` block; other
   threads may do steps in between.

   These macros (-D) choose what is checked: */

#ifndef CAPACITY
#define CAPACITY 1      /* the most texts that may wait; -1 is no bound */
#endif
#ifndef DROP_OLDEST
#define DROP_OLDEST 0   /* 1: a full queue drops its oldest text for a new one; 0: it refuses the new one */
#endif
#ifndef CALLERS
#define CALLERS 2       /* the threads that offer texts, each with a handle */
#endif
#ifndef EMITS
#define EMITS 2         /* how many texts each of them offers */
#endif
#ifndef ROOM
#define ROOM 1          /* the most texts that the worker takes at once */
#endif
#ifndef STOPPERS
#define STOPPERS 0      /* the threads that stop the queue at some moment, and wait for the worker's end */
#endif
#ifndef LAST_HANDLE
#define LAST_HANDLE 0   /* 1: each caller drops its handle in the end, so the last one stops the queue */
#endif
#ifndef LOOKS
#define LOOKS 1         /* how often the worker looks before it sleeps */
#endif
#ifndef PERIOD
#define PERIOD 0        /* 1: the worker flushes the wrapped sink by time; how much time has passed is left open */
#endif
#ifndef FAILURES
#define FAILURES 0      /* how many flushes may fail, in all; -1: each may */
#endif
#ifndef NO_MEMORY
#define NO_MEMORY 0     /* 1: memory may be refused for any text */
#endif
#ifndef SPURIOUS
#define SPURIOUS 0      /* how often, in all, a thread that sleeps on a Condvar may wake though nobody woke it */
#endif
#ifndef KIT
#define KIT 0           /* 1: the kit's Mutex step by step; 0: a plain lock */
#endif
#ifndef REPEATER
#define REPEATER 0      /* 1: no queue, but a `Repeater`: a thread that works again and again, and its owner */
#endif
#ifndef FAULT
#define FAULT 0         /* the number of the fault in .ci/model that is put in; 0 is none */
#endif

#define TEXTS (CALLERS * EMITS)

/* what an offer returns */
#define OK 1
#define FULL 2
#define STOPPED 3
#define OUT_OF_MEMORY 4

/* Where each thread sleeps: for one of the locks, which are the queue's, the end mark's and that of a repeater's share,
   or on the Condvar of one of the first two. The first thread starts the others, the second is the worker, then come the
   callers, and the last threads stop the queue. */
#define THREADS (2 + CALLERS + STOPPERS)
#define WORKER 1
#define NOWHERE 0
#define QUEUE 1
#define END 2
#define SHARE 3
#define CHANGED 4
#define MARKED 5
byte sleeps_at[THREADS];

/* The fields of the queue, which only the holder of its lock uses. */
chan ring = [TEXTS] of { byte };
byte submitted, drained, dropped;
bool stopped;
byte handles = CALLERS;

/* The mark of a full queue: whether a caller has found it full since texts were last taken. It is changed under the lock,
   and callers that give way read it without the lock. */
bool marked;

/* The texts that the worker has taken and not yet handed on, and the end mark, which has a lock of its own. */
chan lent = [ROOM] of { byte };
bool ended;

/* Whether the worker still has its share of the wrapped sink and of the error handler. */
bool has_share = true;

/* If PERIOD is 1: whether the worker has noted that it owes a flush; and how many flushes may still fail. */
bool owes;
#if FAILURES < 0
#define MAY_FAIL true
#define COUNT_FAILURE skip
#define HAS_FAILED true
#else
byte failures = FAILURES;
#define MAY_FAIL (failures > 0)
#define COUNT_FAILURE failures--
#define HAS_FAILED (failures < FAILURES)
#endif

/* What only the checks read: the accepted texts that were neither handed on nor dropped, in the order in which they were
   accepted; how many offers answered that they were accepted; how many texts were handed on; how many calls have
   changed the queue and not returned yet; and, if PERIOD is 1, whether a text was handed on since the last flush that
   succeeded. */
chan owed = [TEXTS] of { byte };
byte accepted, handed, under_way;
bool is_unflushed;

#define IS_IDLE (!stopped && len(ring) == 0)

#if CAPACITY < 0
#define IS_FULL false
#define IS_WITHIN true
#else
#define IS_FULL (len(ring) >= CAPACITY)
#define IS_WITHIN (len(ring) <= CAPACITY)
#endif

/* The worker sleeps although it has something to do, and no call is under way that might wake it. */
#define IS_NEGLECTED (sleeps_at[WORKER] == CHANGED && !IS_IDLE && under_way == 0)

/* ---- The locks ---- */

#if KIT

/* The kit's Mutex; each of its steps on its word is a step here. The word is 1 if the lock is free, and 4 if it is free
   only for a thread that has slept. It is 0 if a thread has the lock, 2 if a thread has it and another may sleep for
   it, and 3 if a thread that has slept twice asks that the word become 4. */
byte word[4] = 1;
byte holders[4];

#define LOCALS bool got, missed; byte seen, slept, wanted, noted

inline TRY_WORD(lock) {
  atomic { if :: word[lock] == 1 -> word[lock] = 0; got = true :: else -> got = false fi }
}

inline TRY_LOCK(lock) {
  TRY_WORD(lock);
  if
  :: got -> atomic { holders[lock]++; assert(holders[lock] == 1) }
  :: else
  fi
}

inline LOCK(lock) {
  TRY_WORD(lock);
  if
  :: got
  :: else ->
     seen = word[lock];
     if :: seen == 1 -> TRY_WORD(lock) :: else fi
  fi;
  do
  :: got -> break
  :: !got && (seen == 1 || (seen == 4 && slept > 0)) ->
     atomic { if :: word[lock] == seen -> word[lock] = 2; got = true :: else fi };
     if :: got :: else -> seen = word[lock] fi
  :: !got && !(seen == 1 || (seen == 4 && slept > 0)) ->
     wanted = (slept < 2 -> 2 : 3);
     missed = false;
     if
     :: seen < wanted ->
        atomic {
          if
          :: word[lock] == seen -> word[lock] = wanted; seen = wanted
          :: else -> seen = word[lock]; missed = true
          fi
        }
     :: else
     fi;
     if
     :: missed
     :: else ->
        atomic { if :: word[lock] == seen -> sleeps_at[_pid] = lock :: else fi };
        sleeps_at[_pid] == NOWHERE;
        slept = (slept < 2 -> slept + 1 : 2);
        seen = word[lock]
     fi
  od;
  atomic {
    holders[lock]++; assert(holders[lock] == 1);
    got = false; missed = false; seen = 0; slept = 0; wanted = 0
  }
}

/* Wakes any one of the threads that sleep for the lock. */
inline UNLOCK(lock) {
  atomic { holders[lock]--; if :: word[lock] == 0 -> word[lock] = 1; got = true :: else fi };
  if
  :: got
  :: else ->
     atomic { if :: word[lock] == 2 -> word[lock] = 1; got = true :: else fi };
     if :: got :: else -> word[lock] = 4 fi;
     atomic {
       if
       :: sleeps_at[1] == lock -> sleeps_at[1] = NOWHERE
       :: sleeps_at[2] == lock -> sleeps_at[2] = NOWHERE
#if CALLERS + STOPPERS > 1
       :: sleeps_at[3] == lock -> sleeps_at[3] = NOWHERE
#endif
#if CALLERS + STOPPERS > 2
       :: sleeps_at[4] == lock -> sleeps_at[4] = NOWHERE
#endif
#if CALLERS + STOPPERS > 3
       :: sleeps_at[5] == lock -> sleeps_at[5] = NOWHERE
#endif
       :: else
       fi
     }
  fi;
  got = false
}

#define ARE_FREE (holders[QUEUE] + holders[END] + holders[SHARE] == 0 && word[QUEUE] == 1 && word[END] == 1 && word[SHARE] == 1)

#else

bool held[4];

#define LOCALS bool got; byte noted

/* A try may fail at any moment, because the kit's try also fails if the lock is free only for a thread that has
   slept. */
inline TRY_LOCK(lock) {
  atomic { if :: !held[lock] -> held[lock] = true; got = true :: got = false fi }
}

inline LOCK(lock) {
  atomic { !held[lock] -> held[lock] = true }
}

inline UNLOCK(lock) {
  held[lock] = false
}

#define ARE_FREE (!held[QUEUE] && !held[END] && !held[SHARE])

#endif

/* ---- The Condvars ---- */

/* The kit's Condvar: how many notifications there were, and how many threads sleep or are about to. */
byte notifications[2], sleepers[2];
byte spurious = SPURIOUS;
hidden byte each;

#define NOTIFICATIONS(condvar) notifications[condvar - CHANGED]
#define SLEEPERS(condvar) sleepers[condvar - CHANGED]

/* The thread doesn't fall asleep if there was a notification since it noted their number, which it did under the lock. */
inline FALL_ASLEEP(condvar, lock) {
#if FAULT == 9
  UNLOCK(lock);
  noted = NOTIFICATIONS(condvar);
#else
  noted = NOTIFICATIONS(condvar);
  UNLOCK(lock);
#endif
  SLEEPERS(condvar)++;
  atomic {
    if :: NOTIFICATIONS(condvar) == noted -> sleeps_at[_pid] = condvar :: else fi;
    noted = 0;
    assert(!IS_NEGLECTED)
  }
}

inline WAIT(condvar, lock) {
  FALL_ASLEEP(condvar, lock);
#if STOPPERS == 0 && !LAST_HANDLE && !REPEATER
  /* if nobody stops the queue, the worker may sleep for ever */
end_asleep:
#endif
  if
  :: sleeps_at[_pid] == NOWHERE
#if SPURIOUS > 0
  :: atomic { sleeps_at[_pid] != NOWHERE && spurious > 0 -> spurious--; sleeps_at[_pid] = NOWHERE }
#endif
  fi;
  SLEEPERS(condvar)--;
  LOCK(lock)
}

#if PERIOD || REPEATER
/* A wait with a time: the time may be over at any moment. */
inline WAIT_WITHIN(condvar, lock) {
  FALL_ASLEEP(condvar, lock);
  if
  :: sleeps_at[_pid] == NOWHERE
  :: atomic { sleeps_at[_pid] != NOWHERE -> sleeps_at[_pid] = NOWHERE }
  fi;
  SLEEPERS(condvar)--;
  LOCK(lock)
}
#endif

inline NOTIFY_ALL(condvar) {
  NOTIFICATIONS(condvar)++;
  if
  :: SLEEPERS(condvar) != 0 ->
     d_step {
       each = 0;
       do
       :: each < THREADS ->
          if :: sleeps_at[each] == condvar -> sleeps_at[each] = NOWHERE :: else fi;
          each++
       :: else -> break
       od;
       each = 0
     }
  :: else
  fi
}

/* ---- The queue ---- */

/* Asserts what has to be true whenever the queue's lock is free, and a further claim of the thread that had the
   lock. */
#define CHECK(claim) assert(IS_WITHIN); assert(len(ring) == submitted - drained - dropped); assert(!marked || IS_FULL); assert(claim)

/* Makes these checks and releases the queue's lock. The checks read only the fields under the lock. */
#if KIT
inline RELEASE(claim) {
  atomic { CHECK(claim) };
  UNLOCK(QUEUE)
}
#else
inline RELEASE(claim) {
  atomic { CHECK(claim); UNLOCK(QUEUE) }
}
#endif

/* The last step of a call that changed the queue. */
#define RETURN() under_way--; assert(!IS_NEGLECTED)

#if FAULT == 5 || FAULT == 25
/* a queue that had room before the lock was taken isn't tested again under the lock */
#define LACKS_ROOM (was_full && IS_FULL && (!DROP_OLDEST || len(ring) == 0))
#else
#define LACKS_ROOM (IS_FULL && (!DROP_OLDEST || len(ring) == 0))
#endif

#define IS_TRUE_ANSWER ((answer == STOPPED) == stopped && (answer != FULL || IS_FULL))

/* The second part of `SharedQueue::offer`, under the lock. */
inline ADD(text) {
#if FAULT != 20
  idle = IS_IDLE;
#endif
  if
  :: stopped -> answer = STOPPED
  :: !stopped && LACKS_ROOM -> answer = FULL
#if NO_MEMORY
  :: !stopped && !LACKS_ROOM -> answer = OUT_OF_MEMORY
#endif
  :: !stopped && !LACKS_ROOM ->
#if DROP_OLDEST
     if
     :: IS_FULL ->
        atomic { ring ? oldest; dropped = dropped + (FAULT != 23); assert(owed ?? [eval(oldest)]); owed ?? eval(oldest); oldest = 0 }
     :: else
     fi;
#endif
     atomic { ring ! text; submitted++; owed ! text; under_way++; answer = OK }
  fi;
  RELEASE(IS_TRUE_ANSWER);
#if FAULT == 1
  idle = idle && len(ring) == 2;
#elif FAULT == 7
  idle = (len(ring) == 1);
#endif
  if
  :: idle && answer == OK -> NOTIFY_ALL(CHANGED)
  :: else
  fi
}

/* `SharedQueue::offer`. A try of the lock that fails changes nothing, so `acquire`, which tries it a few times before
   it sleeps for it, is LOCK here. A caller that finds the queue full sets the mark and gives way (`SharedQueue::enter`).
   If the mark is still set then, it is refused for what it found. It reads the mark several times, and here once, at any
   moment. */
inline OFFER(text) {
#if FAULT == 5
  was_full = IS_FULL;
#elif FAULT == 25
  was_full = true;
#endif
  LOCK(QUEUE);
#if FAULT == 20
  idle = IS_IDLE;
#endif
  if
  :: IS_FULL && !stopped ->
     atomic { marked = true; if :: LACKS_ROOM -> answer = FULL :: else fi };
     RELEASE(answer != FULL || IS_TRUE_ANSWER);
     if
     :: answer == FULL && marked
     :: else ->
        LOCK(QUEUE);
#if FAULT == 25
        was_full = false;
#endif
        answer = 0
     fi
  :: else
  fi;
  if
  :: answer == 0 -> ADD(text)
  :: else
  fi
}

/* A caller, which offers its texts and then, if LAST_HANDLE is 1, drops its handle. */
proctype Caller(byte me) {
  LOCALS; byte offers, answer, oldest; bool idle, was_full;
  do
  :: offers < EMITS ->
     OFFER(me * EMITS + offers);
     atomic {
       if :: answer == OK -> accepted++; RETURN() :: else fi;
       answer = 0; idle = false; was_full = false; offers++
     }
  :: else -> break
  od;
#if LAST_HANDLE
  /* `SharedQueue::drop_handle` */
  LOCK(QUEUE);
  atomic {
    under_way++;
    handles--;
#if FAULT != 6
    if :: handles == 0 -> stopped = true :: else fi
#endif
  };
  RELEASE(true);
  NOTIFY_ALL(CHANGED);
  atomic { RETURN() }
#endif
}

/* `QueuingMetricSink::stop_and_wait`: `SharedQueue::stop` and `Latch::wait`. */
proctype Stopper() {
  LOCALS;
  LOCK(QUEUE);
  atomic { under_way++; stopped = true };
  RELEASE(stopped);
#if FAULT != 2
  NOTIFY_ALL(CHANGED);
#endif
  atomic { RETURN() };
  LOCK(END);
  do
  :: ended -> break
  :: else -> WAIT(MARKED, END)
  od;
  UNLOCK(END);
  assert(!has_share);
  assert(len(owed) == 0 && len(ring) == 0 && len(lent) == 0)
}

/* Clears the mark, and moves the oldest texts to the worker, as many as it has room for. */
inline MOVE() {
#if FAULT != 26
  marked = false;
#endif
  do
  :: atomic { len(lent) < ROOM && len(ring) > 0 -> ring ? text; drained++; lent ! text; text = 0 }
  :: else -> break
  od
}

#if PERIOD
/* Flushes the wrapped sink. If the flush fails, it is still owed. */
inline FLUSH() {
  atomic {
    if
    :: owes = false; is_unflushed = false
    :: MAY_FAIL -> COUNT_FAILURE
    fi
  }
}
#endif

#if FAULT == 21
/* a wait with a time doesn't end at a stop */
#define MISSES_STOP (timed && stopped && len(ring) == 0)
#else
#define MISSES_STOP false
#endif

/* `Taker::next` and `Taker::fetch`, for each text until the end, and then `Part::end`. If PERIOD is 1, also
   `Taker::fetch_within` and `SharedQueue::wait_within`, while a flush is owed. A flush may be due before a look at
   the queue, but after a flush that failed the worker looks before it tries again. A `progress` label stands where the
   worker has seen, under the lock, that no text waits and the queue isn't stopped. So a run without end that passes none
   of them is one in which the worker doesn't look, or has something to do. */
proctype Worker() {
  LOCALS; byte text, looks; bool idle, timed;
  assert(_pid == WORKER);
next:
  if
  :: len(lent) > 0 -> goto give
  :: else
  fi;
#if PERIOD
  timed = owes;
  if
  :: timed
  :: timed -> goto flush
  :: !timed
  fi;
#endif
look:
  if
  :: looks == LOOKS -> looks = 0; goto sleep
  :: else -> looks++
  fi;
  TRY_LOCK(QUEUE);
  if
  :: !got -> goto look
  :: else -> got = false
  fi;
  if
  :: IS_IDLE || MISSES_STOP -> RELEASE(true); goto look
  :: else -> looks = 0
  fi;
  MOVE();
#if FAULT == 4
  if :: len(lent) == 2 -> lent ? _ :: else fi;
#endif
  RELEASE(len(lent) > 0 || (stopped && len(ring) == 0));
  goto moved;
sleep:
#if FAULT == 3
  idle = IS_IDLE;
  LOCK(QUEUE);
  do
  :: !idle -> break
  :: else -> WAIT(CHANGED, QUEUE); idle = IS_IDLE
  od;
#else
  LOCK(QUEUE);
#if FAULT == 11
  if
  :: handed > 0 && !timed -> FALL_ASLEEP(CHANGED, QUEUE); sleeps_at[_pid] == NOWHERE; SLEEPERS(CHANGED)--; LOCK(QUEUE)
  :: else
  fi;
#endif
  do
  :: !IS_IDLE && !MISSES_STOP -> break
#if FAULT == 21
  :: MISSES_STOP -> RELEASE(true); goto flush
#endif
#if PERIOD && FAULT != 10
  :: IS_IDLE && timed ->
progress_idle:
     RELEASE(true); goto flush
  :: IS_IDLE && timed ->
progress_wait:
     WAIT_WITHIN(CHANGED, QUEUE)
  :: IS_IDLE && !timed -> WAIT(CHANGED, QUEUE)
#else
  :: else -> WAIT(CHANGED, QUEUE)
#endif
  od;
#endif
  MOVE();
  RELEASE(len(lent) > 0 || (stopped && len(ring) == 0));
moved:
  if
  :: len(lent) == 0 -> goto finish
  :: else
  fi;
give:
  /* the wrapped sink works here, and the worker holds no lock */
  atomic {
    lent ? text;
    assert(owed ? [eval(text)]); owed ? eval(text);
    handed++;
    is_unflushed = PERIOD;
#if FAULT != 19
    owes = PERIOD;
#endif
    text = 0
  };
  goto next;
#if PERIOD
flush:
  /* the flush is due, and the worker holds no lock */
  FLUSH();
#if FAULT == 13
  goto next;
#elif FAULT == 14
  timed = false;
  goto look;
#else
  timed = owes;
  goto look;
#endif
#endif
finish:
#if PERIOD && FAULT != 12
  if :: owes -> FLUSH() :: else fi;
#endif
  assert(stopped && len(ring) == 0 && len(owed) == 0);
#if FAULT != 17
  has_share = false;
#endif
#if FAULT == 22
  NOTIFY_ALL(MARKED);
#endif
  LOCK(END);
  ended = true;
  UNLOCK(END);
#if FAULT != 8 && FAULT != 22
  NOTIFY_ALL(MARKED);
#endif
  has_share = false
}

#if REPEATER

/* How often the thread has begun its work since the mark was set, and whether a period is too long for its end to come. */
byte late;
bool is_long;

/* How many shares of the work there are. One is the owner's. Another lies under the lock SHARE until the owner takes it
   out, and the thread has a copy of that while it is in a turn. The last share takes the work with it. */
byte shares = 2;
bool is_shared = true, in_turn;

/* `SharedWork::run`: `Latch::wait_within`, and then a turn (`SharedWork::take_turn`), unless the mark is set. If the
   clock can't be read, the time is over at once. */
proctype SharedWork() {
  LOCALS; bool is_over;
again:
  LOCK(END);
  do
  :: ended -> break
  :: !ended && !is_long ->
progress_wait:
     break
  :: !ended && !is_long ->
progress_sleep:
     WAIT_WITHIN(MARKED, END)
  :: !ended && is_long -> WAIT(MARKED, END)
  od;
  is_over = ended;
  UNLOCK(END);
#if FAULT == 16
  is_over = is_over && is_long;
#endif
  if
  :: is_over -> goto finish
  :: else
  fi;
  LOCK(SHARE);
  atomic {
    if
    :: is_shared -> shares = shares + (FAULT != 24); in_turn = true; late = late + ended; assert(late <= 1)
    :: else
    fi
  };
  UNLOCK(SHARE);
  /* the work is done here, and the thread holds no lock */
  atomic {
    if
    :: in_turn -> assert(shares > 0); shares = shares - (FAULT != 24); in_turn = false
    :: else
    fi
  };
  goto again;
finish:
#if FAULT == 18
  shares--;
#endif
  skip
}

/* The drop of a `Repeater`: `Latch::mark`, the work once more, and then both shares are let go. When it returns, the work
   is gone, unless the thread is in a turn. */
proctype Owner() {
  LOCALS;
  LOCK(END);
  ended = true;
  UNLOCK(END);
#if FAULT != 15
  NOTIFY_ALL(MARKED);
#endif
#if FAULT != 18
  LOCK(SHARE);
  is_shared = false;
  UNLOCK(SHARE);
  shares--;
#endif
  atomic { shares--; assert(shares == 0 || in_turn) }
}

init {
  atomic {
    if :: is_long = true :: is_long = false fi;
    run SharedWork();
    run Owner()
  };
  /* wait until each thread has ended */
  _nr_pr == 1;
  assert(shares == 0);
  assert(ended && ARE_FREE)
}

#else

init {
  byte n;
  atomic {
    run Worker();
    do :: n < CALLERS -> run Caller(n); n++ :: else -> break od;
    n = 0;
    do :: n < STOPPERS -> run Stopper(); n++ :: else -> break od;
    n = 0
  };
#if STOPPERS == 0 && !LAST_HANDLE
  /* wait until no thread can go on: then the worker sleeps */
  timeout;
  assert(!stopped && !ended && sleeps_at[WORKER] == CHANGED);
  assert(!is_unflushed);
#else
  /* wait until each thread has ended */
  _nr_pr == 1;
  assert(stopped && ended);
  assert(!is_unflushed || HAS_FAILED);
#endif
  assert(len(ring) == 0 && len(lent) == 0 && len(owed) == 0);
  assert(accepted == submitted && handed == drained && accepted == handed + dropped);
  assert(under_way == 0 && ARE_FREE)
}

#endif
