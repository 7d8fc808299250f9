/* The switch: each call in each state of branch and thread, allowed or refused, and what follows it; flags, identifiers
   and strings that are wrong; recovery by cursor; threads; rows. What is expected is README.md's table, 'A resource
   manager'. */
#include "nigbaru.h"
#include "nigbaru_xa.h"

#include "check.h"

#include <pthread.h>
#include <stdatomic.h>

#define RM 7
#define STATES 12

static struct xa_switch_t *const xa = &nigbaru_xa_switch;
static char info[] = "store=cells,rows=64,sessions=4";

static XID xid_of(const char *gtrid) {
  XID xid = {.formatID = 3, .gtrid_length = (long)strlen(gtrid), .bqual_length = 1};
  strcpy(xid.data, gtrid);
  xid.data[xid.gtrid_length] = 'b';
  return xid;
}

/* ---- states ---- */

/* Of the thread and of the branch X that a call names. M is another branch, the thread's own. */
enum state { CLOSED, NONE, ACTIVE, IDLE, PREPARED, ACTIVE_NONE, ACTIVE_IDLE, ACTIVE_PREPARED, IDLE_NONE, IDLE_PREPARED,
             ELSEWHERE, IDLE_ELSEWHERE, IDLE_ACTIVE /* M idle, X active: what a call leads to */ };
static const char *const state_names[STATES] = {
    "closed", "no branch", "active", "idle", "prepared", "M active, X none", "M active, X idle", "M active, X prepared",
    "M idle, X none", "M idle, X prepared", "another thread's", "another thread's, which has closed, and idle"};

/* Another thread of control, which does one thing and waits for the next. */
static struct {
  pthread_mutex_t mutex;
  pthread_cond_t changed;
  int (*task)(void);
  int result, is_done, ends;
} other = {PTHREAD_MUTEX_INITIALIZER, PTHREAD_COND_INITIALIZER, NULL, 0, 0, 0};

static void *serve(void *unused) {
  (void)unused;
  pthread_mutex_lock(&other.mutex);
  while (!other.ends) {
    if (other.task != NULL) {
      other.result = other.task();
      other.task = NULL;
      other.is_done = 1;
      pthread_cond_broadcast(&other.changed);
    }
    if (!other.ends)
      pthread_cond_wait(&other.changed, &other.mutex);
  }
  pthread_mutex_unlock(&other.mutex);
  return NULL;
}

static int elsewhere(int (*task)(void)) {
  pthread_mutex_lock(&other.mutex);
  other.task = task;
  other.is_done = 0;
  pthread_cond_broadcast(&other.changed);
  while (!other.is_done)
    pthread_cond_wait(&other.changed, &other.mutex);
  int result = other.result;
  pthread_mutex_unlock(&other.mutex);
  return result;
}

static void end_elsewhere(pthread_t thread) {
  pthread_mutex_lock(&other.mutex);
  other.ends = 1;
  pthread_cond_broadcast(&other.changed);
  pthread_mutex_unlock(&other.mutex);
  SAME(pthread_join(thread, NULL), 0);
  other.ends = 0;
}

static int open_here(void) { return xa->xa_open_entry(info, RM, TMNOFLAGS); }
static int close_here(void) { return xa->xa_close_entry(info, RM, TMNOFLAGS); }

static int start_x(void) {
  XID x = xid_of("X");
  return xa->xa_start_entry(&x, RM, TMNOFLAGS);
}

static int end_x(void) {
  XID x = xid_of("X");
  return xa->xa_end_entry(&x, RM, TMSUCCESS);
}

static int rollback_x(void) {
  XID x = xid_of("X");
  return xa->xa_rollback_entry(&x, RM, TMNOFLAGS);
}

static int commit_x(void) {
  XID x = xid_of("X");
  return xa->xa_commit_entry(&x, RM, TMNOFLAGS);
}

static void bring(const char *gtrid, enum state to) {
  XID xid = xid_of(gtrid);
  SAME(xa->xa_start_entry(&xid, RM, TMNOFLAGS), XA_OK);
  if (to == ACTIVE)
    return;
  SAME(xa->xa_end_entry(&xid, RM, TMSUCCESS), XA_OK);
  if (to == PREPARED)
    SAME(xa->xa_prepare_entry(&xid, RM, TMNOFLAGS), XA_OK);
}

static int is_m_active(enum state state) {
  return state == ACTIVE_NONE || state == ACTIVE_IDLE || state == ACTIVE_PREPARED;
}

static int is_m_idle(enum state state) { return state == IDLE_NONE || state == IDLE_PREPARED || state == IDLE_ACTIVE; }

static void enter(enum state state) {
  if (state == CLOSED)
    return;
  SAME(open_here(), XA_OK);
  switch (state) {
  case ACTIVE:
  case IDLE:
  case PREPARED: bring("X", state); break;
  case ACTIVE_IDLE: bring("X", IDLE); break;
  case ACTIVE_PREPARED:
  case IDLE_PREPARED: bring("X", PREPARED); break;
  case ELSEWHERE:
  case IDLE_ELSEWHERE:
    SAME(elsewhere(open_here), XA_OK);
    SAME(elsewhere(start_x), XA_OK);
    break;
  default: break;
  }
  if (state == IDLE_ELSEWHERE) {
    SAME(elsewhere(end_x), XA_OK);
    SAME(elsewhere(close_here), XA_OK);
  }
  if (is_m_active(state))
    bring("M", ACTIVE);
  if (is_m_idle(state))
    bring("M", IDLE);
}

/* Sees that the state is this one, by what only it allows, and leaves nothing behind. */
static void leave(enum state state) {
  XID m = xid_of("M");
  if (is_m_active(state))
    SAME(xa->xa_end_entry(&m, RM, TMSUCCESS), XA_OK);
  if (is_m_active(state) || is_m_idle(state))
    SAME(xa->xa_rollback_entry(&m, RM, TMNOFLAGS), XA_OK);
  switch (state) {
  case CLOSED:
    SAME(start_x(), XAER_PROTO);
    return;
  case ACTIVE:
  case IDLE_ACTIVE:
    SAME(end_x(), XA_OK);
    SAME(rollback_x(), XA_OK);
    break;
  case IDLE:
  case ACTIVE_IDLE:
  case IDLE_ELSEWHERE:
    SAME(commit_x(), XAER_PROTO);
    SAME(rollback_x(), XA_OK);
    break;
  case PREPARED:
  case ACTIVE_PREPARED:
  case IDLE_PREPARED: SAME(commit_x(), XA_OK); break;
  case ELSEWHERE:
    SAME(elsewhere(end_x), XA_OK);
    SAME(elsewhere(close_here), XA_OK);
    SAME(rollback_x(), XA_OK);
    break;
  default: break;
  }
  SAME(commit_x(), XAER_NOTA);
  SAME(rollback_x(), XAER_NOTA);
  SAME(close_here(), XA_OK);
}

/* ---- calls, with the branch X ---- */

static int called(const char *call, long flags) {
  XID x = xid_of("X"), listed[4];
  int handle = 0, retval = 0;
  if (strcmp(call, "open") == 0)
    return xa->xa_open_entry(info, RM, flags);
  if (strcmp(call, "close") == 0)
    return xa->xa_close_entry(info, RM, flags);
  if (strcmp(call, "start") == 0)
    return xa->xa_start_entry(&x, RM, flags);
  if (strcmp(call, "end") == 0)
    return xa->xa_end_entry(&x, RM, flags);
  if (strcmp(call, "prepare") == 0)
    return xa->xa_prepare_entry(&x, RM, flags);
  if (strcmp(call, "commit") == 0)
    return xa->xa_commit_entry(&x, RM, flags);
  if (strcmp(call, "rollback") == 0)
    return xa->xa_rollback_entry(&x, RM, flags);
  if (strcmp(call, "forget") == 0)
    return xa->xa_forget_entry(&x, RM, flags);
  if (strcmp(call, "recover") == 0)
    return xa->xa_recover_entry(listed, 4, RM, flags);
  CHECK(strcmp(call, "complete") == 0);
  return xa->xa_complete_entry(&handle, &retval, RM, flags);
}

#define P XAER_PROTO
#define N XAER_NOTA
#define I XAER_INVAL
#define D XAER_DUPID
#define ON(state) (1000 + (state)) /* XA_OK, and then the state */

#define STAYS (-100) /* XA_OK, and all branches are as they were */

/* One column a state, in the order of its enumeration. */
static const struct {
  const char *call;
  long flags;
  int wanted[STATES];
} table[] = {
    /*                                 closed    none        active    idle          prepared  M active         M active             M active         M idle           M idle         active  idle
                                                                                               X none           X idle               X prepared       X none           X prepared     elsewhere  */
    {"open", TMNOFLAGS,                {ON(NONE), 0,         0,        0,            0,        0,               0,                   0,               0,               0,             0,      0}},
    {"close", TMNOFLAGS,               {0,        ON(CLOSED), P,       STAYS,        STAYS,    P,               P,                   P,               STAYS,           STAYS,         STAYS,  STAYS}},
    {"start", TMNOFLAGS,               {P,        ON(ACTIVE), P,       D,            D,        P,               P,                   P,               ON(IDLE_ACTIVE), D,             D,      D}},
    {"start", TMNOWAIT,                {P,        ON(ACTIVE), P,       D,            D,        P,               P,                   P,               ON(IDLE_ACTIVE), D,             D,      D}},
    {"start", TMJOIN,                  {P,        I,         I,        I,            I,        I,               I,                   I,               I,               I,             I,      I}},
    {"start", TMRESUME,                {P,        I,         I,        I,            I,        I,               I,                   I,               I,               I,             I,      I}},
    {"end", TMSUCCESS,                 {P,        P,         ON(IDLE), P,            P,        N,               P,                   P,               P,               P,             P,      P}},
    {"end", TMFAIL,                    {P,        P,         ON(IDLE), P,            P,        N,               P,                   P,               P,               P,             P,      P}},
    {"end", TMSUSPEND,                 {P,        I,         I,        I,            I,        I,               I,                   I,               I,               I,             I,      I}},
    {"end", TMSUSPEND | TMMIGRATE,     {P,        I,         I,        I,            I,        I,               I,                   I,               I,               I,             I,      I}},
    {"prepare", TMNOFLAGS,             {P,        N,         P,        ON(PREPARED), P,        N,               ON(ACTIVE_PREPARED), P,               N,               P,             P,      ON(PREPARED)}},
    {"commit", TMNOFLAGS,              {P,        N,         P,        P,            ON(NONE), N,               P,                   ON(ACTIVE_NONE), N,               ON(IDLE_NONE), P,      P}},
    {"commit", TMNOWAIT,               {P,        N,         P,        P,            ON(NONE), N,               P,                   ON(ACTIVE_NONE), N,               ON(IDLE_NONE), P,      P}},
    {"commit", TMONEPHASE,             {P,        N,         P,        ON(NONE),     P,        N,               ON(ACTIVE_NONE),     P,               N,               P,             P,      ON(NONE)}},
    {"rollback", TMNOFLAGS,            {P,        N,         P,        ON(NONE),     ON(NONE), N,               ON(ACTIVE_NONE),     ON(ACTIVE_NONE), N,               ON(IDLE_NONE), P,      ON(NONE)}},
    {"forget", TMNOFLAGS,              {P,        N,         N,        N,            N,        N,               N,                   N,               N,               N,             N,      N}},
    {"recover", TMSTARTRSCAN | TMENDRSCAN, {P,    0,         0,        0,            1,        0,               0,                   1,               0,               1,             0,      0}},
    {"complete", TMNOFLAGS,            {P,        P,         P,        P,            P,        P,               P,                   P,               P,               P,             P,      P}},
};

/* xa_close where it isn't refused: the thread has nothing open, and each branch is as it was. */
static void closes(enum state state) {
  SAME(close_here(), XA_OK);
  SAME(close_here(), XA_OK);
  SAME(start_x(), XAER_PROTO);
  SAME(open_here(), XA_OK);
  leave(state);
}

static void cell(size_t row, enum state state) {
  enter(state);
  int wanted = table[row].wanted[state];
  if (wanted == STAYS) {
    closes(state);
    return;
  }
  int got = called(table[row].call, table[row].flags);
  int code = wanted >= 1000 ? XA_OK : wanted;
  if (got != code) {
    fprintf(stderr, "xa_%s with %lx, %s: %d, and not %d\n", table[row].call, (unsigned long)table[row].flags,
            state_names[state], got, code);
    exit(1);
  }
  leave(wanted >= 1000 ? (enum state)(wanted - 1000) : state);
}

static void cells(void) {
  pthread_t thread;
  SAME(pthread_create(&thread, NULL, serve, NULL), 0);
  for (size_t row = 0; row < sizeof table / sizeof *table; row++)
    for (int state = 0; state < STATES; state++)
      cell(row, (enum state)state);
  end_elsewhere(thread);
  SAME(nigbaru_xa_drop("cells"), XA_OK);
  printf("%zu cells of calls in states\n", sizeof table / sizeof *table * STATES);
}

/* ---- flags, identifiers, strings ---- */

static void flags(void) {
  static const struct { const char *call; long known; int is_async; } calls[] = {
      {"open", 0, 1}, {"close", 0, 1}, {"start", TMJOIN | TMRESUME | TMNOWAIT, 1},
      {"end", TMSUSPEND | TMMIGRATE | TMSUCCESS | TMFAIL, 1}, {"prepare", 0, 1},
      {"commit", TMONEPHASE | TMNOWAIT, 1}, {"rollback", 0, 1}, {"forget", 0, 1},
      {"recover", TMSTARTRSCAN | TMENDRSCAN, 0}, {"complete", TMMULTIPLE | TMNOWAIT, 0},
  };
  SAME(open_here(), XA_OK);
  for (size_t index = 0; index < sizeof calls / sizeof *calls; index++) {
    SAME(called(calls[index].call, TMASYNC), calls[index].is_async ? XAER_ASYNC : XAER_INVAL);
    for (int bit = 0; bit < 31; bit++)
      if (!(calls[index].known & (1L << bit)))
        SAME(called(calls[index].call, 1L << bit), XAER_INVAL);
  }
  SAME(called("start", TMJOIN | TMRESUME), XAER_INVAL);
  static const long ends[] = {TMNOFLAGS, TMMIGRATE, TMSUCCESS | TMFAIL, TMSUCCESS | TMSUSPEND, TMFAIL | TMSUSPEND,
                              TMSUCCESS | TMMIGRATE, TMSUCCESS | TMFAIL | TMSUSPEND};
  bring("X", ACTIVE);
  for (size_t index = 0; index < sizeof ends / sizeof *ends; index++)
    SAME(called("end", ends[index]), XAER_INVAL);
  leave(ACTIVE);
  SAME(nigbaru_xa_drop("cells"), XA_OK);
}

static void identifiers(void) {
  static int (*const *const entries[])(XID *, int, long) = {
      &nigbaru_xa_switch.xa_start_entry, &nigbaru_xa_switch.xa_prepare_entry, &nigbaru_xa_switch.xa_commit_entry,
      &nigbaru_xa_switch.xa_rollback_entry, &nigbaru_xa_switch.xa_forget_entry};
  static const long bad[][3] = {{-1, 1, 1}, {-2, 1, 1}, {1, 0, 1}, {1, -1, 1}, {1, 65, 1}, {1, 1, -1},
                                {1, 1, 65}, {1, 64, 65}};
  SAME(open_here(), XA_OK);
  for (size_t entry = 0; entry < sizeof entries / sizeof *entries; entry++) {
    SAME((*entries[entry])(NULL, RM, TMNOFLAGS), XAER_INVAL);
    for (size_t index = 0; index < sizeof bad / sizeof *bad; index++) {
      XID xid = {.formatID = bad[index][0], .gtrid_length = bad[index][1], .bqual_length = bad[index][2]};
      SAME((*entries[entry])(&xid, RM, TMNOFLAGS), XAER_INVAL);
      SAME(xa->xa_end_entry(&xid, RM, TMSUCCESS), XAER_INVAL);
    }
  }
  int handle, retval;
  SAME(xa->xa_end_entry(NULL, RM, TMSUCCESS), XAER_INVAL);
  SAME(xa->xa_complete_entry(NULL, &retval, RM, TMNOFLAGS), XAER_INVAL);
  SAME(xa->xa_complete_entry(&handle, NULL, RM, TMNOFLAGS), XAER_INVAL);
  XID longest = {.formatID = 0x7fffffffffffffffL, .gtrid_length = 64, .bqual_length = 64}, listed;
  for (int index = 0; index < XIDDATASIZE; index++)
    longest.data[index] = (char)(index * 2 + 1);
  SAME(xa->xa_start_entry(&longest, RM, TMNOFLAGS), XA_OK);
  SAME(xa->xa_end_entry(&longest, RM, TMSUCCESS), XA_OK);
  SAME(xa->xa_prepare_entry(&longest, RM, TMNOFLAGS), XA_OK);
  SAME(xa->xa_recover_entry(&listed, 1, RM, TMSTARTRSCAN | TMENDRSCAN), 1);
  SAME(memcmp(&listed, &longest, sizeof listed), 0);
  SAME(xa->xa_rollback_entry(&listed, RM, TMNOFLAGS), XA_OK);
  SAME(close_here(), XA_OK);
  SAME(nigbaru_xa_drop("cells"), XA_OK);
}

static void strings(void) {
  static const char *const bad[] = {"x", "store=", "store", "store=a,", ",store=a", "rows=0", "rows=65537", "rows=",
                                    "capacity=5", "sessions=17", "sessions=0", "sessions=-1", "rows=1x", "rows=9999999",
                                    "store=a,,sessions=1", "store =a", " store=a", "Store=a"};
  static const char *const good[] = {"", "store=a", "sessions=1", "rows=1,sessions=16,store=a=b",
                                     "sessions=2,sessions=3"};
  static const char *const names[] = {"nigbaru", "a", "nigbaru", "a=b", "nigbaru"};
  char text[MAXINFOSIZE + 8];
  SAME(xa->xa_open_entry(NULL, RM, TMNOFLAGS), XAER_INVAL);
  for (size_t index = 0; index < sizeof bad / sizeof *bad; index++) {
    strcpy(text, bad[index]);
    SAME(xa->xa_open_entry(text, RM, TMNOFLAGS), XAER_INVAL);
  }
  for (size_t index = 0; index < sizeof good / sizeof *good; index++) {
    strcpy(text, good[index]);
    SAME(xa->xa_open_entry(text, RM, TMNOFLAGS), XA_OK);
    SAME(xa->xa_close_entry(text, RM, TMNOFLAGS), XA_OK);
    SAME(nigbaru_xa_drop(names[index]), XA_OK);
  }
  SAME(xa->xa_close_entry(NULL, RM, TMNOFLAGS), XA_OK);
  strcpy(text, "store=");
  memset(text + 6, 'n', 64);
  text[70] = 0;
  SAME(xa->xa_open_entry(text, RM, TMNOFLAGS), XA_OK);
  SAME(xa->xa_close_entry(text, RM, TMNOFLAGS), XA_OK);
  SAME(nigbaru_xa_drop(text + 6), XA_OK);
  strcat(text, "n");
  SAME(xa->xa_open_entry(text, RM, TMNOFLAGS), XAER_INVAL);
  memset(text, 0, sizeof text);
  for (int part = 0; part < 30; part++)
    strcat(text, "store=a,");
  strcat(text, "store=abcdefghij");
  SAME(strlen(text), MAXINFOSIZE);
  SAME(xa->xa_open_entry(text, RM, TMNOFLAGS), XAER_INVAL);
  text[MAXINFOSIZE - 1] = 0;
  SAME(xa->xa_open_entry(text, RM, TMNOFLAGS), XA_OK);
  SAME(nigbaru_xa_drop("abcdefghi"), XAER_PROTO);
  SAME(xa->xa_open_entry((char[]){"store=abcdefghi,rows=5"}, RM + 1, TMNOFLAGS), XAER_INVAL);
  SAME(xa->xa_close_entry(text, RM, TMNOFLAGS), XA_OK);
  SAME(nigbaru_xa_drop("abcdefghi"), XA_OK);
  SAME(nigbaru_xa_drop("abcdefghi"), XAER_INVAL);
  SAME(nigbaru_xa_drop(NULL), XAER_INVAL);
}

/* ---- sessions ---- */

/* Each branch that isn't prepared has a session, and every other call needs one for a moment; stores of two names are
   two. */
static void sessions(void) {
  char one[] = "store=one,rows=16,sessions=2", two[] = "store=two,rows=16";
  XID x = xid_of("X"), y = xid_of("Y"), z = xid_of("Z");
  unsigned char value[64];
  size_t length;
  for (int rmid = 1; rmid <= 3; rmid++)
    SAME(xa->xa_open_entry(one, rmid, TMNOFLAGS), XA_OK);
  SAME(xa->xa_open_entry(two, 4, TMNOFLAGS), XA_OK);
  SAME(xa->xa_start_entry(&x, 1, TMNOFLAGS), XA_OK);
  SAME(xa->xa_start_entry(&x, 2, TMNOFLAGS), XAER_DUPID);
  SAME(xa->xa_start_entry(&x, 4, TMNOFLAGS), XA_OK);
  SAME(nigbaru_xa_put(1, "k", 1, "v", 1), NIGBARU_OK);
  SAME(nigbaru_xa_put(2, "k", 1, "w", 1), 3572);
  SAME(nigbaru_xa_put(4, "k", 1, "w", 1), NIGBARU_OK);
  SAME(xa->xa_start_entry(&y, 2, TMNOFLAGS), XA_OK);
  SAME(xa->xa_start_entry(&z, 3, TMNOFLAGS), XAER_RMERR);
  SAME(nigbaru_xa_get(3, "k", 1, value, &length), NIGBARU_NO_SESSION);
  SAME(xa->xa_prepare_entry(&z, 3, TMNOFLAGS), XAER_RMERR);
  SAME(xa->xa_commit_entry(&z, 3, TMNOFLAGS), XA_RETRY);
  SAME(xa->xa_rollback_entry(&z, 3, TMNOFLAGS), XAER_RMFAIL);
  SAME(xa->xa_recover_entry(NULL, 0, 3, TMSTARTRSCAN | TMENDRSCAN), XAER_RMERR);
  SAME(nigbaru_xa_get(1, "k", 1, value, &length), NIGBARU_VALUE);
  SAME(xa->xa_end_entry(&x, 1, TMSUCCESS), XA_OK);
  SAME(xa->xa_start_entry(&z, 1, TMNOFLAGS), XAER_RMERR);
  SAME(xa->xa_prepare_entry(&x, 3, TMNOFLAGS), XA_OK);
  SAME(xa->xa_commit_entry(&x, 3, TMNOFLAGS), XA_OK);
  SAME(xa->xa_start_entry(&z, 3, TMNOFLAGS), XA_OK);
  XID *const rest[] = {NULL, NULL, &y, &z, &x};
  for (int rmid = 2; rmid <= 4; rmid++) {
    SAME(xa->xa_end_entry(rest[rmid], rmid, TMSUCCESS), XA_OK);
    SAME(xa->xa_rollback_entry(rest[rmid], rmid, TMNOFLAGS), XA_OK);
  }
  for (int rmid = 1; rmid <= 4; rmid++)
    SAME(xa->xa_close_entry(one, rmid, TMNOFLAGS), XA_OK);
  SAME(nigbaru_xa_drop("one"), XA_OK);
  SAME(nigbaru_xa_drop("two"), XA_OK);
}

static int work_of_x(void) {
  SAME(open_here(), XA_OK);
  SAME(start_x(), XA_OK);
  return nigbaru_xa_put(RM, "k", 1, "theirs", 6);
}

static int prepared_x(void) {
  SAME(work_of_x(), NIGBARU_OK);
  SAME(end_x(), XA_OK);
  XID x = xid_of("X");
  return xa->xa_prepare_entry(&x, RM, TMNOFLAGS);
}

static int idle_x(void) {
  SAME(work_of_x(), NIGBARU_OK);
  return end_x();
}

static void *ends_within(void *task) {
  (*(int (**)(void))task)();
  return NULL;
}

/* Threads that end without xa_close: an active branch is rolled back, an idle or a prepared one goes on, and the
   session of the first is free. */
static void threads_that_end(void) {
  pthread_t thread;
  int (*tasks[])(void) = {work_of_x, prepared_x, idle_x};
  static const int commits[] = {XAER_NOTA, XA_OK, XAER_PROTO}, rollbacks[] = {XAER_NOTA, XAER_NOTA, XA_OK};
  unsigned char value[64];
  size_t length;
  SAME(open_here(), XA_OK);
  for (int turn = 0; turn < 12; turn++) {
    SAME(pthread_create(&thread, NULL, ends_within, &tasks[turn % 3]), 0);
    SAME(pthread_join(thread, NULL), 0);
    SAME(commit_x(), commits[turn % 3]);
    SAME(rollback_x(), rollbacks[turn % 3]);
    SAME(nigbaru_xa_get(RM, "k", 1, value, &length), turn == 0 ? NIGBARU_NONE : NIGBARU_VALUE);
  }
  SAME(close_here(), XA_OK);
  SAME(nigbaru_xa_drop("cells"), XA_OK);
}

/* Two threads that finish the same idle branch: one does it. */
static struct {
  pthread_barrier_t barrier;
  atomic_int done;
} both;

static void *finishes_x(void *unused) {
  (void)unused;
  XID x = xid_of("X");
  SAME(open_here(), XA_OK);
  for (int turn = 0; turn < 200; turn++) {
    pthread_barrier_wait(&both.barrier);
    int code = turn % 3 == 0   ? xa->xa_prepare_entry(&x, RM, TMNOFLAGS)
               : turn % 3 == 1 ? xa->xa_commit_entry(&x, RM, TMONEPHASE)
                               : xa->xa_rollback_entry(&x, RM, TMNOFLAGS);
    CHECK(code == XA_OK || code == XAER_PROTO || code == XAER_NOTA);
    atomic_fetch_add(&both.done, code == XA_OK);
    pthread_barrier_wait(&both.barrier);
  }
  SAME(close_here(), XA_OK);
  return NULL;
}

static void two_that_finish(void) {
  pthread_t threads[2];
  SAME(open_here(), XA_OK);
  SAME(pthread_barrier_init(&both.barrier, NULL, 3), 0);
  for (int index = 0; index < 2; index++)
    SAME(pthread_create(&threads[index], NULL, finishes_x, NULL), 0);
  for (int turn = 0; turn < 200; turn++) {
    bring("X", IDLE);
    atomic_store(&both.done, 0);
    pthread_barrier_wait(&both.barrier);
    pthread_barrier_wait(&both.barrier);
    SAME(atomic_load(&both.done), 1);
    SAME(rollback_x(), turn % 3 == 0 ? XA_OK : XAER_NOTA);
  }
  for (int index = 0; index < 2; index++)
    SAME(pthread_join(threads[index], NULL), 0);
  SAME(close_here(), XA_OK);
  SAME(nigbaru_xa_drop("cells"), XA_OK);
}

/* ---- recovery ---- */

static void recovery(void) {
  static const char *const names[] = {"a", "b", "c", "d", "e"};
  XID listed[8], none = xid_of("none");
  SAME(open_here(), XA_OK);
  SAME(xa->xa_recover_entry(listed, 8, RM, TMNOFLAGS), XAER_INVAL);
  SAME(xa->xa_recover_entry(listed, 8, RM, TMENDRSCAN), XAER_INVAL);
  SAME(xa->xa_recover_entry(NULL, 1, RM, TMSTARTRSCAN), XAER_INVAL);
  SAME(xa->xa_recover_entry(listed, -1, RM, TMSTARTRSCAN), XAER_INVAL);
  SAME(xa->xa_recover_entry(NULL, 0, RM, TMSTARTRSCAN | TMENDRSCAN), 0);
  for (int index = 4; index >= 0; index--)
    bring(names[index], PREPARED);
  SAME(xa->xa_recover_entry(listed, 2, RM, TMSTARTRSCAN), 2);
  SAME(xa->xa_recover_entry(listed + 2, 2, RM, TMNOFLAGS), 2);
  SAME(xa->xa_recover_entry(listed + 4, 2, RM, TMNOFLAGS), 1);
  SAME(xa->xa_recover_entry(listed, 2, RM, TMNOFLAGS), XAER_INVAL);
  for (int index = 0; index < 5; index++) {
    SAME(listed[index].data[0], names[index][0]);
    SAME(listed[index].formatID, 3);
  }
  SAME(xa->xa_recover_entry(listed, 5, RM, TMSTARTRSCAN), 5);
  SAME(xa->xa_recover_entry(listed, 5, RM, TMNOFLAGS), 0);
  SAME(xa->xa_recover_entry(listed, 4, RM, TMSTARTRSCAN), 4);
  SAME(xa->xa_recover_entry(listed, 1, RM, TMSTARTRSCAN), 1);
  SAME(listed[0].data[0], 'a');
  SAME(xa->xa_recover_entry(NULL, 0, RM, TMNOFLAGS), 0);
  SAME(xa->xa_recover_entry(listed, 1, RM, TMENDRSCAN), 1);
  SAME(listed[0].data[0], 'b');
  SAME(xa->xa_recover_entry(listed, 1, RM, TMNOFLAGS), XAER_INVAL);
  SAME(xa->xa_forget_entry(&none, RM, TMNOFLAGS), XAER_NOTA);
  SAME(close_here(), XA_OK);
  SAME(open_here(), XA_OK);
  SAME(xa->xa_recover_entry(listed, 8, RM, TMSTARTRSCAN), 5);
  for (int index = 0; index < 5; index++)
    SAME(index % 2 == 0 ? xa->xa_commit_entry(&listed[index], RM, TMNOFLAGS)
                        : xa->xa_rollback_entry(&listed[index], RM, TMNOFLAGS),
         XA_OK);
  SAME(xa->xa_recover_entry(listed, 8, RM, TMSTARTRSCAN), 0);
  SAME(close_here(), XA_OK);
  SAME(nigbaru_xa_drop("cells"), XA_OK);
}

/* More branches than the first list has room for: it is asked for again. */
static void long_list(void) {
  char text[] = "store=long,rows=8,sessions=1", name[16];
  static XID listed[40];
  SAME(xa->xa_open_entry(text, RM, TMNOFLAGS), XA_OK);
  for (int index = 0; index < 40; index++) {
    sprintf(name, "%02d", index);
    bring(name, PREPARED);
  }
  SAME(xa->xa_recover_entry(listed, 40, RM, TMSTARTRSCAN | TMENDRSCAN), 40);
  for (int index = 0; index < 40; index++) {
    SAME(atoi((char[]){listed[index].data[0], listed[index].data[1], 0}), index);
    SAME(xa->xa_commit_entry(&listed[index], RM, TMNOFLAGS), XA_OK);
  }
  SAME(xa->xa_close_entry(text, RM, TMNOFLAGS), XA_OK);
  SAME(nigbaru_xa_drop("long"), XA_OK);
}

/* ---- rows ---- */

static int put_rows(void) {
  SAME(open_here(), XA_OK);
  for (int turn = 0; turn < 500; turn++) {
    char value[16];
    int length = sprintf(value, "%d", turn);
    SAME(nigbaru_xa_put(RM, "theirs", 6, value, (size_t)length), NIGBARU_OK);
  }
  return close_here();
}

static void rows(void) {
  unsigned char value[64], key[65] = "longest";
  size_t length = 77;
  pthread_t thread;
  SAME(nigbaru_xa_get(RM, "k", 1, value, &length), NIGBARU_NO_HANDLE);
  SAME(open_here(), XA_OK);
  SAME(nigbaru_xa_get(RM, NULL, 1, value, &length), NIGBARU_NO_POINTER);
  SAME(nigbaru_xa_get(RM, "k", 1, NULL, &length), NIGBARU_NO_POINTER);
  SAME(nigbaru_xa_get(RM, "k", 1, value, NULL), NIGBARU_NO_POINTER);
  SAME(nigbaru_xa_put(RM, "k", 1, NULL, 1), NIGBARU_NO_POINTER);
  SAME(nigbaru_xa_get(RM, key, 0, value, &length), NIGBARU_OUT_OF_RANGE);
  SAME(nigbaru_xa_delete(RM, key, 65), NIGBARU_OUT_OF_RANGE);
  SAME(nigbaru_xa_put(RM, key, 64, key, 65), NIGBARU_OUT_OF_RANGE);
  SAME(nigbaru_xa_get(RM, key, 64, value, &length), NIGBARU_NONE);
  SAME(length, 77);
  SAME(nigbaru_xa_put(RM, key, 64, key, 64), NIGBARU_OK);
  SAME(nigbaru_xa_get(RM, key, 64, value, &length), NIGBARU_VALUE);
  SAME(length, 64);
  SAME(memcmp(value, key, 64), 0);
  SAME(nigbaru_xa_put(RM, key, 64, NULL, 0), NIGBARU_OK);
  SAME(nigbaru_xa_get(RM, key, 64, value, &length), NIGBARU_VALUE);
  SAME(length, 0);
  bring("X", ACTIVE);
  SAME(nigbaru_xa_put(RM, "mine", 4, "1", 1), NIGBARU_OK);
  SAME(nigbaru_xa_delete(RM, key, 64), NIGBARU_OK);
  SAME(nigbaru_xa_get(RM, key, 64, value, &length), NIGBARU_NONE);
  SAME(pthread_create(&thread, NULL, serve, NULL), 0);
  SAME(elsewhere(put_rows), XA_OK);
  end_elsewhere(thread);
  SAME(nigbaru_xa_get(RM, "theirs", 6, value, &length), NIGBARU_VALUE);
  SAME(length, 3);
  SAME(memcmp(value, "499", 3), 0);
  SAME(end_x(), XA_OK);
  SAME(nigbaru_xa_put(RM, "mine", 4, "2", 1), 3572);
  SAME(nigbaru_xa_put(RM, "yours", 5, "2", 1), NIGBARU_OK);
  SAME(called("prepare", TMNOFLAGS), XA_OK);
  SAME(nigbaru_xa_put(RM, "mine", 4, "2", 1), 3572);
  SAME(commit_x(), XA_OK);
  SAME(nigbaru_xa_get(RM, "mine", 4, value, &length), NIGBARU_VALUE);
  SAME(nigbaru_xa_get(RM, key, 64, value, &length), NIGBARU_NONE);
  SAME(close_here(), XA_OK);
  SAME(nigbaru_xa_drop("cells"), XA_OK);
}

/* Threads of control over one store with a short ring: cycles in two phases, and a count of what was committed. */
static char racing_info[] = "store=race,rows=7,sessions=4";
static long committed[4];

static void *race(void *at) {
  long *count = at;
  char name[32], own[16];
  int own_length = sprintf(own, "row%d", (int)(count - committed));
  SAME(xa->xa_open_entry(racing_info, RM, TMNOFLAGS), XA_OK);
  for (int turn = 0; turn < 100; turn++) {
    sprintf(name, "%d-%d", (int)(count - committed), turn);
    XID xid = xid_of(name);
    SAME(xa->xa_start_entry(&xid, RM, TMNOFLAGS), XA_OK);
    int status = nigbaru_xa_put(RM, "shared", 6, "x", 1);
    CHECK(status == NIGBARU_OK || status == 3572);
    SAME(nigbaru_xa_put(RM, own, (size_t)own_length, name, strlen(name)), NIGBARU_OK);
    SAME(xa->xa_end_entry(&xid, RM, status == NIGBARU_OK ? TMSUCCESS : TMFAIL), XA_OK);
    if (status != NIGBARU_OK)
      SAME(xa->xa_rollback_entry(&xid, RM, TMNOFLAGS), XA_OK);
    else {
      SAME(xa->xa_prepare_entry(&xid, RM, TMNOFLAGS), XA_OK);
      SAME(xa->xa_commit_entry(&xid, RM, TMNOFLAGS), XA_OK);
      *count = turn + 1;
    }
  }
  SAME(xa->xa_close_entry(racing_info, RM, TMNOFLAGS), XA_OK);
  return NULL;
}

static void races(void) {
  pthread_t threads[4];
  unsigned char value[65];
  size_t length;
  char row[16], wanted[40];
  for (int index = 0; index < 4; index++)
    SAME(pthread_create(&threads[index], NULL, race, &committed[index]), 0);
  for (int index = 0; index < 4; index++)
    SAME(pthread_join(threads[index], NULL), 0);
  SAME(xa->xa_open_entry(racing_info, RM, TMNOFLAGS), XA_OK);
  for (int index = 0; index < 4; index++) {
    int row_length = sprintf(row, "row%d", index),
        wanted_length = sprintf(wanted, "%d-%ld", index, committed[index] - 1);
    int status = nigbaru_xa_get(RM, row, (size_t)row_length, value, &length);
    if (committed[index] == 0) {
      SAME(status, NIGBARU_NONE);
      continue;
    }
    SAME(status, NIGBARU_VALUE);
    SAME(length, wanted_length);
    SAME(memcmp(value, wanted, length), 0);
  }
  SAME(xa->xa_recover_entry(NULL, 0, RM, TMSTARTRSCAN | TMENDRSCAN), 0);
  SAME(xa->xa_close_entry(racing_info, RM, TMNOFLAGS), XA_OK);
  SAME(nigbaru_xa_drop("race"), XA_OK);
}

int main(void) {
  flags();
  identifiers();
  strings();
  sessions();
  cells();
  threads_that_end();
  two_that_finish();
  recovery();
  long_list();
  rows();
  races();
  return 0;
}
