/* A transaction monitor of a few lines, which knows nothing but an xa_switch_t and the rows: threads of control move
   one from an account in one store to one in another, in two phases, and some stop between the votes or between the
   commits. Recovery commits what was decided and rolls the rest back, also what is idle, and then nothing is lost and
   nothing made. */
#include "nigbaru.h"
#include "nigbaru_xa.h"

#include "check.h"

#include <pthread.h>

#define THREADS 4
#define TRANSFERS 40
#define ACCOUNTS 5
#define AT_FIRST 1000

enum stop { NEVER, AFTER_ONE_VOTE, AFTER_VOTES, AFTER_DECISION, AFTER_ONE_COMMIT, STOPS };

static struct xa_switch_t *const xa = &nigbaru_xa_switch;
static char *const infos[] = {NULL, (char[]){"store=north,rows=32,sessions=8"},
                              (char[]){"store=south,rows=9,sessions=8"}};
static pthread_mutex_t mutex = PTHREAD_MUTEX_INITIALIZER;
static char decided[THREADS * TRANSFERS];
static int counts[STOPS], ended;

static XID xid_of(int transfer, int rmid) {
  XID xid = {.formatID = 5, .bqual_length = 1};
  xid.gtrid_length = sprintf(xid.data, "%d", transfer);
  xid.data[xid.gtrid_length] = (char)('0' + rmid);
  return xid;
}

static void open_both(void) {
  for (int rmid = 1; rmid <= 2; rmid++)
    SAME(xa->xa_open_entry(infos[rmid], rmid, TMNOFLAGS), XA_OK);
}

static void close_both(void) {
  for (int rmid = 1; rmid <= 2; rmid++)
    SAME(xa->xa_close_entry(infos[rmid], rmid, TMNOFLAGS), XA_OK);
}

/* The number in an account. Whether it could be read. */
static int balance(int rmid, int account, long *number) {
  unsigned char value[65];
  size_t length;
  char key = (char)('a' + account);
  int status = nigbaru_xa_get(rmid, &key, 1, value, &length);
  CHECK(status == NIGBARU_VALUE || status == 3572);
  if (status != NIGBARU_VALUE)
    return 0;
  value[length] = 0;
  *number = atol((const char *)value);
  return 1;
}

static int set_balance(int rmid, int account, long number) {
  char text[24], key = (char)('a' + account);
  int length = sprintf(text, "%ld", number), status = nigbaru_xa_put(rmid, &key, 1, text, (size_t)length);
  CHECK(status == NIGBARU_OK || status == 3572);
  return status == NIGBARU_OK;
}

static int add(int rmid, int account, long more) {
  long number;
  return balance(rmid, account, &number) && set_balance(rmid, account, number + more);
}

static void decide(int transfer) {
  pthread_mutex_lock(&mutex);
  decided[transfer] = 1;
  pthread_mutex_unlock(&mutex);
}

/* The second phase, and the first; whether it came to its end. */
static int two_phases(XID *xids, int transfer, enum stop stop) {
  SAME(xa->xa_prepare_entry(&xids[1], 1, TMNOFLAGS), XA_OK);
  if (stop == AFTER_ONE_VOTE)
    return 0;
  SAME(xa->xa_prepare_entry(&xids[2], 2, TMNOFLAGS), XA_OK);
  if (stop == AFTER_VOTES)
    return 0;
  decide(transfer);
  if (stop == AFTER_DECISION)
    return 0;
  SAME(xa->xa_commit_entry(&xids[1], 1, TMNOFLAGS), XA_OK);
  if (stop == AFTER_ONE_COMMIT)
    return 0;
  SAME(xa->xa_commit_entry(&xids[2], 2, TMNOFLAGS), XA_OK);
  return 1;
}

/* A transfer by a thread of control of its own. Where a row is locked it is rolled back. */
static void *move(void *which) {
  int transfer = *(int *)which;
  enum stop stop = transfer % 10 < STOPS ? (enum stop)(transfer % 10) : NEVER;
  XID xids[3];
  open_both();
  for (int rmid = 1; rmid <= 2; rmid++) {
    xids[rmid] = xid_of(transfer, rmid);
    SAME(xa->xa_start_entry(&xids[rmid], rmid, TMNOFLAGS), XA_OK);
  }
  int worked = add(1, transfer % ACCOUNTS, -1) && add(2, transfer % 3, 1);
  for (int rmid = 1; rmid <= 2; rmid++)
    SAME(xa->xa_end_entry(&xids[rmid], rmid, worked ? TMSUCCESS : TMFAIL), XA_OK);
  if (!worked)
    for (int rmid = 1; rmid <= 2; rmid++)
      SAME(xa->xa_rollback_entry(&xids[rmid], rmid, TMNOFLAGS), XA_OK);
  else if (!two_phases(xids, transfer, stop)) {
    pthread_mutex_lock(&mutex);
    counts[stop]++;
    pthread_mutex_unlock(&mutex);
    return NULL;
  }
  close_both();
  return NULL;
}

/* Finishes what is in doubt, by what was decided. */
static void recover(void) {
  XID xids[4];
  for (int rmid = 1; rmid <= 2; rmid++) {
    long flags = TMSTARTRSCAN;
    int got;
    do {
      got = xa->xa_recover_entry(xids, 4, rmid, flags);
      flags = TMNOFLAGS;
      for (int index = 0; index < got; index++) {
        char number[MAXGTRIDSIZE + 1] = "";
        memcpy(number, xids[index].data, (size_t)xids[index].gtrid_length);
        int is_decided = decided[atoi(number)];
        SAME(is_decided ? xa->xa_commit_entry(&xids[index], rmid, TMNOFLAGS)
                        : xa->xa_rollback_entry(&xids[index], rmid, TMNOFLAGS),
             XA_OK);
      }
    } while (got == 4);
    CHECK(got >= 0);
  }
}

/* Rolls back what a thread left idle that stopped after its first vote: no list has it, so the monitor has to know of
   it. */
static int end_idle(int transfer) {
  XID xid = xid_of(transfer, 2);
  int code = decided[transfer] ? XAER_NOTA : xa->xa_rollback_entry(&xid, 2, TMNOFLAGS);
  CHECK(code == XA_OK || code == XAER_NOTA);
  return code == XA_OK;
}

static long sum(int rmid) {
  long all = 0;
  for (int account = 0; account < ACCOUNTS; account++) {
    long number;
    CHECK(balance(rmid, account, &number));
    all += number;
  }
  return all;
}

/* One round of transfers, side by side; then what is in doubt is finished, so that its rows are free. */
static void round_of(int first) {
  pthread_t threads[THREADS];
  int transfers[THREADS];
  for (int index = 0; index < THREADS; index++) {
    transfers[index] = first + index;
    SAME(pthread_create(&threads[index], NULL, move, &transfers[index]), 0);
  }
  for (int index = 0; index < THREADS; index++)
    SAME(pthread_join(threads[index], NULL), 0);
  recover();
  for (int index = 0; index < THREADS; index++)
    ended += end_idle(transfers[index]);
}

int main(void) {
  long moved = 0;
  open_both();
  for (int rmid = 1; rmid <= 2; rmid++)
    for (int account = 0; account < ACCOUNTS; account++)
      CHECK(set_balance(rmid, account, AT_FIRST));
  for (int first = 0; first < THREADS * TRANSFERS; first += THREADS)
    round_of(first);
  for (int transfer = 0; transfer < THREADS * TRANSFERS; transfer++)
    moved += decided[transfer];
  SAME(sum(1), ACCOUNTS * AT_FIRST - moved);
  SAME(sum(2), ACCOUNTS * AT_FIRST + moved);
  for (int stop = AFTER_ONE_VOTE; stop < STOPS; stop++)
    CHECK(counts[stop] > 0);
  SAME(ended, counts[AFTER_ONE_VOTE]);
  close_both();
  SAME(nigbaru_xa_drop("north"), XA_OK);
  SAME(nigbaru_xa_drop("south"), XA_OK);
  printf("%ld moved\n", moved);
  return 0;
}
