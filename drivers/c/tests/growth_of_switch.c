/* As growth.c, for the switch: a call without memory returns XAER_RMERR, a commit XA_RETRY, the end of a branch in one
   phase or by rollback XAER_RMFAIL, and given again it goes through. */
#include "nigbaru.h"
#include "nigbaru_xa.h"

#include "check.h"

#include <pthread.h>

#define RM 1

static int refusals;
static struct xa_switch_t *const xa = &nigbaru_xa_switch;
static char info[] = "store=growth,rows=3,sessions=2";

#define AGAIN(call, without_memory, wanted) \
  do { \
    int status_ = (call); \
    if (status_ == (without_memory)) { \
      refusals++; \
      status_ = (call); \
    } \
    SAME(status_, wanted); \
  } while (0)

static void start(XID *xid) { AGAIN(xa->xa_start_entry(xid, RM, TMNOFLAGS), XAER_RMERR, XA_OK); }
static void end(XID *xid) { AGAIN(xa->xa_end_entry(xid, RM, TMSUCCESS), XAER_RMERR, XA_OK); }
static void prepare(XID *xid) { AGAIN(xa->xa_prepare_entry(xid, RM, TMNOFLAGS), XAER_RMERR, XA_OK); }
static void put(const char *value) { AGAIN(nigbaru_xa_put(RM, "k", 1, value, 1), NIGBARU_NO_MEMORY, NIGBARU_OK); }

static void holds(char wanted) {
  unsigned char value[64];
  size_t length;
  AGAIN(nigbaru_xa_get(RM, "k", 1, value, &length), NIGBARU_NO_MEMORY, NIGBARU_VALUE);
  SAME(length, 1);
  SAME(value[0], wanted);
}

/* A thread that ends in an active branch, which is rolled back: then, or when its session is used next. */
static void *ends_active(void *xid) {
  AGAIN(xa->xa_open_entry(info, RM, TMNOFLAGS), XAER_RMERR, XA_OK);
  start(xid);
  put("4");
  return NULL;
}

static void in_a_thread(void) {
  pthread_t thread;
  XID a = {.formatID = 0, .gtrid_length = 1, .bqual_length = 1, .data = "ab"};
  int failed;
  while ((failed = pthread_create(&thread, NULL, ends_active, &a)) != 0)
    CHECK(++refusals == 1);
  SAME(pthread_join(thread, NULL), 0);
}

int main(void) {
  XID a = {.formatID = 0, .gtrid_length = 1, .bqual_length = 1, .data = "ab"},
      b = {.formatID = 0, .gtrid_length = 1, .bqual_length = 1, .data = "bb"}, listed[3];
  AGAIN(xa->xa_open_entry(info, RM, TMNOFLAGS), XAER_RMERR, XA_OK);
  start(&a);
  put("1");
  end(&a);
  prepare(&a);
  start(&b);
  AGAIN(nigbaru_xa_delete(RM, "l", 1), NIGBARU_NO_MEMORY, NIGBARU_OK);
  end(&b);
  prepare(&b);
  AGAIN(xa->xa_prepare_entry(&b, RM, TMNOFLAGS), XAER_RMERR, XAER_PROTO);
  AGAIN(xa->xa_commit_entry(&b, RM, TMONEPHASE), XAER_RMFAIL, XAER_PROTO);
  AGAIN(xa->xa_recover_entry(listed, 3, RM, TMSTARTRSCAN), XAER_RMERR, 2);
  AGAIN(xa->xa_commit_entry(&a, RM, TMNOFLAGS), XA_RETRY, XA_OK);
  AGAIN(xa->xa_rollback_entry(&b, RM, TMNOFLAGS), XAER_RMFAIL, XA_OK);
  holds('1');
  start(&a);
  put("2");
  end(&a);
  AGAIN(xa->xa_commit_entry(&a, RM, TMONEPHASE), XAER_RMFAIL, XA_OK);
  holds('2');
  start(&b);
  put("3");
  end(&b);
  SAME(xa->xa_close_entry(info, RM, TMNOFLAGS), XA_OK);
  AGAIN(xa->xa_open_entry(info, RM, TMNOFLAGS), XAER_RMERR, XA_OK);
  SAME(xa->xa_commit_entry(&b, RM, TMNOFLAGS), XAER_PROTO);
  AGAIN(xa->xa_rollback_entry(&b, RM, TMNOFLAGS), XAER_RMFAIL, XA_OK);
  AGAIN(xa->xa_commit_entry(&b, RM, TMNOFLAGS), XA_RETRY, XAER_NOTA);
  holds('2');
  in_a_thread();
  AGAIN(xa->xa_commit_entry(&a, RM, TMNOFLAGS), XA_RETRY, XAER_NOTA);
  start(&a);
  end(&a);
  prepare(&a);
  AGAIN(xa->xa_rollback_entry(&a, RM, TMNOFLAGS), XAER_RMFAIL, XA_OK);
  holds('2');
  SAME(xa->xa_close_entry(info, RM, TMNOFLAGS), XA_OK);
  SAME(nigbaru_xa_drop("growth"), XA_OK);
  CHECK(refusals <= 1);
  return 0;
}
