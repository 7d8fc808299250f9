/* Two threads on one session: a call that comes while another has the session does nothing but say so, and the others
   are answered. */
#include "nigbaru.h"

#include "check.h"

#include <pthread.h>

#define CALLS 400

static nigbaru_store store = NIGBARU_EMPTY;
static nigbaru_session session = NIGBARU_EMPTY;

static void *calls(void *answered) {
  for (int turn = 0; turn < CALLS; turn++) {
    nigbaru_answer answer;
    uint32_t status = nigbaru_attempt(&session, "PUT 'k','v'", 11, &answer, NULL, 0);
    CHECK(status == NIGBARU_OK || status == NIGBARU_BUSY);
    *(int *)answered += status == NIGBARU_OK;
  }
  return NULL;
}

/* While a call has a handle: nothing is done. */
static void held(void) {
  nigbaru_session other = NIGBARU_EMPTY;
  nigbaru_answer answer;
  nigbaru_entry entry;
  CHECK(nigbaru_enter_(&session.busy));
  SAME(nigbaru_attempt(&session, "PUT 'k','v'", 11, &answer, NULL, 0), NIGBARU_BUSY);
  SAME(nigbaru_run(&session, "PUT 'k','v'", 11, &answer, NULL, 0, 0), NIGBARU_BUSY);
  SAME(nigbaru_leave(&session), NIGBARU_BUSY);
  SAME(nigbaru_follow(&session, &entry), NIGBARU_BUSY);
  SAME(nigbaru_take(&store, 2, &session), NIGBARU_BUSY);
  nigbaru_exit_(&session.busy);
  CHECK(nigbaru_enter_(&store.busy));
  SAME(nigbaru_take(&store, 2, &other), NIGBARU_BUSY);
  SAME(nigbaru_open(1, 1, &store), NIGBARU_BUSY);
  SAME(nigbaru_close(&store), NIGBARU_BUSY);
  nigbaru_exit_(&store.busy);
  SAME(nigbaru_take(&store, 2, &other), NIGBARU_OK);
  SAME(nigbaru_leave(&other), NIGBARU_OK);
}

int main(void) {
  SAME(nigbaru_open(1024, 2, &store), NIGBARU_OK);
  SAME(nigbaru_take(&store, 1, &session), NIGBARU_OK);
  held();
  pthread_t threads[2];
  int answered[2] = {0, 0};
  for (int index = 0; index < 2; index++)
    SAME(pthread_create(&threads[index], NULL, calls, &answered[index]), 0);
  for (int index = 0; index < 2; index++)
    SAME(pthread_join(threads[index], NULL), 0);
  nigbaru_answer answer;
  SAME(nigbaru_attempt(&session, "GET 'k'", 7, &answer, NULL, 0), NIGBARU_VALUE);
  SAME(answer.place, answered[0] + answered[1]);
  CHECK(answer.place > 0);
  SAME(nigbaru_leave(&session), NIGBARU_OK);
  SAME(nigbaru_close(&store), NIGBARU_OK);
  return 0;
}
