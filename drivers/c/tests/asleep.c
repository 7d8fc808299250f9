/* A session that sleeps for 200 rounds of the ring, with a branch open, one prepared by it before, and one idle in
   another session: all stands when it wakes: asleep [ROUNDS] */
#include "nigbaru.h"

#include "check.h"

#define ROWS 256

static nigbaru_store store = NIGBARU_EMPTY;
static nigbaru_session sessions[5] = {NIGBARU_EMPTY, NIGBARU_EMPTY, NIGBARU_EMPTY, NIGBARU_EMPTY, NIGBARU_EMPTY};
static nigbaru_answer answer;

static void ask(int session, const char *text, uint32_t wanted) {
  uint32_t status = nigbaru_run(&sessions[session], text, strlen(text), &answer, NULL, 0, 0);
  if (status != wanted) {
    fprintf(stderr, "%d %s: %s (%u)\n", session, text, nigbaru_text(status), answer.error);
    exit(1);
  }
}

static void refused(int session, const char *text, uint32_t error) {
  ask(session, text, NIGBARU_REFUSED);
  SAME(answer.error, error);
}

static void value(int session, const char *text, const char *wanted) {
  ask(session, text, NIGBARU_VALUE);
  SAME(answer.length, strlen(wanted));
  SAME(memcmp(answer.value, wanted, strlen(wanted)), 0);
}

static void open_all(void) {
  SAME(nigbaru_open(ROWS, 4, &store), NIGBARU_OK);
  for (uint64_t number = 1; number <= 4; number++)
    SAME(nigbaru_take(&store, number, &sessions[number]), NIGBARU_OK);
}

/* Session 1 prepares a branch and opens another; session 2's is idle. Then both sleep. */
static void fall_asleep(void) {
  ask(1, "PUT 'first','0'", NIGBARU_OK);
  ask(1, "XA START 'prepared'", NIGBARU_OK);
  ask(1, "PUT 'p','new'", NIGBARU_OK);
  ask(1, "DEL 'first'", NIGBARU_OK);
  ask(1, "XA END 'prepared'", NIGBARU_OK);
  ask(1, "XA PREPARE 'prepared'", NIGBARU_OK);
  ask(1, "XA START 'open'", NIGBARU_OK);
  ask(1, "PUT 'o','mine'", NIGBARU_OK);
  ask(1, "GET 'shared'", NIGBARU_NONE);
  ask(2, "XA START 'idle'", NIGBARU_OK);
  ask(2, "PUT 'i','theirs'", NIGBARU_OK);
  ask(2, "XA END 'idle'", NIGBARU_OK);
  SAME(nigbaru_leave(&sessions[2]), NIGBARU_OK);
}

/* The others add rounds of the ring, and meet the sleepers' locks all the time. Each row has what was written last. */
static void go_round(long rounds) {
  char text[64];
  for (long turn = 0; turn < rounds * ROWS; turn++) {
    int session = 3 + (int)(turn % 2);
    snprintf(text, sizeof text, "PUT 'row%ld','%ld'", turn % 97, turn);
    ask(session, text, NIGBARU_OK);
    if (turn % ROWS != 0)
      continue;
    refused(session, "PUT 'p','x'", 3572);
    refused(session, "PUT 'first','x'", 3572);
    refused(session, "PUT 'o','x'", 3572);
    refused(session, "PUT 'shared','x'", 3572);
    refused(session, "DEL 'i'", 3572);
    value(session, "GET 'first'", "0");
    ask(session, "GET 'o'", NIGBARU_NONE);
  }
}

static void rows_are(int session, long rounds) {
  char text[64], wanted[32];
  for (long row = 0; row < 97; row++) {
    long last = rounds * ROWS - 1;
    snprintf(text, sizeof text, "GET 'row%ld'", row);
    snprintf(wanted, sizeof wanted, "%ld", last - (last - row) % 97);
    value(session, text, wanted);
  }
}

/* How many entries session 1 hands out or has lost: each of the history. */
static void follow(void) {
  nigbaru_entry entry;
  uint64_t count = 0;
  uint32_t status;
  while ((status = nigbaru_follow(&sessions[1], &entry)) != NIGBARU_NONE)
    count += status == NIGBARU_OK ? 1 : entry.lost;
  ask(3, "GET 'none'", NIGBARU_NONE);
  SAME(count, answer.place);
}

static void wake(long rounds) {
  nigbaru_xid xids[2];
  value(1, "GET 'o'", "mine");
  ask(1, "GET 'shared'", NIGBARU_NONE);
  refused(1, "XA START 'other'", 1399);
  SAME(nigbaru_run(&sessions[1], "XA RECOVER", 10, &answer, xids, 2, 0), NIGBARU_LIST);
  SAME(answer.count, 1);
  SAME(memcmp(xids[0].data, "prepared", 8), 0);
  SAME(nigbaru_take(&store, 2, &sessions[2]), NIGBARU_OK);
  ask(2, "XA COMMIT 'idle' ONE PHASE", NIGBARU_OK);
  value(1, "GET 'o'", "mine");
  ask(1, "XA END 'open'", NIGBARU_OK);
  ask(1, "XA PREPARE 'open'", NIGBARU_OK);
  ask(2, "XA COMMIT 'open'", NIGBARU_OK);
  ask(1, "XA COMMIT 'prepared'", NIGBARU_OK);
  for (int session = 1; session <= 4; session++) {
    value(session, "GET 'p'", "new");
    value(session, "GET 'o'", "mine");
    value(session, "GET 'i'", "theirs");
    ask(session, "GET 'first'", NIGBARU_NONE);
    rows_are(session, rounds);
  }
}

int main(int count, char **words) {
  long rounds = count > 1 ? atol(words[1]) : 200;
  open_all();
  fall_asleep();
  go_round(rounds);
  follow();
  wake(rounds);
  for (int number = 1; number <= 4; number++)
    SAME(nigbaru_leave(&sessions[number]), NIGBARU_OK);
  SAME(nigbaru_close(&store), NIGBARU_OK);
  return 0;
}
