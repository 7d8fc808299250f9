/* Run again and again with another growth of memory refused (scripts/refuse_growth.c): at most one call says so, the
   same call then goes through, and nothing is lost: no row, no branch, no session. The ring goes round many times, so
   that a session that is behind goes on from a checkpoint, and checkpoints follow. */
#include "nigbaru_shared.h"

#include "check.h"

static int refusals;

/* A call that is given again where there was no memory; a second refusal is one too many. */
#define AGAIN(status, call) \
  do { \
    if ((status = (call)) == NIGBARU_NO_MEMORY) { \
      refusals++; \
      status = (call); \
    } \
  } while (0)

static nigbaru_store store = NIGBARU_EMPTY;
static nigbaru_session sessions[3] = {NIGBARU_EMPTY, NIGBARU_EMPTY, NIGBARU_EMPTY};
static nigbaru_answer answer;
static uint32_t status;

static void ask(int session, const char *text, uint32_t wanted) {
  AGAIN(status, nigbaru_run(&sessions[session], text, strlen(text), &answer, NULL, 0, 0));
  if (status != wanted) {
    fprintf(stderr, "%d %s: %s\n", session, text, nigbaru_text(status));
    exit(1);
  }
}

static void take_both(void) {
  for (uint64_t number = 1; number <= 2; number++) {
    AGAIN(status, nigbaru_take(&store, number, &sessions[number]));
    SAME(status, NIGBARU_OK);
  }
}

/* Session 1 adds so many entries that session 2 is behind, and has to be helped. */
static void go_round(int turns) {
  for (int turn = 0; turn < turns; turn++) {
    char text[40];
    sprintf(text, "PUT 'row%d','%d'", turn % 7, turn);
    ask(1, text, NIGBARU_OK);
  }
}

/* What session 2 hands out of the history: each entry once, or counted. */
static void follow(void) {
  nigbaru_entry entry;
  uint64_t handed = 0;
  while ((status = nigbaru_follow(&sessions[2], &entry)) != NIGBARU_NONE) {
    CHECK(status == NIGBARU_OK || status == NIGBARU_BEHIND);
    handed += status == NIGBARU_OK ? 1 : entry.lost;
  }
  SAME(handed, answer.place);
}

/* A seat whose DISCONNECT is refused is still taken, and given back by the same call. */
static void seats(void) {
  static const char *const texts[] = {"XA START 'c'", "PUT 'k','lost'", "GET 'l'"};
  nigbaru_shared *shared;
  nigbaru_seat seat;
  AGAIN(status, nigbaru_shared_open(8, 2, &shared));
  SAME(status, NIGBARU_OK);
  SAME(nigbaru_seat_take(shared, 0, &seat), NIGBARU_OK);
  for (int index = 0; index < 3; index++) {
    AGAIN(status, nigbaru_seat_run(&seat, texts[index], strlen(texts[index]), &answer, NULL, 0));
    SAME(status, index == 2 ? NIGBARU_NONE : NIGBARU_OK);
  }
  AGAIN(status, nigbaru_seat_leave(&seat));
  SAME(status, NIGBARU_OK);
  SAME(nigbaru_seat_leave(&seat), NIGBARU_NO_HANDLE);
  SAME(nigbaru_seat_take(shared, 2, &seat), NIGBARU_OK);
  AGAIN(status, nigbaru_seat_run(&seat, "GET 'k'", 7, &answer, NULL, 0));
  SAME(status, NIGBARU_NONE);
  AGAIN(status, nigbaru_seat_leave(&seat));
  SAME(status, NIGBARU_OK);
  SAME(nigbaru_shared_close(shared), NIGBARU_OK);
}

int main(void) {
  nigbaru_xid xids[2];
  AGAIN(status, nigbaru_open(8, 2, &store));
  SAME(status, NIGBARU_OK);
  take_both();
  ask(1, "XA START 'a'", NIGBARU_OK);
  ask(1, "PUT 'k','5'", NIGBARU_OK);
  ask(1, "GET 'l'", NIGBARU_NONE);
  ask(2, "XA START 'b'", NIGBARU_OK);
  ask(2, "DEL 'm'", NIGBARU_OK);
  ask(1, "XA END 'a'", NIGBARU_OK);
  ask(1, "XA PREPARE 'a'", NIGBARU_OK);
  ask(2, "PUT 'm','6'", NIGBARU_OK);
  go_round(60);
  ask(2, "XA END 'b'", NIGBARU_OK);
  go_round(30);
  SAME(nigbaru_leave(&sessions[2]), NIGBARU_OK);
  AGAIN(status, nigbaru_take(&store, 2, &sessions[2]));
  SAME(status, NIGBARU_OK);
  ask(1, "PUT 'n','7'", NIGBARU_OK);
  AGAIN(status, nigbaru_run(&sessions[2], "XA RECOVER", 10, &answer, xids, 2, 0));
  SAME(status, NIGBARU_LIST);
  SAME(answer.count, 1);
  SAME(xids[0].data[0], 'a');
  follow();
  ask(1, "XA COMMIT 'a'", NIGBARU_OK);
  ask(2, "XA COMMIT 'b' ONE PHASE", NIGBARU_OK);
  static const char *const gets[] = {"GET 'k'", "GET 'm'", "GET 'n'"};
  for (int index = 0; index < 3; index++) {
    ask(1 + index % 2, gets[index], NIGBARU_VALUE);
    SAME(answer.length, 1);
    SAME(answer.value[0], '5' + index);
  }
  ask(1, "GET 'l'", NIGBARU_NONE);
  ask(2, "GET 'row6'", NIGBARU_VALUE);
  SAME(memcmp(answer.value, "27", 2), 0);
  for (int number = 1; number <= 2; number++)
    SAME(nigbaru_leave(&sessions[number]), NIGBARU_OK);
  SAME(nigbaru_close(&store), NIGBARU_OK);
  seats();
  CHECK(refusals <= 1);
  return 0;
}
