/* The table of docs/STATEMENTS.md#replies, cell by cell: what a session that is free, has an ACTIVE or an IDLE branch
   is answered. */
#include "nigbaru.h"

#include "check.h"

static nigbaru_store store;
static nigbaru_session sessions[5];

/* Asks, and wants a status and, of a refusal, its number. */
static nigbaru_answer ask(int session, const char *text, uint32_t status, uint32_t error) {
  nigbaru_answer answer;
  uint32_t got = nigbaru_run(&sessions[session], text, strlen(text), &answer, NULL, 0, 0);
  if (got != status || (status == NIGBARU_REFUSED && answer.error != error) ||
      (status != NIGBARU_REFUSED && status < 5 && answer.error != 0)) {
    fprintf(stderr, "%d %s: %s (%u), and not %s (%u)\n", session, text, nigbaru_text(got), answer.error,
            nigbaru_text(status), error);
    exit(1);
  }
  return answer;
}

static void ok(int session, const char *text) { ask(session, text, NIGBARU_OK, 0); }
static void refused(int session, const char *text, uint32_t error) { ask(session, text, NIGBARU_REFUSED, error); }

static void value(int session, const char *text, const char *wanted) {
  nigbaru_answer answer = ask(session, text, NIGBARU_VALUE, 0);
  SAME(answer.length, strlen(wanted));
  SAME(memcmp(answer.value, wanted, strlen(wanted)), 0);
}

/* Session 4 has a branch 'other' ACTIVE, which holds the row 'held' and shares 'shared'; 'ready' is PREPARED and holds
   'kept'. */
static void begin(void) {
  const nigbaru_store closed = NIGBARU_EMPTY;
  const nigbaru_session left = NIGBARU_EMPTY;
  store = closed;
  SAME(nigbaru_open(1024, 4, &store), NIGBARU_OK);
  for (uint64_t number = 1; number <= 4; number++) {
    sessions[number] = left;
    SAME(nigbaru_take(&store, number, &sessions[number]), NIGBARU_OK);
  }
  ok(4, "PUT 'held','0'");
  ok(4, "PUT 'shared','1'");
  ok(4, "PUT 'kept','2'");
  ok(3, "XA START 'ready'");
  ok(3, "PUT 'kept','3'");
  ok(3, "XA END 'ready'");
  ok(3, "XA PREPARE 'ready'");
  ok(4, "XA START 'other'");
  ok(4, "PUT 'held','4'");
  value(4, "GET 'shared'", "1");
}

static void end(void) {
  for (int number = 1; number <= 4; number++)
    SAME(nigbaru_leave(&sessions[number]), NIGBARU_OK);
  SAME(nigbaru_close(&store), NIGBARU_OK);
}

/* Statements whose answer is the same in each state. */
static void always(int session) {
  static const char *const unsupported[] = {"XA START 'x' JOIN", "XA START 'x' RESUME", "XA END 'x' SUSPEND",
                                            "XA END 'x' SUSPEND FOR MIGRATE"};
  for (size_t index = 0; index < sizeof unsupported / sizeof *unsupported; index++)
    refused(session, unsupported[index], 1398);
  nigbaru_xid xid;
  nigbaru_answer answer;
  SAME(nigbaru_run(&sessions[session], "XA RECOVER", 10, &answer, &xid, 1, 0), NIGBARU_LIST);
  SAME(answer.count, 1);
  SAME(xid.formatID, 1);
  SAME(xid.gtrid_length, 5);
  SAME(xid.bqual_length, 0);
  SAME(memcmp(xid.data, "ready", 5), 0);
  SAME(ask(session, "XA RECOVER", NIGBARU_LIST, 0).count, 1);
}

static void free_session(void) {
  refused(1, "XA START 'ready'", 1440);
  refused(1, "XA START 'other'", 1440);
  refused(1, "XA END 'a'", 1399);
  refused(1, "XA PREPARE 'a'", 1399);
  refused(1, "XA COMMIT 'a'", 1397);
  refused(1, "XA COMMIT 'other'", 1397);
  refused(1, "XA COMMIT 'a' ONE PHASE", 1397);
  refused(1, "XA COMMIT 'ready' ONE PHASE", 1399);
  refused(1, "XA ROLLBACK 'a'", 1397);
  refused(1, "XA ROLLBACK 'other'", 1397);
  always(1);
  value(1, "GET 'held'", "0");
  value(1, "GET 'kept'", "2");
  ask(1, "GET 'absent'", NIGBARU_NONE, 0);
  refused(1, "PUT 'held','x'", 3572);
  refused(1, "DEL 'shared'", 3572);
  ok(1, "PUT 'own',''");
  value(1, "GET 'own'", "");
  ok(1, "DEL 'own'");
  ask(1, "GET 'own'", NIGBARU_NONE, 0);
  ok(1, "DISCONNECT");
  ok(1, "XA START 'a'");
}

static void active(void) {
  refused(1, "XA START 'b'", 1399);
  refused(1, "XA END 'b'", 1397);
  refused(1, "XA PREPARE 'a'", 1399);
  refused(1, "XA COMMIT 'a'", 1399);
  refused(1, "XA COMMIT 'ready'", 1399);
  refused(1, "XA COMMIT 'a' ONE PHASE", 1399);
  refused(1, "XA ROLLBACK 'a'", 1399);
  always(1);
  refused(1, "GET 'held'", 3572);
  refused(1, "GET 'kept'", 3572);
  value(1, "GET 'shared'", "1");
  refused(1, "PUT 'shared','x'", 3572);
  refused(1, "DEL 'held'", 3572);
  ok(1, "PUT 'own','5'");
  value(1, "GET 'own'", "5");
  ask(2, "GET 'own'", NIGBARU_NONE, 0);
  ok(1, "DEL 'own'");
  ask(1, "GET 'own'", NIGBARU_NONE, 0);
  ok(1, "PUT 'own','6'");
  ok(1, "XA END 'a'");
}

static void idle(void) {
  refused(1, "XA START 'b'", 1399);
  refused(1, "XA END 'a'", 1399);
  refused(1, "XA PREPARE 'b'", 1397);
  refused(1, "XA COMMIT 'a'", 1399);
  refused(1, "XA COMMIT 'ready' ONE PHASE", 1399);
  refused(1, "XA ROLLBACK 'ready'", 1399);
  always(1);
  refused(1, "GET 'own'", 1399);
  refused(1, "PUT 'own','7'", 1399);
  refused(1, "DEL 'own'", 1399);
}

/* Each way in which a branch ends. */
static void endings(void) {
  ok(1, "XA COMMIT 'a' ONE PHASE");
  value(1, "GET 'own'", "6");
  ok(1, "XA START 'a'");
  ok(1, "PUT 'own','8'");
  ok(1, "XA END 'a'");
  ok(1, "XA ROLLBACK 'a'");
  value(1, "GET 'own'", "6");
  ok(1, "XA START 'a'");
  ok(1, "PUT 'own','9'");
  ok(1, "DISCONNECT");
  value(1, "GET 'own'", "6");
  ok(1, "XA START 'a'");
  ok(1, "PUT 'own','10'");
  ok(1, "XA END 'a'");
  ok(1, "DISCONNECT");
  value(1, "GET 'own'", "6");
  ok(1, "XA COMMIT 'ready'");
  value(1, "GET 'kept'", "3");
  ok(1, "XA START 'a'");
  ok(1, "PUT 'own','11'");
  ok(1, "XA END 'a'");
  ok(1, "XA PREPARE 'a'");
  ok(2, "XA ROLLBACK 'a'");
  value(1, "GET 'own'", "6");
}

int main(void) {
  begin();
  free_session();
  active();
  idle();
  endings();
  end();
  return 0;
}
