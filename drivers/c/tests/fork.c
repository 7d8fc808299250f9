/* A process of one thread forks: each goes on with a copy of its own, and neither sees what the other does. */
#include "nigbaru.h"

#include "check.h"

#include <sys/wait.h>
#include <unistd.h>

static nigbaru_store store = NIGBARU_EMPTY;
static nigbaru_session session = NIGBARU_EMPTY;

static void ok(const char *text) {
  nigbaru_answer answer;
  SAME(nigbaru_attempt(&session, text, strlen(text), &answer, NULL, 0), NIGBARU_OK);
}

static void value(char wanted) {
  nigbaru_answer answer;
  SAME(nigbaru_attempt(&session, "GET 'k'", 7, &answer, NULL, 0), NIGBARU_VALUE);
  SAME(answer.length, 1);
  SAME(answer.value[0], wanted);
}

static void end(void) {
  SAME(nigbaru_leave(&session), NIGBARU_OK);
  SAME(nigbaru_close(&store), NIGBARU_OK);
}

int main(void) {
  SAME(nigbaru_open(16, 1, &store), NIGBARU_OK);
  SAME(nigbaru_take(&store, 1, &session), NIGBARU_OK);
  ok("PUT 'k','1'");
  ok("XA START 'a'");
  ok("PUT 'k','2'");
  pid_t child = fork();
  CHECK(child >= 0);
  value('2');
  ok("XA END 'a'");
  if (child == 0) {
    ok("XA ROLLBACK 'a'");
    value('1');
    ok("PUT 'k','3'");
    value('3');
    end();
    _exit(0);
  }
  int status;
  SAME(waitpid(child, &status, 0), child);
  SAME(status, 0);
  ok("XA COMMIT 'a' ONE PHASE");
  value('2');
  end();
  return 0;
}
