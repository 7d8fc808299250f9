/* Statements by values: their answers, lists and history are those of the statements' texts; arguments out of their
   ranges, null pointers, empty handles, handles that another call has, and threads that try once or without a limit. */
#include "nigbaru.h"

#include "check.h"

#include <limits.h>
#include <pthread.h>

#define SESSIONS 3
#define STEPS 20000
#define TURNS 2000
#define XIDS 5
#define TEXTS 4 /* keys; values, and one that is empty */
#define ROOM 3  /* fewer than there are identifiers */

enum verb { START, END, PREPARE, COMMIT, ONE_PHASE, ROLLBACK, RECOVER, GET, PUT, DEL, DISCONNECT, VERBS };

static const char *const before[VERBS] = {"XA START ", "XA END ", "XA PREPARE ", "XA COMMIT ", "XA COMMIT ",
                                          "XA ROLLBACK ", "XA RECOVER", "GET ", "PUT ", "DEL ", "DISCONNECT"};

struct bytes { size_t length; unsigned char data[65]; };

static nigbaru_xid ids[XIDS];
static struct bytes keys[TEXTS], values[TEXTS];

static struct bytes run_of(unsigned char first, size_t length) {
  struct bytes run = {length, {0}};
  for (size_t index = 0; index < length; index++)
    run.data[index] = (unsigned char)(first + index);
  return run;
}

/* The shortest and the longest of each, all values of bytes, and two identifiers that only the lengths tell apart. */
static void fill(void) {
  static const nigbaru_xid first[XIDS] = {
      {1, 1, 2, "abc"}, {1, 2, 1, "abc"}, {0, 0, 0, ""}, {LONG_MAX, 64, 64, ""}, {7, 64, 0, ""}};
  memcpy(ids, first, sizeof ids);
  for (int index = 0; index < 128; index++) {
    ids[3].data[index] = (char)(128 + index);
    ids[4].data[index] = (char)index;
  }
  keys[0] = run_of('k', 1), keys[1] = run_of(0, 1), keys[2] = run_of(0, 64), keys[3] = run_of(192, 64);
  values[0] = run_of(0, 0), values[1] = run_of('v', 1), values[2] = run_of(64, 64), values[3] = run_of(128, 64);
}

struct said { enum verb verb; int xid, key, value; };

static int spell_bytes(char *text, const void *data, size_t length) {
  int at = sprintf(text, "X'");
  for (size_t index = 0; index < length; index++)
    at += sprintf(text + at, "%02x", ((const unsigned char *)data)[index]);
  return at + sprintf(text + at, "'");
}

/* The text of a statement. */
static size_t spell(char *text, const struct said *it) {
  const nigbaru_xid *xid = &ids[it->xid];
  int at = sprintf(text, "%s", before[it->verb]);
  if (it->verb < RECOVER) {
    at += spell_bytes(text + at, xid->data, (size_t)xid->gtrid_length);
    at += sprintf(text + at, ",");
    at += spell_bytes(text + at, xid->data + xid->gtrid_length, (size_t)xid->bqual_length);
    at += sprintf(text + at, ",%ld%s", xid->formatID, it->verb == ONE_PHASE ? " ONE PHASE" : "");
  } else if (it->verb >= GET && it->verb <= DEL) {
    at += spell_bytes(text + at, keys[it->key].data, keys[it->key].length);
    if (it->verb == PUT) {
      at += sprintf(text + at, ",");
      at += spell_bytes(text + at, values[it->value].data, values[it->value].length);
    }
  }
  return (size_t)at;
}

/* The same statement by values. */
static uint32_t give(nigbaru_session *session, const struct said *it, nigbaru_answer *answer, nigbaru_xid *xids,
                     uint64_t tries) {
  const nigbaru_xid *xid = &ids[it->xid];
  const struct bytes *key = &keys[it->key], *value = &values[it->value];
  switch (it->verb) {
  case START: return nigbaru_start(session, xid, answer, tries);
  case END: return nigbaru_end(session, xid, answer, tries);
  case PREPARE: return nigbaru_prepare(session, xid, answer, tries);
  case COMMIT: return nigbaru_commit(session, xid, false, answer, tries);
  case ONE_PHASE: return nigbaru_commit(session, xid, true, answer, tries);
  case ROLLBACK: return nigbaru_rollback(session, xid, answer, tries);
  case RECOVER: return nigbaru_recover(session, answer, xids, ROOM, tries);
  case GET: return nigbaru_get(session, key->data, key->length, answer, tries);
  case PUT: return nigbaru_put(session, key->data, key->length, value->data, value->length, answer, tries);
  case DEL: return nigbaru_del(session, key->data, key->length, answer, tries);
  default: return nigbaru_disconnect(session, answer, tries);
  }
}

static uint64_t drawn = 1;
static int draw(int below) {
  drawn = drawn * 6364136223846793005u + 1442695040888963407u;
  return (int)((drawn >> 33) % (uint64_t)below);
}

static void same_answer(const nigbaru_answer *one, const nigbaru_answer *other) {
  SAME(one->place, other->place);
  SAME(one->length, other->length);
  SAME(one->count, other->count);
  SAME(one->error, other->error);
  SAME(memcmp(one->value, other->value, (size_t)one->length), 0);
}

static void open_with(nigbaru_store *store, nigbaru_session *sessions) {
  SAME(nigbaru_open(65536, SESSIONS, store), NIGBARU_OK);
  for (int index = 0; index < SESSIONS; index++)
    SAME(nigbaru_take(store, (uint64_t)index + 1, &sessions[index]), NIGBARU_OK);
}

static void close_all(nigbaru_store *store, nigbaru_session *sessions) {
  for (int index = 0; index < SESSIONS; index++)
    SAME(nigbaru_leave(&sessions[index]), NIGBARU_OK);
  SAME(nigbaru_close(store), NIGBARU_OK);
}

/* Both have handed out the same entries up to here. */
static void same_history(nigbaru_session *one, nigbaru_session *other) {
  nigbaru_entry first, second;
  for (;;) {
    uint32_t status = nigbaru_follow(one, &first);
    SAME(nigbaru_follow(other, &second), status);
    if (status == NIGBARU_NONE)
      return;
    SAME(status, NIGBARU_OK);
    SAME(first.number, second.number);
    SAME(first.length, second.length);
    SAME(memcmp(first.text, second.text, (size_t)first.length), 0);
  }
}

/* Drawn statements of three sessions, given to one store by text and to another by values. */
static void same_as_by_text(void) {
  static const uint32_t errors[] = {0, 1397, 1399, 1440, 3572};
  nigbaru_store by_text = NIGBARU_EMPTY, by_values = NIGBARU_EMPTY;
  nigbaru_session readers[SESSIONS] = {NIGBARU_EMPTY, NIGBARU_EMPTY, NIGBARU_EMPTY};
  nigbaru_session givers[SESSIONS] = {NIGBARU_EMPTY, NIGBARU_EMPTY, NIGBARU_EMPTY};
  bool seen[VERBS][5] = {{false}}, refused[5] = {false};
  open_with(&by_text, readers);
  open_with(&by_values, givers);
  for (int step = 0; step < STEPS; step++) {
    struct said it = {(enum verb)draw(VERBS), draw(XIDS), draw(TEXTS), draw(TEXTS)};
    int session = draw(SESSIONS);
    char text[600];
    nigbaru_answer wanted, got;
    nigbaru_xid listed[ROOM], given[ROOM];
    memset(listed, 1, sizeof listed), memset(given, 1, sizeof given);
    size_t length = spell(text, &it);
    uint32_t status = nigbaru_attempt(&readers[session], text, length, &wanted, listed, ROOM);
    CHECK(status <= NIGBARU_REFUSED);
    SAME(give(&givers[session], &it, &got, given, step % 2 == 0 ? 1 : 0), status);
    same_answer(&got, &wanted);
    SAME(memcmp(given, listed, sizeof listed), 0);
    seen[it.verb][status] = true;
    for (int index = 0; index < 5; index++)
      refused[index] |= wanted.error == errors[index];
    if (step % 100 == 0)
      same_history(&readers[0], &givers[0]);
  }
  same_history(&readers[1], &givers[1]);
  for (int verb = START; verb < RECOVER; verb++)
    CHECK(seen[verb][NIGBARU_OK] && seen[verb][NIGBARU_REFUSED]);
  CHECK(seen[RECOVER][NIGBARU_LIST] && seen[GET][NIGBARU_VALUE] && seen[GET][NIGBARU_NONE]);
  CHECK(seen[PUT][NIGBARU_OK] && seen[PUT][NIGBARU_REFUSED] && seen[DEL][NIGBARU_OK] && seen[DISCONNECT][NIGBARU_OK]);
  for (int index = 0; index < 5; index++)
    CHECK(refused[index]);
  close_all(&by_text, readers);
  close_all(&by_values, givers);
}

static nigbaru_answer answer;
static nigbaru_entry entry;

/* Nothing is done, and told, of identifiers, keys and values that are too short or too long. */
static void ranges(nigbaru_session *session) {
  static const nigbaru_xid bad[] = {{-1, 1, 1, "ab"}, {LONG_MIN, 1, 1, "ab"}, {1, -1, 1, "ab"}, {1, 65, 1, "ab"},
                                    {1, LONG_MAX, 1, "ab"}, {1, 1, -1, "ab"}, {1, 1, 65, "ab"}, {1, LONG_MIN, 1, "ab"},
                                    {1, 1, LONG_MAX, "ab"}, {1, 64, LONG_MIN, "ab"}, {1, 64, 128, "ab"}};
  const struct bytes longer = run_of(0, 65);
  for (size_t index = 0; index < sizeof bad / sizeof *bad; index++) {
    ids[0] = bad[index];
    for (int verb = START; verb < RECOVER; verb++) {
      struct said it = {(enum verb)verb, 0, 0, 0};
      memset(&answer, 1, sizeof answer);
      SAME(give(session, &it, &answer, NULL, 0), NIGBARU_OUT_OF_RANGE);
      CHECK(answer.place == 0 && answer.length == 0 && answer.count == 0 && answer.error == 0);
    }
  }
  fill();
  SAME(nigbaru_get(session, "", 0, &answer, 0), NIGBARU_OUT_OF_RANGE);
  SAME(nigbaru_get(session, NULL, 0, &answer, 0), NIGBARU_OUT_OF_RANGE);
  SAME(nigbaru_get(session, longer.data, 65, &answer, 0), NIGBARU_OUT_OF_RANGE);
  SAME(nigbaru_del(session, "", 0, &answer, 0), NIGBARU_OUT_OF_RANGE);
  SAME(nigbaru_del(session, longer.data, 65, &answer, 0), NIGBARU_OUT_OF_RANGE);
  SAME(nigbaru_put(session, "", 0, "v", 1, &answer, 0), NIGBARU_OUT_OF_RANGE);
  SAME(nigbaru_put(session, longer.data, 65, "v", 1, &answer, 0), NIGBARU_OUT_OF_RANGE);
  SAME(nigbaru_put(session, "k", 1, longer.data, 65, &answer, 0), NIGBARU_OUT_OF_RANGE);
  SAME(nigbaru_follow(session, &entry), NIGBARU_NONE);
  SAME(nigbaru_put(session, "k", 1, NULL, 0, &answer, 0), NIGBARU_OK);
  SAME(nigbaru_get(session, "k", 1, &answer, 0), NIGBARU_VALUE);
  SAME(answer.length, 0);
}

/* Each call without a pointer that it needs, and each while another call has the handle. */
static void refused_by_the_header(nigbaru_session *session) {
  nigbaru_xid xid = ids[0], xids[ROOM];
  struct said it = {START, 0, 0, 0};
  SAME(nigbaru_start(session, NULL, &answer, 0), NIGBARU_NO_POINTER);
  SAME(nigbaru_end(session, NULL, &answer, 0), NIGBARU_NO_POINTER);
  SAME(nigbaru_prepare(session, NULL, &answer, 0), NIGBARU_NO_POINTER);
  SAME(nigbaru_commit(session, NULL, true, &answer, 0), NIGBARU_NO_POINTER);
  SAME(nigbaru_rollback(session, NULL, &answer, 0), NIGBARU_NO_POINTER);
  SAME(nigbaru_recover(session, &answer, NULL, 1, 0), NIGBARU_NO_POINTER);
  SAME(nigbaru_get(session, NULL, 1, &answer, 0), NIGBARU_NO_POINTER);
  SAME(nigbaru_put(session, NULL, 1, "v", 1, &answer, 0), NIGBARU_NO_POINTER);
  SAME(nigbaru_put(session, "k", 1, NULL, 1, &answer, 0), NIGBARU_NO_POINTER);
  SAME(nigbaru_del(session, NULL, 1, &answer, 0), NIGBARU_NO_POINTER);
  SAME(nigbaru_start(session, &xid, NULL, 0), NIGBARU_NO_POINTER);
  SAME(nigbaru_recover(session, &answer, NULL, 0, 0), NIGBARU_LIST);
  for (int verb = START; verb < VERBS; verb++) {
    it.verb = (enum verb)verb;
    SAME(give(NULL, &it, &answer, xids, 0), NIGBARU_NO_POINTER);
    SAME(give(session, &it, NULL, xids, 0), NIGBARU_NO_POINTER);
    CHECK(nigbaru_enter_(&session->busy));
    SAME(give(session, &it, &answer, xids, 0), NIGBARU_BUSY);
    nigbaru_exit_(&session->busy);
  }
  SAME(nigbaru_follow(session, &entry), NIGBARU_OK);
  SAME(nigbaru_follow(session, &entry), NIGBARU_NONE);
}

/* A handle without a session: it comes before what is out of range, and nothing is written but the answer. */
static void no_session(nigbaru_store *store) {
  nigbaru_session empty = NIGBARU_EMPTY;
  nigbaru_xid bad = {-1, 0, 0, ""}, xids[ROOM] = {{5, 0, 0, ""}};
  struct said it = {START, 0, 0, 0};
  for (int verb = START; verb < VERBS; verb++) {
    it.verb = (enum verb)verb;
    SAME(give(&empty, &it, &answer, xids, 0), NIGBARU_NO_HANDLE);
    CHECK(answer.place == 0 && answer.error == 0 && empty.handle.at == NULL);
  }
  SAME(nigbaru_start(&empty, &bad, &answer, 0), NIGBARU_NO_HANDLE);
  SAME(nigbaru_raw_put(&store->handle, (const uint8_t *)"k", 1, (const uint8_t *)"v", 1, &answer), NIGBARU_NO_HANDLE);
  SAME(nigbaru_raw_disconnect(&store->handle, &answer), NIGBARU_NO_HANDLE);
  SAME(xids[0].formatID, 5);
}

/* An identifier that is listed names the branch, as it is. */
static void listed_again(nigbaru_session *session) {
  nigbaru_xid xids[ROOM];
  for (int index = 0; index < XIDS; index++) {
    SAME(nigbaru_start(session, &ids[index], &answer, 0), NIGBARU_OK);
    SAME(nigbaru_end(session, &ids[index], &answer, 0), NIGBARU_OK);
    SAME(nigbaru_prepare(session, &ids[index], &answer, 0), NIGBARU_OK);
  }
  for (uint64_t left = XIDS; left > 0; left--) {
    SAME(nigbaru_recover(session, &answer, xids, ROOM, 0), NIGBARU_LIST);
    SAME(answer.count, left);
    SAME(nigbaru_commit(session, &xids[left / 2 % 2], false, &answer, 0), NIGBARU_OK);
  }
}

/* A thread that writes by its session, with one try each or as many as it takes. */
struct writer { nigbaru_session *session; uint64_t tries, answered; };

static void *write_rows(void *given) {
  struct writer *it = (struct writer *)given;
  nigbaru_answer own;
  for (int turn = 0; turn < TURNS; turn++) {
    uint32_t status = nigbaru_put(it->session, "k", 1, "v", 1, &own, it->tries);
    CHECK(status == NIGBARU_OK || (status == NIGBARU_OVERTAKEN && it->tries == 1));
    it->answered += status == NIGBARU_OK;
  }
  return NULL;
}

/* Without a limit each statement of three threads is answered; with one try each some may be overtaken, and no more is
   in the history than was answered. */
static void tries(nigbaru_session *sessions) {
  SAME(nigbaru_put(&sessions[0], "k", 1, "v", 1, &answer, 0), NIGBARU_OK);
  uint64_t expected = answer.place + 1;
  struct writer writers[SESSIONS];
  pthread_t threads[SESSIONS];
  for (int index = 0; index < SESSIONS; index++) {
    writers[index] = (struct writer){&sessions[index], index == 0 ? 1 : 0, 0};
    SAME(pthread_create(&threads[index], NULL, write_rows, &writers[index]), 0);
  }
  for (int index = 0; index < SESSIONS; index++) {
    SAME(pthread_join(threads[index], NULL), 0);
    CHECK(writers[index].tries == 1 || writers[index].answered == TURNS);
    expected += writers[index].answered;
  }
  SAME(nigbaru_get(&sessions[0], "k", 1, &answer, 0), NIGBARU_VALUE);
  SAME(answer.place, expected);
}

int main(void) {
  fill();
  same_as_by_text();
  nigbaru_store store = NIGBARU_EMPTY;
  nigbaru_session sessions[SESSIONS] = {NIGBARU_EMPTY, NIGBARU_EMPTY, NIGBARU_EMPTY};
  open_with(&store, sessions);
  ranges(&sessions[0]);
  refused_by_the_header(&sessions[0]);
  no_session(&store);
  listed_again(&sessions[1]);
  tries(sessions);
  close_all(&store, sessions);
  return 0;
}
