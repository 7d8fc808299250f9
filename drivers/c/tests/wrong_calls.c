/* Null pointers, handles that hold nothing or the wrong thing, numbers and lengths out of their ranges, texts that are
   no statements; limits; sessions that are taken again; the history, and what of it is lost. */
#include "nigbaru.h"

#include "check.h"

#define LONGEST 400

static nigbaru_answer answer;
static nigbaru_xid xids[2];
static nigbaru_entry entry;

static void nulls(void) {
  nigbaru_store store = NIGBARU_EMPTY;
  nigbaru_session session = NIGBARU_EMPTY;
  SAME(nigbaru_open(1, 1, NULL), NIGBARU_NO_POINTER);
  SAME(nigbaru_take(NULL, 1, &session), NIGBARU_NO_POINTER);
  SAME(nigbaru_take(&store, 1, NULL), NIGBARU_NO_POINTER);
  SAME(nigbaru_attempt(NULL, "GET 'k'", 7, &answer, xids, 2), NIGBARU_NO_POINTER);
  SAME(nigbaru_attempt(&session, NULL, 7, &answer, xids, 2), NIGBARU_NO_POINTER);
  SAME(nigbaru_attempt(&session, "GET 'k'", 7, NULL, xids, 2), NIGBARU_NO_POINTER);
  SAME(nigbaru_attempt(&session, "GET 'k'", 7, &answer, NULL, 2), NIGBARU_NO_POINTER);
  SAME(nigbaru_run(NULL, "GET 'k'", 7, &answer, NULL, 0, 3), NIGBARU_NO_POINTER);
  SAME(nigbaru_leave(NULL), NIGBARU_NO_POINTER);
  SAME(nigbaru_follow(NULL, &entry), NIGBARU_NO_POINTER);
  SAME(nigbaru_follow(&session, NULL), NIGBARU_NO_POINTER);
  SAME(nigbaru_close(NULL), NIGBARU_NO_POINTER);
}

static void empty_handles(void) {
  nigbaru_store store = NIGBARU_EMPTY;
  nigbaru_session session = NIGBARU_EMPTY;
  SAME(nigbaru_take(&store, 1, &session), NIGBARU_NO_HANDLE);
  SAME(nigbaru_attempt(&session, "GET 'k'", 7, &answer, xids, 2), NIGBARU_NO_HANDLE);
  SAME(nigbaru_leave(&session), NIGBARU_NO_HANDLE);
  SAME(nigbaru_follow(&session, &entry), NIGBARU_NO_HANDLE);
  SAME(nigbaru_close(&store), NIGBARU_NO_HANDLE);
  CHECK(store.handle.at == NULL && session.handle.at == NULL);
}

static void ranges(void) {
  static const uint64_t bad_rows[] = {0, 65537, UINT64_MAX}, bad_sessions[] = {0, 17, UINT64_MAX};
  nigbaru_store store = NIGBARU_EMPTY;
  nigbaru_session session = NIGBARU_EMPTY;
  for (int index = 0; index < 3; index++) {
    SAME(nigbaru_open(bad_rows[index], 1, &store), NIGBARU_OUT_OF_RANGE);
    SAME(nigbaru_open(1, bad_sessions[index], &store), NIGBARU_OUT_OF_RANGE);
    CHECK(store.handle.at == NULL);
  }
  SAME(nigbaru_open(65536, 1, &store), NIGBARU_OK);
  SAME(nigbaru_close(&store), NIGBARU_OK);
  SAME(nigbaru_open(1, 16, &store), NIGBARU_OK);
  SAME(nigbaru_open(1, 16, &store), NIGBARU_HELD);
  SAME(nigbaru_take(&store, 0, &session), NIGBARU_OUT_OF_RANGE);
  SAME(nigbaru_take(&store, 17, &session), NIGBARU_OUT_OF_RANGE);
  SAME(nigbaru_take(&store, UINT64_MAX, &session), NIGBARU_OUT_OF_RANGE);
  SAME(nigbaru_take(&store, 16, &session), NIGBARU_OK);
  SAME(nigbaru_take(&store, 15, &session), NIGBARU_HELD);
  nigbaru_session other = NIGBARU_EMPTY;
  SAME(nigbaru_take(&store, 16, &other), NIGBARU_NO_SESSION);
  SAME(nigbaru_leave(&session), NIGBARU_OK);
  SAME(nigbaru_take(&store, 16, &other), NIGBARU_OK);
  SAME(nigbaru_leave(&other), NIGBARU_OK);
  SAME(nigbaru_take(&store, 1, &other), NIGBARU_OK);
  SAME(nigbaru_close(&store), NIGBARU_OK);
  SAME(nigbaru_attempt(&other, "PUT 'k','v'", 11, &answer, NULL, 0), NIGBARU_OK);
  SAME(nigbaru_leave(&other), NIGBARU_OK);
  SAME(nigbaru_leave(&other), NIGBARU_NO_HANDLE);
  SAME(nigbaru_close(&store), NIGBARU_NO_HANDLE);
}

static void one_of_each(nigbaru_store *store, nigbaru_session *session) {
  SAME(nigbaru_open(2, 2, store), NIGBARU_OK);
  SAME(nigbaru_take(store, 1, session), NIGBARU_OK);
}

/* A store's handle where a session's is wanted, and the other way round. */
static void mixed_up(void) {
  nigbaru_store store = NIGBARU_EMPTY;
  nigbaru_session session = NIGBARU_EMPTY, other = NIGBARU_EMPTY;
  one_of_each(&store, &session);
  SAME(nigbaru_raw_attempt(&store.handle, (const uint8_t *)"GET 'k'", 7, &answer, xids, 2), NIGBARU_NO_HANDLE);
  SAME(nigbaru_raw_leave(&store.handle), NIGBARU_NO_HANDLE);
  SAME(nigbaru_raw_follow(&store.handle, &entry), NIGBARU_NO_HANDLE);
  SAME(nigbaru_raw_close(&session.handle), NIGBARU_NO_HANDLE);
  SAME(nigbaru_raw_take(&session.handle, 2, &other.handle), NIGBARU_NO_HANDLE);
  SAME(nigbaru_attempt(&session, "GET 'k'", 7, &answer, NULL, 0), NIGBARU_NONE);
  SAME(nigbaru_leave(&session), NIGBARU_OK);
  SAME(nigbaru_close(&store), NIGBARU_OK);
}

/* Texts that spell no statement: each with the first byte that doesn't fit (docs/STATEMENTS.md#fault-places). */
static void no_statements(void) {
  static const struct { const char *text; uint64_t place; } bad[] = {
      {"", 0}, {"XA RECOVER now", 11}, {"XA START ", 9}, {"XA START 'a','',18446744073709551616", 16},
      {"GET ''", 4}, {"PUT 'k' 'v'", 8}, {"SELECT 1", 0},
  };
  nigbaru_store store = NIGBARU_EMPTY;
  nigbaru_session session = NIGBARU_EMPTY;
  one_of_each(&store, &session);
  for (size_t index = 0; index < sizeof bad / sizeof *bad; index++) {
    SAME(nigbaru_attempt(&session, bad[index].text, strlen(bad[index].text), &answer, NULL, 0), NIGBARU_SYNTAX);
    SAME(answer.place, bad[index].place);
  }
  SAME(nigbaru_attempt(&session, NULL, 0, &answer, NULL, 0), NIGBARU_SYNTAX);
  char text[LONGEST] = "GET '";
  memset(text + 5, 'k', 65);
  strcpy(text + 70, "'");
  SAME(nigbaru_attempt(&session, text, strlen(text), &answer, NULL, 0), NIGBARU_SYNTAX);
  SAME(answer.place, 4);
  strcpy(text + 69, "'");
  SAME(nigbaru_attempt(&session, text, strlen(text), &answer, NULL, 0), NIGBARU_NONE);
  SAME(nigbaru_attempt(&session, "GET 'k'garbage", 7, &answer, NULL, 0), NIGBARU_NONE);
  SAME(nigbaru_leave(&session), NIGBARU_OK);
  SAME(nigbaru_close(&store), NIGBARU_OK);
}

/* The longest value and identifier, every byte value, and lists with more identifiers than room. */
static void limits(void) {
  nigbaru_store store = NIGBARU_EMPTY;
  nigbaru_session session = NIGBARU_EMPTY;
  char text[LONGEST];
  SAME(nigbaru_open(64, 1, &store), NIGBARU_OK);
  SAME(nigbaru_take(&store, 1, &session), NIGBARU_OK);
  for (int begin = 0; begin < 256; begin += 64) {
    int at = sprintf(text, "PUT 'k',X'");
    for (int byte = begin; byte < begin + 64; byte++)
      at += sprintf(text + at, "%02x", byte);
    at += sprintf(text + at, "'");
    SAME(nigbaru_attempt(&session, text, (size_t)at, &answer, NULL, 0), NIGBARU_OK);
    SAME(nigbaru_attempt(&session, "GET 'k'", 7, &answer, NULL, 0), NIGBARU_VALUE);
    SAME(answer.length, 64);
    for (int index = 0; index < 64; index++)
      SAME(answer.value[index], begin + index);
  }
  static const char *const formats[] = {"0", "7", "9223372036854775807"};
  for (int index = 0; index < 3; index++)
    for (int verb = 0; verb < 3; verb++) {
      static const char *const verbs[] = {"START", "END", "PREPARE"};
      int at = sprintf(text, "XA %s '%0*d','%0*d',%s", verbs[verb], 64, 1, index == 0 ? 64 : 1, 2, formats[index]);
      SAME(nigbaru_attempt(&session, text, (size_t)at, &answer, NULL, 0), NIGBARU_OK);
    }
  SAME(nigbaru_attempt(&session, "XA START 'a','b',9223372036854775808", 36, &answer, NULL, 0), NIGBARU_OUT_OF_RANGE);
  SAME(nigbaru_attempt(&session, "XA RECOVER", 10, &answer, xids, 2), NIGBARU_LIST);
  SAME(answer.count, 3);
  SAME(xids[0].formatID, 0);
  SAME(xids[0].gtrid_length, 64);
  SAME(xids[0].bqual_length, 64);
  SAME(xids[0].data[63], '1');
  SAME(xids[0].data[127], '2');
  SAME(xids[1].formatID, 7);
  SAME(xids[1].bqual_length, 1);
  SAME(nigbaru_attempt(&session, "XA RECOVER", 10, &answer, NULL, 0), NIGBARU_LIST);
  SAME(answer.count, 3);
  SAME(nigbaru_leave(&session), NIGBARU_OK);
  SAME(nigbaru_close(&store), NIGBARU_OK);
}

/* A session that left is taken again, from any handle: its branch and what it has handed out go on. */
static void taken_again(void) {
  nigbaru_store store = NIGBARU_EMPTY;
  nigbaru_session session = NIGBARU_EMPTY, other = NIGBARU_EMPTY, again = NIGBARU_EMPTY;
  one_of_each(&store, &session);
  SAME(nigbaru_take(&store, 2, &other), NIGBARU_OK);
  SAME(nigbaru_attempt(&session, "XA START 'a'", 12, &answer, NULL, 0), NIGBARU_OK);
  SAME(answer.place, 0);
  SAME(nigbaru_attempt(&session, "PUT 'k','v'", 11, &answer, NULL, 0), NIGBARU_OK);
  SAME(answer.place, 1);
  SAME(nigbaru_follow(&session, &entry), NIGBARU_OK);
  SAME(memcmp(entry.text, "XA START 0x61,X'',1", entry.length), 0);
  SAME(nigbaru_leave(&session), NIGBARU_OK);
  SAME(nigbaru_leave(&session), NIGBARU_NO_HANDLE);
  SAME(nigbaru_attempt(&session, "GET 'k'", 7, &answer, NULL, 0), NIGBARU_NO_HANDLE);
  SAME(nigbaru_attempt(&other, "PUT 'k','w'", 11, &answer, NULL, 0), NIGBARU_REFUSED);
  SAME(answer.error, 3572);
  SAME(nigbaru_take(&store, 1, &again), NIGBARU_OK);
  SAME(nigbaru_follow(&again, &entry), NIGBARU_OK);
  SAME(memcmp(entry.text, "PUT 0x6b,0x76", entry.length), 0);
  SAME(nigbaru_follow(&again, &entry), NIGBARU_NONE);
  SAME(nigbaru_attempt(&again, "XA END 'a'", 10, &answer, NULL, 0), NIGBARU_OK);
  SAME(nigbaru_attempt(&again, "XA COMMIT 'a' ONE PHASE", 23, &answer, NULL, 0), NIGBARU_OK);
  SAME(answer.place, 3);
  SAME(nigbaru_attempt(&other, "GET 'k'", 7, &answer, NULL, 0), NIGBARU_VALUE);
  SAME(answer.place, 4);
  SAME(answer.value[0], 'v');
  SAME(nigbaru_leave(&again), NIGBARU_OK);
  SAME(nigbaru_leave(&other), NIGBARU_OK);
  SAME(nigbaru_close(&store), NIGBARU_OK);
}

/* Leaving and closing say nothing to the store: a branch of a session that left stays open, with its locks, also after
   the store's handle is closed. */
static void nothing_is_said(void) {
  nigbaru_store store = NIGBARU_EMPTY;
  nigbaru_session session = NIGBARU_EMPTY, other = NIGBARU_EMPTY;
  one_of_each(&store, &session);
  SAME(nigbaru_take(&store, 2, &other), NIGBARU_OK);
  SAME(nigbaru_attempt(&session, "XA START 'a'", 12, &answer, NULL, 0), NIGBARU_OK);
  SAME(nigbaru_attempt(&session, "PUT 'k','v'", 11, &answer, NULL, 0), NIGBARU_OK);
  SAME(nigbaru_leave(&session), NIGBARU_OK);
  SAME(nigbaru_close(&store), NIGBARU_OK);
  SAME(nigbaru_attempt(&other, "PUT 'k','w'", 11, &answer, NULL, 0), NIGBARU_REFUSED);
  SAME(answer.error, 3572);
  SAME(answer.place, 2);
  SAME(nigbaru_leave(&other), NIGBARU_OK);
}

/* Wants the next entry that a session hands out to be this one. */
static void hands_out(nigbaru_session *session, uint64_t number, const char *text) {
  SAME(nigbaru_follow(session, &entry), NIGBARU_OK);
  SAME(entry.number, number);
  SAME(entry.length, strlen(text));
  SAME(memcmp(entry.text, text, strlen(text)), 0);
  SAME(entry.lost, 0);
}

/* The history: each entry once, in canonical form, with its session, to each session; the longest; what is lost where a
   session follows too slowly. */
static void history(void) {
  nigbaru_store store = NIGBARU_EMPTY;
  nigbaru_session session = NIGBARU_EMPTY, other = NIGBARU_EMPTY;
  char text[LONGEST], wanted[LONGEST];
  SAME(nigbaru_open(64, 2, &store), NIGBARU_OK);
  SAME(nigbaru_take(&store, 1, &session), NIGBARU_OK);
  SAME(nigbaru_take(&store, 2, &other), NIGBARU_OK);
  SAME(nigbaru_follow(&session, &entry), NIGBARU_NONE);
  SAME(entry.number, 0);
  SAME(entry.length, 0);
  SAME(nigbaru_attempt(&session, "put X'6B' , \"v\" ;", 17, &answer, NULL, 0), NIGBARU_OK);
  SAME(nigbaru_run(&other, "DEL 'l'", 7, &answer, NULL, 0, 0), NIGBARU_OK);
  SAME(nigbaru_attempt(&other, "GET 'k'", 7, &answer, NULL, 0), NIGBARU_VALUE);
  SAME(nigbaru_attempt(&other, "XA END 'k'", 10, &answer, NULL, 0), NIGBARU_REFUSED);
  hands_out(&session, 1, "PUT 0x6b,0x76");
  hands_out(&session, 2, "DEL 0x6c");
  hands_out(&other, 1, "PUT 0x6b,0x76");
  SAME(nigbaru_follow(&session, &entry), NIGBARU_NONE);
  sprintf(text, "XA START '%064d','%064d',9223372036854775807", 1, 2);
  SAME(nigbaru_run(&session, text, strlen(text), &answer, NULL, 0, 0), NIGBARU_OK);
  int at = sprintf(wanted, "XA START 0x");
  for (int byte = 0; byte < 128; byte++)
    at += sprintf(wanted + at, "%s%02x", byte == 64 ? ",0x" : "", byte == 63 ? '1' : byte == 127 ? '2' : '0');
  sprintf(wanted + at, ",9223372036854775807");
  hands_out(&session, 1, wanted);
  CHECK(strlen(wanted) <= NIGBARU_TEXT);
  SAME(nigbaru_run(&session, "DISCONNECT", 10, &answer, NULL, 0, 0), NIGBARU_OK);
  hands_out(&session, 1, "DISCONNECT");
  for (int turn = 0; turn < 200; turn++) {
    int length = sprintf(text, "PUT 'k','%03d'", turn);
    SAME(nigbaru_run(&other, text, (size_t)length, &answer, NULL, 0, 0), NIGBARU_OK);
  }
  int next = 0, lost = 0;
  uint32_t status;
  while ((status = nigbaru_follow(&session, &entry)) != NIGBARU_NONE) {
    if (status == NIGBARU_BEHIND) {
      CHECK(entry.lost > 0);
      lost += (int)entry.lost;
      next += (int)entry.lost;
      continue;
    }
    SAME(status, NIGBARU_OK);
    sprintf(wanted, "PUT 0x6b,0x%02x%02x%02x", '0' + next / 100, '0' + next / 10 % 10, '0' + next % 10);
    SAME(entry.length, strlen(wanted));
    SAME(memcmp(entry.text, wanted, strlen(wanted)), 0);
    next++;
  }
  SAME(next, 200);
  CHECK(lost >= 200 - 64 && lost <= 200 - 64 / 2);
  SAME(nigbaru_leave(&session), NIGBARU_OK);
  SAME(nigbaru_leave(&other), NIGBARU_OK);
  SAME(nigbaru_close(&store), NIGBARU_OK);
}

int main(void) {
  nulls();
  empty_handles();
  ranges();
  mixed_up();
  no_statements();
  limits();
  taken_again();
  nothing_is_said();
  history();
  return 0;
}
