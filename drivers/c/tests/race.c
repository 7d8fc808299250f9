/* Threads race cycles: race THREADS CYCLES ROWS [SCRIPT ANSWERS]

   In a cycle a thread writes a row of its own in a branch, counts in a row that all share if nobody holds it, ends the
   branch in one of five ways, and reads. Afterwards each row is what the thread knows that it committed. One thread
   hands out the history meanwhile. With two files no entry may be lost, so the others wait for it: the history and the
   statements that didn't enter, each in front of the entry at its place, are written to SCRIPT, one `session statement`
   a line, and what was answered to ANSWERS; of a refusal only its number. Without them each entry is handed out or
   counted as lost. */
#include "nigbaru_shared.h"

#include "check.h"

#include <pthread.h>
#include <sched.h>
#include <stdatomic.h>

#define LONGEST 160
#define XIDS 16

/* What a thread was answered: where, to what, and how. */
struct told {
  uint64_t place;
  char statement[LONGEST];
  uint32_t status;
  nigbaru_answer answer;
  char *list;
};

struct teller {
  pthread_t thread;
  uint64_t number;
  nigbaru_seat seat;
  struct told *told;
  size_t count, room;
  uint64_t place;
  long own, counted; /* the value of the own row, and how often the shared row was counted up, as committed */
};

struct entry {
  uint64_t session;
  char statement[LONGEST];
};

static uint64_t rows;
static long cycles;
static int is_explained;
static atomic_uint_fast64_t followed; /* how many entries were handed out or lost */
static uint64_t lost;
static atomic_int finished;
static nigbaru_shared *shared;
static struct teller tellers[17];
static int threads;
static struct entry *entries;
static size_t entry_count, entry_room;

static void *grown(void *block, size_t count, size_t *room, size_t size) {
  if (count < *room)
    return block;
  *room = *room == 0 ? 1024 : 2 * *room;
  block = realloc(block, *room * size);
  CHECK(block != NULL);
  return block;
}

/* Takes what the session of the first thread hands out now. */
static void follow(void) {
  nigbaru_entry entry;
  uint32_t status;
  while ((status = nigbaru_seat_follow(&tellers[1].seat, &entry)) != NIGBARU_NONE) {
    CHECK(status == NIGBARU_OK || (status == NIGBARU_BEHIND && !is_explained));
    if (status == NIGBARU_BEHIND) {
      CHECK(entry.lost > 0);
      lost += entry.lost;
      atomic_fetch_add(&followed, entry.lost);
      continue;
    }
    CHECK(entry.number >= 1 && entry.number <= (uint64_t)threads);
    atomic_fetch_add(&followed, 1);
    if (!is_explained)
      continue;
    CHECK(entry.length < LONGEST);
    entries = grown(entries, entry_count, &entry_room, sizeof *entries);
    struct entry *it = &entries[entry_count++];
    it->session = entry.number;
    memcpy(it->statement, entry.text, entry.length);
    it->statement[entry.length] = 0;
  }
}

/* Follows, or waits until the first thread has followed far enough that no entry is lost. */
static void keep_up(const struct teller *it, uint64_t place) {
  if (it->number == 1)
    follow();
  else
    while (is_explained && place > atomic_load(&followed) + rows / 2)
      sched_yield();
}

/* The list that XA RECOVER CONVERT XID prints. */
static char *list_of(const nigbaru_xid *xids, uint64_t count) {
  char *list = malloc(64 + count * 300);
  CHECK(list != NULL);
  int at = sprintf(list, "ROWS %lu", (unsigned long)count);
  for (uint64_t index = 0; index < count; index++) {
    const nigbaru_xid *it = &xids[index];
    at += sprintf(list + at, "\n%ld %ld %ld 0x", it->formatID, it->gtrid_length, it->bqual_length);
    for (long byte = 0; byte < it->gtrid_length + it->bqual_length; byte++)
      at += sprintf(list + at, "%02x", (unsigned char)it->data[byte]);
  }
  return list;
}

/* Has a statement answered, and notes it. */
static const struct told *say(struct teller *it, const char *statement) {
  nigbaru_xid xids[XIDS];
  it->told = grown(it->told, it->count, &it->room, sizeof *it->told);
  struct told *told = &it->told[it->count];
  it->count += is_explained;
  CHECK(strlen(statement) < LONGEST);
  strcpy(told->statement, statement);
  told->status = nigbaru_seat_run(&it->seat, statement, strlen(statement), &told->answer, xids, XIDS);
  if (told->status > NIGBARU_REFUSED) {
    fprintf(stderr, "%s: %s\n", statement, nigbaru_text(told->status));
    exit(1);
  }
  CHECK(told->answer.place >= it->place);
  it->place = told->place = told->answer.place;
  CHECK(told->status != NIGBARU_LIST || told->answer.count <= XIDS);
  told->list = told->status == NIGBARU_LIST && is_explained ? list_of(xids, told->answer.count) : NULL;
  keep_up(it, told->place);
  return told;
}

static void ok(struct teller *it, const char *statement) {
  const struct told *told = say(it, statement);
  if (told->status != NIGBARU_OK) {
    fprintf(stderr, "%lu %s: %s (%u)\n", (unsigned long)it->number, statement, nigbaru_text(told->status),
            told->answer.error);
    exit(1);
  }
}

/* Whether it was carried out; else the row was locked. */
static int got(struct teller *it, const char *statement) {
  const struct told *told = say(it, statement);
  CHECK(told->status != NIGBARU_REFUSED || told->answer.error == 3572);
  return told->status != NIGBARU_REFUSED;
}

/* The number in a row; 0 where there is none. */
static long number_in(struct teller *it, const char *statement) {
  const struct told *told = say(it, statement);
  if (told->status == NIGBARU_NONE)
    return 0;
  SAME(told->status, NIGBARU_VALUE);
  char text[65] = "";
  memcpy(text, told->answer.value, told->answer.length);
  return atol(text);
}

/* "PUT key,number", in canonical form */
static void put(char *statement, const char *key, long number) {
  char digits[32];
  int at = sprintf(statement, "PUT %s,0x", key);
  sprintf(digits, "%ld", number);
  for (const char *digit = digits; *digit != 0; digit++)
    at += sprintf(statement + at, "%02x", (unsigned)*digit);
}

/* Counts in the shared row, whose value is read under a lock on another one. Whether it could. */
static int count_up(struct teller *it) {
  char statement[LONGEST];
  if (!got(it, "PUT 0x6c6f636b,0x78"))
    return 0;
  put(statement, "0x73", number_in(it, "GET 0x73") + 1);
  ok(it, statement);
  return 1;
}

static void cycle(struct teller *it, long turn) {
  char xid[48], own[24], get[48], statement[LONGEST];
  sprintf(xid, "0x%02lx%06lx,0x62,%ld", (unsigned long)it->number, turn, turn % 3);
  sprintf(own, "0x6f%02lx", (unsigned long)it->number);
  sprintf(get, "GET %s", own);
  sprintf(statement, "XA START %s", xid);
  ok(it, statement);
  SAME(number_in(it, get), it->own);
  put(statement, own, turn + 1);
  ok(it, statement);
  SAME(number_in(it, get), turn + 1);
  int counted = turn % 2 == 0 && count_up(it), is_kept = 1;
  if (turn % 5 != 4) {
    sprintf(statement, "XA END %s", xid);
    ok(it, statement);
  }
  switch (turn % 5) {
  case 0: sprintf(statement, "XA COMMIT %s ONE PHASE", xid); break;
  case 1:
  case 3:
    sprintf(statement, "XA PREPARE %s", xid);
    ok(it, statement);
    say(it, "XA RECOVER CONVERT XID");
    is_kept = turn % 5 == 3 || turn % 4 == 1;
    sprintf(statement, is_kept ? "XA COMMIT %s" : "XA ROLLBACK %s", xid);
    break;
  case 2: sprintf(statement, "XA %s %s", turn % 4 == 0 ? "ROLLBACK" : "PREPARE", xid); break;
  default: strcpy(statement, "DISCONNECT"); is_kept = 0;
  }
  ok(it, statement);
  if (turn % 5 == 2 && turn % 4 != 0) {
    sprintf(statement, "XA COMMIT %s", xid);
    ok(it, statement);
  } else if (turn % 5 == 2)
    is_kept = 0;
  if (is_kept) {
    it->own = turn + 1;
    it->counted += counted;
  }
  SAME(number_in(it, get), it->own);
  number_in(it, "GET 0x73");
}

static void *run(void *teller) {
  struct teller *it = teller;
  for (long turn = 0; turn < cycles; turn++)
    cycle(it, turn);
  atomic_fetch_add(&finished, 1);
  while (it->number == 1 && atomic_load(&finished) < threads) {
    follow();
    sched_yield();
  }
  return NULL;
}

static void check_rows(void) {
  struct teller *last = &tellers[threads];
  long counted = 0;
  for (int number = 1; number <= threads; number++) {
    char get[48];
    sprintf(get, "GET 0x6f%02x", number);
    SAME(number_in(last, get), tellers[number].own);
    counted += tellers[number].counted;
  }
  SAME(number_in(last, "GET 0x73"), counted);
  CHECK(counted > 0);
}

static void print_told(FILE *script, FILE *answers, uint64_t session, const struct told *told) {
  fprintf(script, "%lu %s\n", (unsigned long)session, told->statement);
  fprintf(answers, "%lu ", (unsigned long)session);
  switch (told->status) {
  case NIGBARU_OK: fprintf(answers, "OK\n"); break;
  case NIGBARU_NONE: fprintf(answers, "NONE\n"); break;
  case NIGBARU_LIST: fprintf(answers, "%s\n", told->list); break;
  case NIGBARU_REFUSED: fprintf(answers, "ERROR %u\n", told->answer.error); break;
  default:
    fprintf(answers, "VALUE 0x");
    for (uint64_t index = 0; index < told->answer.length; index++)
      fprintf(answers, "%02x", told->answer.value[index]);
    fprintf(answers, "\n");
  }
}

/* All answers in the order of the history: at each place first those that didn't enter, and then the entry's, which is
   its session's last there. */
static void write_order(FILE *script, FILE *answers) {
  size_t at[17] = {0};
  for (uint64_t place = 0; place <= entry_count; place++) {
    const struct told *entering = NULL;
    for (int number = 1; number <= threads; number++) {
      const struct teller *it = &tellers[number];
      while (at[number] < it->count && it->told[at[number]].place == place) {
        const struct told *told = &it->told[at[number]++];
        int is_last = at[number] == it->count || it->told[at[number]].place != place;
        if (place < entry_count && entries[place].session == it->number && is_last)
          entering = told;
        else
          print_told(script, answers, it->number, told);
      }
    }
    if (place == entry_count)
      break;
    CHECK(entering != NULL);
    CHECK(entering->status < NIGBARU_LIST);
    SAME(strcmp(entering->statement, entries[place].statement), 0);
    print_told(script, answers, entries[place].session, entering);
  }
  for (int number = 1; number <= threads; number++)
    SAME(at[number], tellers[number].count);
}

static void free_all(void) {
  for (int number = 1; number <= threads; number++) {
    for (size_t index = 0; index < tellers[number].count; index++)
      free(tellers[number].told[index].list);
    free(tellers[number].told);
  }
  free(entries);
}

static void start(void) {
  SAME(nigbaru_shared_open(rows, (uint64_t)threads, &shared), NIGBARU_OK);
  for (int number = 1; number <= threads; number++) {
    tellers[number].number = (uint64_t)number;
    SAME(nigbaru_seat_take(shared, (uint64_t)number, &tellers[number].seat), NIGBARU_OK);
  }
}

static void write_files(const char *script_name, const char *answers_name) {
  FILE *script = fopen(script_name, "w"), *answers = fopen(answers_name, "w");
  CHECK(script != NULL && answers != NULL);
  write_order(script, answers);
  CHECK(fclose(script) == 0 && fclose(answers) == 0);
}

int main(int count, char **words) {
  CHECK(count == 4 || count == 6);
  threads = atoi(words[1]);
  cycles = atol(words[2]);
  rows = (uint64_t)atol(words[3]);
  is_explained = count == 6;
  CHECK(threads >= 1 && threads <= 16);
  start();
  for (int number = 1; number <= threads; number++)
    SAME(pthread_create(&tellers[number].thread, NULL, run, &tellers[number]), 0);
  for (int number = 1; number <= threads; number++)
    SAME(pthread_join(tellers[number].thread, NULL), 0);
  check_rows();
  follow();
  SAME(atomic_load(&followed), tellers[threads].place);
  CHECK(tellers[threads].place > 4 * (uint64_t)threads * (uint64_t)cycles);
  if (is_explained) {
    SAME(entry_count, tellers[threads].place);
    write_files(words[4], words[5]);
  }
  printf("%lu entries, %lu rounds of the ring, %lu lost\n", (unsigned long)tellers[threads].place,
         (unsigned long)(tellers[threads].place / rows), (unsigned long)lost);
  for (int number = 1; number <= threads; number++)
    SAME(nigbaru_seat_leave(&tellers[number].seat), NIGBARU_OK);
  SAME(nigbaru_shared_close(shared), NIGBARU_OK);
  free_all();
  return 0;
}
