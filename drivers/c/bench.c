/* Measures the library from C in the steady state, through as many entries as come:

       bench MODE[,MODE..] THREADS SECONDS ROWS   writes for each mode, one after another in the same store:
                                             MODE threads=T per_s=N lost=N done=N
       bench times THREADS STATEMENTS ROWS   writes times threads=T p999_ns=N longest_ns=N
       bench slept THREADS STATEMENTS ROWS   writes slept threads=T middle=N p999=N most=N: how many entries others add
                                             between two statements of a session

   cycle   threads commit branches of one row each in two phases, by texts; what is counted are branches
   get     threads read a hundred rows in turn, each outside a branch; what is counted are reads
   mix5    of a hundred statements outside branches five write, the others read; what is counted are statements
   times   so many statements of cycles: how long one takes at most, but for one of a thousand, and the longest
   slept   of the same: how many entries of others come between two of a session: in the middle, at most but for one
           of a thousand, and at most

   `lost` counts the tries of which another session got ahead. The store has ROWS rows more than the hundred that each
   thread uses. Nobody touches them, except in the modes cycle-all, mix5-all and times-all: these use any of the ROWS
   rows instead of the hundred, in no order. In cycles each thread has a share of its own. The ring has 16,384 rows, or
   as many as BENCH_RING says. */
#include "nigbaru.h"

#include <pthread.h>
#include <sched.h>
#include <stdatomic.h>
#include <stdio.h>
#include <stdlib.h>
#include <string.h>
#include <time.h>

#define TURNS 100
#define TEXTS 5
#define RING 16384
#define DIGITS 7 /* of a row's number in its key, which comes after 8 bytes of a text */

struct worker {
  pthread_t thread;
  nigbaru_session session;
  int number;
  unsigned long done, wanted; /* `wanted` statements are timed */
  unsigned long lost;
  uint64_t *times, random;
  char texts[TURNS][TEXTS][48], gets[TURNS][48];
  char apart[128]; /* so that no two workers share a line of the cache */
};

static atomic_int stops;
static struct worker workers[16];
static int all_threads;
static long all_rows; /* of which threads use any, or 0: each uses its hundred */

static void fail(const char *what, uint32_t status) {
  fprintf(stderr, "bench: %s: %s\n", what, nigbaru_text(status));
  exit(1);
}

/* As nigbaru_run, but for the count, and that a session that is behind lets others go on. Returns the place. */
static uint64_t say(struct worker *it, const char *text, uint32_t wanted) {
  nigbaru_answer answer;
  uint32_t status;
  size_t length = strlen(text);
  while ((status = nigbaru_attempt(&it->session, text, length, &answer, NULL, 0)) != wanted) {
    it->lost += status == NIGBARU_OVERTAKEN;
    if (status == NIGBARU_BEHIND)
      sched_yield();
    else if (status != NIGBARU_OVERTAKEN)
      fail(text, status);
  }
  return answer.place;
}

static void write_texts(struct worker *it) {
  for (int turn = 0; turn < TURNS; turn++) {
    char xid[32], key[32];
    snprintf(xid, sizeof xid, "'g%d_%d','b',1", it->number, turn);
    if (all_rows > 0)
      snprintf(key, sizeof key, "row%0*d", DIGITS, 0);
    else
      snprintf(key, sizeof key, "k%d_%d", it->number, turn);
    snprintf(it->texts[turn][0], sizeof it->texts[turn][0], "XA START %s", xid);
    snprintf(it->texts[turn][1], sizeof it->texts[turn][1], "PUT '%s','v%d'", key, turn);
    snprintf(it->texts[turn][2], sizeof it->texts[turn][2], "XA END %s", xid);
    snprintf(it->texts[turn][3], sizeof it->texts[turn][3], "XA PREPARE %s", xid);
    snprintf(it->texts[turn][4], sizeof it->texts[turn][4], "XA COMMIT %s", xid);
    snprintf(it->gets[turn], sizeof it->gets[turn], "GET '%s'", key);
  }
}

static uint64_t next_number(uint64_t *state) {
  *state ^= *state << 13;
  *state ^= *state >> 7;
  *state ^= *state << 17;
  return *state;
}

/* The same text, about this row if threads use any. */
static const char *about(char *text, uint64_t row) {
  if (all_rows > 0)
    for (char *digit = text + 8 + DIGITS; digit-- != text + 8; row /= 10)
      *digit = (char)('0' + row % 10);
  return text;
}

/* The text of a statement of cycles. No two threads write the same row. */
static const char *text_of(struct worker *it, unsigned long cycle, int index) {
  char *text = it->texts[cycle % TURNS][index];
  if (all_rows == 0 || index != 1)
    return text;
  uint64_t share = (uint64_t)(all_rows / all_threads);
  return about(text, (next_number(&it->random) >> 20) % share * (uint64_t)all_threads + (uint64_t)it->number - 1);
}

static void put_rows(struct worker *it) {
  for (int turn = 0; turn < TURNS && all_rows == 0; turn++)
    say(it, it->texts[turn][1], NIGBARU_OK);
}

static void *cycle(void *worker) {
  struct worker *it = worker;
  while (!atomic_load_explicit(&stops, memory_order_relaxed)) {
    for (int index = 0; index < TEXTS; index++)
      say(it, text_of(it, it->done, index), NIGBARU_OK);
    it->done++;
  }
  return NULL;
}

static void *get(void *worker) {
  struct worker *it = worker;
  put_rows(it);
  while (!atomic_load_explicit(&stops, memory_order_relaxed)) {
    say(it, it->gets[it->done % TURNS], NIGBARU_VALUE);
    it->done++;
  }
  return NULL;
}

static void *mix5(void *worker) {
  struct worker *it = worker;
  put_rows(it);
  while (!atomic_load_explicit(&stops, memory_order_relaxed)) {
    uint64_t number = next_number(&it->random), row = all_rows > 0 ? (number >> 20) % (uint64_t)all_rows : 0;
    int turn = (int)((number >> 20) % TURNS);
    if (number % 100 < 5)
      say(it, about(it->texts[turn][1], row), NIGBARU_OK);
    else
      say(it, about(it->gets[turn], row), NIGBARU_VALUE);
    it->done++;
  }
  return NULL;
}

static uint64_t now(void) {
  struct timespec time;
  clock_gettime(CLOCK_MONOTONIC, &time);
  return (uint64_t)time.tv_sec * 1000000000u + (uint64_t)time.tv_nsec;
}

static void *timed(void *worker) {
  struct worker *it = worker;
  for (; it->done < it->wanted; it->done++) {
    uint64_t begun = now();
    say(it, text_of(it, it->done / TEXTS, (int)(it->done % TEXTS)), NIGBARU_OK);
    it->times[it->done] = now() - begun;
  }
  return NULL;
}

/* Every statement of a cycle adds an entry, so the places between two of a session are the others'. */
static void *slept(void *worker) {
  struct worker *it = worker;
  uint64_t last = say(it, it->texts[0][1], NIGBARU_OK);
  for (; it->done < it->wanted; it->done++) {
    uint64_t place = say(it, text_of(it, it->done / TEXTS, (int)(it->done % TEXTS)), NIGBARU_OK);
    it->times[it->done] = place - last - 1;
    last = place;
  }
  return NULL;
}

/* The session that the first worker has fills the store with rows, each in a statement of its own. */
static void fill(struct worker *it, long rows) {
  for (long row = 0; row < rows; row++) {
    char text[64];
    snprintf(text, sizeof text, "PUT 'row%0*ld','value%ld'", DIGITS, row, row);
    say(it, text, NIGBARU_OK);
  }
}

/* Opens a store, with a session for each worker. The store's handle isn't needed any more then. */
static void opened(long rows) {
  const char *ring = getenv("BENCH_RING");
  nigbaru_store store = NIGBARU_EMPTY;
  uint32_t status = nigbaru_open(ring == NULL ? RING : (uint64_t)atol(ring), (uint64_t)all_threads, &store);
  for (int index = 0; index < all_threads && status == NIGBARU_OK; index++) {
    workers[index].number = index + 1;
    workers[index].random = 88172645463325252u ^ ((uint64_t)(index + 1) * 7919);
    status = nigbaru_take(&store, (uint64_t)index + 1, &workers[index].session);
  }
  if (status != NIGBARU_OK)
    fail("no store", status);
  nigbaru_close(&store);
  fill(&workers[0], rows);
  /* whoever was idle meanwhile sees the rows now, and not while the time is taken */
  for (int index = 0; index < all_threads; index++)
    say(&workers[index], "PUT 'k0_0','v'", NIGBARU_OK);
}

static void start(void *(*work)(void *), long rows) {
  all_rows = rows;
  for (int index = 0; index < all_threads; index++) {
    struct worker *it = &workers[index];
    it->done = it->lost = 0;
    write_texts(it);
    if (pthread_create(&it->thread, NULL, work, it) != 0)
      fail("no thread", NIGBARU_NO_MEMORY);
  }
}

static void join(unsigned long *done, unsigned long *lost) {
  *done = *lost = 0;
  for (int index = 0; index < all_threads; index++) {
    pthread_join(workers[index].thread, NULL);
    *done += workers[index].done;
    *lost += workers[index].lost;
  }
}

static void closed(void) {
  for (int index = 0; index < all_threads; index++)
    nigbaru_leave(&workers[index].session);
}

/* Prints what threads do a second. */
static void print_rate(const char *name, void *(*work)(void *), double seconds, long rows) {
  unsigned long done, lost;
  struct timespec pause = {(time_t)seconds, (long)((seconds - (double)(time_t)seconds) * 1e9)};
  atomic_store(&stops, 0);
  uint64_t begun = now();
  start(work, rows);
  nanosleep(&pause, NULL);
  atomic_store(&stops, 1);
  join(&done, &lost);
  double taken = (double)(now() - begun) / 1e9;
  printf("%s threads=%d per_s=%.0f lost=%lu done=%lu\n", name, all_threads, (double)done / taken, lost, done);
}

static int by_time(const void *one, const void *other) {
  uint64_t a = *(const uint64_t *)one, b = *(const uint64_t *)other;
  return (a > b) - (a < b);
}

static void print_each(const char *name, void *(*work)(void *), unsigned long statements, long rows) {
  unsigned long each = statements / (unsigned long)all_threads / TEXTS * TEXTS; /* so that no branch is left open */
  unsigned long count = each * (unsigned long)all_threads, unused;
  uint64_t *times = calloc(count, sizeof *times);
  if (times == NULL || count == 0)
    fail("no memory", NIGBARU_NO_MEMORY);
  for (int index = 0; index < all_threads; index++) {
    workers[index].wanted = each;
    workers[index].times = times + each * (unsigned long)index;
  }
  start(work, rows);
  join(&unused, &unused);
  qsort(times, count, sizeof *times, by_time);
  unsigned long middle = times[count / 2], p999 = times[count - 1 - count / 1000], most = times[count - 1];
  if (work == timed)
    printf("%s threads=%d p999_ns=%lu longest_ns=%lu\n", name, all_threads, p999, most);
  else
    printf("%s threads=%d middle=%lu p999=%lu most=%lu\n", name, all_threads, middle, p999, most);
  free(times);
}

static const struct mode { const char *name; void *(*work)(void *); int is_each, is_all; } modes[] = {
    {"cycle", cycle, 0, 0}, {"cycle-all", cycle, 0, 1}, {"get", get, 0, 0}, {"mix5", mix5, 0, 0},
    {"mix5-all", mix5, 0, 1}, {"times", timed, 1, 0}, {"times-all", timed, 1, 1}, {"slept", slept, 1, 0}};

static const struct mode *mode_of(const char *name) {
  for (size_t index = 0; index < sizeof modes / sizeof *modes; index++)
    if (strcmp(name, modes[index].name) == 0)
      return &modes[index];
  return NULL;
}

/* Does what a mode says, in the store that is open. Returns 0 if there is no such mode, or it needs rows. */
static int is_done(const char *name, double much, long rows) {
  const struct mode *mode = mode_of(name);
  if (mode == NULL || (mode->is_all && rows < all_threads))
    return 0;
  if (mode->is_each)
    print_each(name, mode->work, (unsigned long)much, mode->is_all ? rows : 0);
  else
    print_rate(name, mode->work, much, mode->is_all ? rows : 0);
  return 1;
}

int main(int count, char **words) {
  all_threads = count == 5 ? atoi(words[2]) : 0;
  double much = count == 5 ? atof(words[3]) : 0;
  long rows = count == 5 ? atol(words[4]) : -1;
  int is_right = all_threads >= 1 && all_threads <= 16 && much > 0 && rows >= 0;
  if (is_right)
    opened(rows);
  for (char *name = is_right ? strtok(words[1], ",") : NULL; name != NULL && is_right; name = strtok(NULL, ","))
    is_right = is_done(name, much, rows);
  if (is_right) {
    closed();
    return 0;
  }
  fprintf(stderr, "bench MODE[,MODE..] THREADS SECONDS ROWS, or bench times|times-all|slept THREADS STATEMENTS ROWS\n");
  return 2;
}
