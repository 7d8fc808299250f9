/* A session that slept for many rounds of the ring answers its next statement at the first try:
   late TRIES ROUNDS RING ROWS [SECONDS]

   Fifteen threads commit branches over ROWS rows, and never pause. A sixteenth session sleeps until they have added so
   many rounds of the ring, and reads a row by a single nigbaru_attempt. Then it sleeps for half a round, after which
   nothing that it needs is overwritten yet, and reads a row in the same way: the control. So it goes TRIES times, or
   until SECONDS have gone by. A `GET` outside of a branch adds nothing, so it can't be overtaken: it is answered, or the
   session is behind, and tries again. On a busy machine it may lose its processor in the middle of a try, and be behind
   for that reason, as the system counts it: such a try says nothing. With 50 others or more the test fails if they are
   behind more often than those of the control, by more than one in fifty and one besides. With fewer it only prints how
   often they were. It fails, too, if a read takes 30 seconds.

   No call of nigbaru.h says how many entries were replayed for an answer, so they are counted by what they allocate. A
   branch of one `PUT` that is replayed takes one block for the value. A copy of a checkpoint shares values, and takes
   none. How large such a block is, is found at first: a known number of branches is replayed. So the counts are exact
   but for some entries of branches that are replayed in part. The test is linked with --wrap for malloc. */
#define _GNU_SOURCE /* for RUSAGE_THREAD */

#include "nigbaru.h"

#include "check.h"

#include <pthread.h>
#include <sched.h>
#include <stdatomic.h>
#include <sys/resource.h>
#include <time.h>

#define WORKERS 15
#define LATE 15 /* the place of the session that sleeps, after the workers */
#define TEXTS 5 /* entries of a branch */
#define KNOWN 5 /* branches that are replayed to find the size of a block: too few to go on from a checkpoint */
#define PROBES 16
#define SIZES 512 /* blocks are counted up to this size */
#define KINDS 2
#define SLOWEST 30000000 /* microseconds */
#define JUDGED 50 /* tries that say something, from which on it is judged how many were behind */

struct worker {
  pthread_t thread;
  nigbaru_session session;
  int number;
  unsigned long cycles, random, yielded;
  char apart[128];
};

/* What was found at the tries of a kind. */
static struct found {
  const char *name;
  int behind; /* at the first try */
  int lost; /* behind, since it lost its processor */
  unsigned long *replayed, *times; /* branches, about; microseconds */
} kinds[KINDS] = {{.name = "late"}, {.name = "control"}};

static struct worker workers[WORKERS + 1];
static unsigned long ring;
static long rows;
static size_t block; /* the size of a block that each replayed branch takes */
static atomic_ulong length; /* of the history, about */
static atomic_int is_over;

static _Thread_local unsigned long blocks[SIZES + 1];

void *__real_malloc(size_t size);

void *__wrap_malloc(size_t size) {
  if (size <= SIZES)
    blocks[size]++;
  return __real_malloc(size);
}

static unsigned long now(void) {
  struct timespec time;
  clock_gettime(CLOCK_MONOTONIC, &time);
  return (unsigned long)time.tv_sec * 1000000 + (unsigned long)time.tv_nsec / 1000;
}

static void ends_unless(int is_so, const struct worker *it, const char *text, uint32_t status) {
  if (is_so)
    return;
  fprintf(stderr, "%d %s: %s\n", it->number, text, nigbaru_text(status));
  exit(1);
}

/* Whoever has seen a quarter of the ring yields, as nigbaru_seat_run does. */
static void say(struct worker *it, const char *text) {
  nigbaru_answer answer;
  uint32_t status = nigbaru_run(&it->session, text, strlen(text), &answer, NULL, 0, 0);
  ends_unless(status == NIGBARU_OK, it, text, status);
  atomic_store_explicit(&length, answer.place + 1, memory_order_relaxed);
  if (answer.place >= it->yielded + ring / 4) {
    it->yielded = answer.place;
    sched_yield();
  }
}

/* A branch that writes one of this worker's rows. */
static void branch(struct worker *it) {
  static const char *const forms[] = {"XA START 'g%d_%ld'", NULL, "XA END 'g%d_%ld'", "XA PREPARE 'g%d_%ld'",
                                      "XA COMMIT 'g%d_%ld'"};
  char text[96];
  it->cycles++;
  it->random = it->random * 6364136223846793005u + 1442695040888963407u;
  long row = (long)((it->random >> 33) % ((unsigned long)rows / WORKERS)) * WORKERS + it->number - 1;
  for (int index = 0; index < TEXTS; index++) {
    if (forms[index] == NULL)
      snprintf(text, sizeof text, "PUT 'row%07ld','new%d_%ld'", row, it->number, it->cycles);
    else
      snprintf(text, sizeof text, forms[index], it->number, it->cycles);
    say(it, text);
  }
}

static void *works(void *worker) {
  while (!atomic_load(&is_over))
    branch(worker);
  return NULL;
}

static void open_store(void) {
  nigbaru_store store = NIGBARU_EMPTY;
  SAME(nigbaru_open(ring, WORKERS + 1, &store), NIGBARU_OK);
  for (int index = 0; index <= WORKERS; index++) {
    workers[index].number = index + 1;
    workers[index].random = (unsigned long)index * 7919;
    SAME(nigbaru_take(&store, (uint64_t)index + 1, &workers[index].session), NIGBARU_OK);
  }
  SAME(nigbaru_close(&store), NIGBARU_OK);
  for (long row = 0; row < rows; row++) {
    char text[64];
    snprintf(text, sizeof text, "PUT 'row%07ld','value%ld'", row, row);
    say(&workers[0], text);
  }
}

/* How often this thread had to make room for another. */
static long losses(void) {
  struct rusage used;
  SAME(getrusage(RUSAGE_THREAD, &used), 0);
  return used.ru_nivcsw;
}

/* How the first try of a read ended. */
enum first { ANSWERED, BEHIND, LOST };

/* Reads a row. */
static enum first reads(unsigned long *replayed, unsigned long *time) {
  struct worker *it = &workers[LATE];
  nigbaru_answer answer;
  long lost = losses();
  unsigned long begun = now(), before = blocks[block];
  uint32_t status = nigbaru_attempt(&it->session, "GET 'row0000000'", 16, &answer, NULL, 0);
  enum first first = status == NIGBARU_VALUE ? ANSWERED : losses() == lost ? BEHIND : LOST;
  while (status == NIGBARU_BEHIND) {
    CHECK(now() - begun < SLOWEST);
    sched_yield();
    status = nigbaru_attempt(&it->session, "GET 'row0000000'", 16, &answer, NULL, 0);
  }
  *time = now() - begun;
  *replayed = blocks[block] - before;
  ends_unless(status == NIGBARU_VALUE, it, "GET", status);
  return first;
}

/* Finds the size of the block that each replayed branch takes: the one of which there are `KNOWN` most often. */
static void find_block(void) {
  unsigned long some, hits[SIZES + 1] = {0};
  for (int probe = 0; probe < PROBES; probe++) {
    reads(&some, &some);
    for (int turn = 0; turn < KNOWN; turn++)
      branch(&workers[0]);
    memset(blocks, 0, sizeof blocks);
    reads(&some, &some);
    for (size_t size = 1; size <= SIZES; size++)
      hits[size] += blocks[size] == KNOWN;
  }
  for (size_t size = 1; size <= SIZES; size++)
    if (hits[size] > hits[block])
      block = size;
  CHECK(hits[block] > PROBES / 2);
}

static void sleep_until(unsigned long wanted) {
  while (atomic_load(&length) < wanted) {
    struct timespec time = {0, 50000};
    nanosleep(&time, NULL);
  }
}

static int in_order(const void *one, const void *other) {
  unsigned long a = *(const unsigned long *)one, b = *(const unsigned long *)other;
  return (a > b) - (a < b);
}

static void tell(struct found *it, int tries) {
  qsort(it->replayed, (size_t)tries, sizeof *it->replayed, in_order);
  qsort(it->times, (size_t)tries, sizeof *it->times, in_order);
  int last = tries - 1, most = last - tries / 100;
  printf("%s: %d of %d answered at the first try, %d behind since they lost their processor; entries replayed: "
         "middle %lu, 99 of 100 at most %lu, most %lu; microseconds: %lu, %lu, %lu\n",
         it->name, tries - it->behind - it->lost, tries, it->lost, TEXTS * it->replayed[tries / 2],
         TEXTS * it->replayed[most], TEXTS * it->replayed[last], it->times[tries / 2], it->times[most],
         it->times[last]);
}

/* Returns how many tries there were. */
static int try_each(int tries, unsigned long rounds, unsigned long seconds) {
  unsigned long begun = now();
  int turn = 0;
  for (; turn < tries && (turn == 0 || now() - begun < seconds * 1000000); turn++) {
    for (int kind = 0; kind < KINDS; kind++) {
      struct found *it = &kinds[kind];
      sleep_until(atomic_load(&length) + (kind == 0 ? rounds * ring : ring / 2));
      enum first first = reads(&it->replayed[turn], &it->times[turn]);
      it->behind += first == BEHIND;
      it->lost += first == LOST;
    }
  }
  return turn;
}

int main(int count, char **words) {
  CHECK(count == 5 || count == 6);
  int tries = atoi(words[1]);
  ring = (unsigned long)atol(words[3]);
  rows = atol(words[4]);
  CHECK(tries > 0 && rows >= WORKERS);
  for (int kind = 0; kind < KINDS; kind++) {
    kinds[kind].replayed = calloc((size_t)tries, sizeof *kinds[kind].replayed);
    kinds[kind].times = calloc((size_t)tries, sizeof *kinds[kind].times);
    CHECK(kinds[kind].replayed != NULL && kinds[kind].times != NULL);
  }
  open_store();
  find_block();
  for (int index = 0; index < WORKERS; index++)
    SAME(pthread_create(&workers[index].thread, NULL, works, &workers[index]), 0);
  unsigned long begun = now();
  tries = try_each(tries, (unsigned long)atol(words[2]), count == 6 ? (unsigned long)atol(words[5]) : 86400);
  double taken = (double)(now() - begun) / 1e6;
  atomic_store(&is_over, 1);
  for (int index = 0; index < WORKERS; index++)
    SAME(pthread_join(workers[index].thread, NULL), 0);
  printf("%s rounds of a ring of %lu, %ld rows: %.1f million entries in %.0f s\n", words[2], ring, rows,
         (double)atomic_load(&length) / 1e6, taken);
  for (int kind = 0; kind < KINDS; kind++) {
    tell(&kinds[kind], tries);
    free(kinds[kind].replayed);
    free(kinds[kind].times);
  }
  for (int index = 0; index <= WORKERS; index++)
    SAME(nigbaru_leave(&workers[index].session), NIGBARU_OK);
  int judged = tries - kinds[0].lost;
  return judged >= JUDGED && kinds[0].behind > kinds[1].behind + 1 + judged / 50;
}
