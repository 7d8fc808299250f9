/* Stops one thread after another, each at a random instruction of a statement and for 200 ms at least:
   stopped [outside] STOPS ROWS STORE_ROWS [STOPS ROWS STORE_ROWS]..

   A signal's handler waits. If the thread isn't in a statement, it is let go, and gets another signal a moment later.
   While it is stopped, each other thread has to have a statement answered that it asks after the stop, also one that
   sleeps until the ring has gone round, and is behind at each statement. One that hasn't within ten seconds counts as
   waiting for the stopped thread. At the end each row is what its thread committed last. The store has STORE_ROWS rows
   more, which nobody touches. For each three numbers there is a store of its own.

   A stop is a stall if a statement of another thread takes more than 120 ms of the 200. So it is if that thread waits
   for a processor. For that reason each stop is followed by 200 ms in which nobody is stopped, judged in the same way.
   If there are more stalls with stops than without, in all, than chance explains once in a hundred times, all is tried
   again, and again if need be. The test fails if it was so three times, which chance explains once in a million times.

   So it is over an allocator without locks, such as mimalloc. In others a thread that is stopped in malloc, realloc or
   free may have a lock that the others need there (docs/EMBEDDING.md#threads). With `outside`, for these, a thread that
   the signal finds there is let go, too. Nothing less is asked of the others.

   The test is linked with --wrap for these three, so that it knows when a thread is there. */
#include "nigbaru_shared.h"

#include "check.h"

#include <pthread.h>
#include <sched.h>
#include <signal.h>
#include <stdatomic.h>
#include <time.h>

#define WORKERS 6
#define THREADS (WORKERS + 1)
#define PATIENCE 10000 /* milliseconds */
#define STOP 200 /* milliseconds */
#define STALL 120 /* milliseconds */
#define CHANCE 0.01 /* it is tried again if chance has so many more stalls with stops more seldom than that */
#define TRIES 3

struct worker {
  pthread_t thread;
  nigbaru_seat seat;
  int number;
  long cycles;
  atomic_ulong asked, answered; /* statements */
  atomic_ulong since, longest; /* when it asked, or 0; how long it waited at most from `watched` on, in microseconds */
  char apart[128];
};

static nigbaru_shared *shared;
static struct worker workers[THREADS];
static unsigned long rows;
static atomic_int is_outside; /* whether threads are stopped only outside of the allocator */
static atomic_int stopped_at, released_at, is_over; /* numbers of stops */
static atomic_int let_go; /* how many signals stopped nobody */
static atomic_int begun; /* threads */
static int longest; /* milliseconds that others took beyond the 200, about */
static atomic_ulong added; /* entries, about */
static atomic_ulong watched; /* since when statements are timed, in microseconds */

static void pause_for(long milliseconds) {
  struct timespec time = {milliseconds / 1000, milliseconds % 1000 * 1000000};
  nanosleep(&time, NULL);
}

static unsigned long now(void) {
  struct timespec time;
  clock_gettime(CLOCK_MONOTONIC, &time);
  return (unsigned long)time.tv_sec * 1000000 + (unsigned long)time.tv_nsec / 1000;
}

/* Whether the thread is in a statement, and in the allocator; its own signal handler reads it. */
static _Thread_local atomic_int is_asking, is_allocating;

void *__real_malloc(size_t size);
void *__real_realloc(void *block, size_t size);
void __real_free(void *block);

void *__wrap_malloc(size_t size) {
  atomic_store(&is_allocating, 1);
  void *block = __real_malloc(size);
  atomic_store(&is_allocating, 0);
  return block;
}

void *__wrap_realloc(void *block, size_t size) {
  atomic_store(&is_allocating, 1);
  void *moved = __real_realloc(block, size);
  atomic_store(&is_allocating, 0);
  return moved;
}

void __wrap_free(void *block) {
  atomic_store(&is_allocating, 1);
  __real_free(block);
  atomic_store(&is_allocating, 0);
}

static void wait_here(int signal) {
  (void)signal;
  if (!atomic_load(&is_asking) || (atomic_load(&is_outside) && atomic_load(&is_allocating))) {
    atomic_fetch_add(&let_go, 1);
    return;
  }
  int number = atomic_fetch_add(&stopped_at, 1) + 1;
  while (atomic_load(&released_at) < number)
    pause_for(1);
}

/* How long a statement has been asked by now, from `watched` on. */
static unsigned long waited_for(unsigned long since) {
  unsigned long from = atomic_load(&watched), until = now();
  if (since > from)
    from = since;
  return until > from ? until - from : 0;
}

static void say(struct worker *it, const char *text, uint32_t wanted) {
  nigbaru_answer answer;
  atomic_store(&it->since, now());
  atomic_fetch_add(&it->asked, 1);
  atomic_store(&is_asking, 1);
  uint32_t status = nigbaru_seat_run(&it->seat, text, strlen(text), &answer, NULL, 0);
  atomic_store(&is_asking, 0);
  if (status != wanted) {
    fprintf(stderr, "%d %s: %s (%u)\n", it->number, text, nigbaru_text(status), answer.error);
    exit(1);
  }
  unsigned long took = waited_for(atomic_exchange(&it->since, 0));
  if (took > atomic_load(&it->longest))
    atomic_store(&it->longest, took);
  atomic_fetch_add(&it->answered, 1);
}

/* A branch that writes the own row, in two phases. */
static void *works(void *worker) {
  struct worker *it = worker;
  atomic_fetch_add(&begun, 1);
  while (!atomic_load(&is_over)) {
    char text[64];
    static const char *const forms[] = {"XA START 'g%d_%ld'", "PUT 'own%d','%ld'", "XA END 'g%d_%ld'",
                                        "XA PREPARE 'g%d_%ld'", "XA COMMIT 'g%d_%ld'"};
    it->cycles++;
    for (int index = 0; index < 5; index++) {
      snprintf(text, sizeof text, forms[index], it->number, it->cycles);
      say(it, text, NIGBARU_OK);
    }
    atomic_fetch_add(&added, 5);
  }
  return NULL;
}

/* Sleeps until others have added more entries than the ring has, and writes its row. */
static void *sleeps(void *worker) {
  struct worker *it = worker;
  atomic_fetch_add(&begun, 1);
  while (!atomic_load(&is_over)) {
    char text[64];
    unsigned long until = atomic_load(&added) + rows + rows / 4 + 64;
    while (atomic_load(&added) < until && !atomic_load(&is_over))
      pause_for(1);
    it->cycles++;
    snprintf(text, sizeof text, "PUT 'own%d','%ld'", it->number, it->cycles);
    say(it, text, NIGBARU_OK);
  }
  return NULL;
}

static void open_store(long store_rows) {
  SAME(nigbaru_shared_open(rows, THREADS, &shared), NIGBARU_OK);
  for (int index = 0; index < THREADS; index++) {
    workers[index].number = index + 1;
    SAME(nigbaru_seat_take(shared, 0, &workers[index].seat), NIGBARU_OK);
  }
  for (long row = 0; row < store_rows; row++) {
    char text[64];
    snprintf(text, sizeof text, "PUT 'row%ld','%ld'", row, row);
    say(&workers[0], text, NIGBARU_OK);
  }
}

/* A thread other than the stopped one that has had no statement answered that it asked since; -1 if there is none.
   `before` has how many each had asked. */
static int idle_of(int stopped, const unsigned long *before) {
  int idle = -1;
  for (int index = 0; index < THREADS; index++) {
    if (index != stopped && atomic_load(&workers[index].answered) <= before[index])
      idle = index;
  }
  return idle;
}

/* Sends a thread signals until one stops it. */
static void bring_to_stop(int stopped, int number) {
  while (atomic_load(&stopped_at) < number) {
    int gone = atomic_load(&let_go);
    SAME(pthread_kill(workers[stopped].thread, SIGUSR1), 0);
    while (atomic_load(&stopped_at) < number && atomic_load(&let_go) == gone)
      sched_yield();
    if (atomic_load(&stopped_at) < number)
      pause_for(1);
  }
}

/* What was found: how many stops kept others from going on for `PATIENCE`, how many were stalls, and how many of as
   many times without a stop. */
struct found {
  int stops, kept, stalls, stalls_without;
};

/* From now on statements are timed. */
static void watch(void) {
  atomic_store(&watched, now());
  for (int index = 0; index < THREADS; index++)
    atomic_store(&workers[index].longest, 0);
}

/* Whether a statement of a thread other than this one has taken too long since `watch`, also one that isn't answered
   yet. */
static int is_stalled(int besides) {
  for (int index = 0; index < THREADS; index++) {
    unsigned long since = atomic_load(&workers[index].since), most = atomic_load(&workers[index].longest);
    unsigned long waits = since == 0 ? 0 : waited_for(since);
    if (index != besides && (most > STALL * 1000 || waits > STALL * 1000))
      return 1;
  }
  return 0;
}

/* Stops a thread for 200 ms, and longer while another hasn't gone on yet. Returns one that hasn't at the end, or -1. */
static int stop(int stopped, struct found *found) {
  unsigned long before[THREADS];
  int idle, number = atomic_load(&stopped_at) + 1;
  bring_to_stop(stopped, number);
  for (int index = 0; index < THREADS; index++)
    before[index] = atomic_load(&workers[index].asked);
  watch();
  pause_for(STOP);
  found->stalls += is_stalled(stopped);
  int waited = 0;
  for (; (idle = idle_of(stopped, before)) >= 0 && waited < PATIENCE; waited++)
    pause_for(1);
  if (waited > longest)
    longest = waited;
  atomic_store(&released_at, number);
  return idle;
}

static void pause_at_random(void) {
  static unsigned random = 12345;
  random = random * 1103515245u + 12345u;
  pause_for(1 + (long)(random >> 16) % 7);
}

/* As many stops as are asked for, and as many times in which nobody is stopped. */
static void stop_each(struct found *found) {
  for (int turn = 0; turn < found->stops; turn++) {
    pause_at_random();
    int stopped = turn % THREADS, idle = stop(stopped, found);
    if (idle >= 0)
      fprintf(stderr, "thread %d was stopped, and thread %d had no answer\n", stopped + 1, idle + 1);
    found->kept += idle >= 0;
    pause_at_random();
    watch();
    pause_for(STOP);
    found->stalls_without += is_stalled(stopped);
  }
}

static void check_rows(void) {
  for (int index = 0; index < THREADS; index++) {
    struct worker *it = &workers[index];
    char text[64], wanted[64];
    nigbaru_answer answer;
    int length = snprintf(wanted, sizeof wanted, "%ld", it->cycles);
    snprintf(text, sizeof text, "GET 'own%d'", it->number);
    SAME(nigbaru_seat_run(&workers[0].seat, text, strlen(text), &answer, NULL, 0), NIGBARU_VALUE);
    SAME(answer.length, length);
    SAME(memcmp(answer.value, wanted, (size_t)length), 0);
    CHECK(it->cycles > 0);
  }
}

/* One store, from its opening to its close. */
static void try_store(int stops, unsigned long ring, long store_rows, struct found *all) {
  struct found found = {.stops = stops};
  memset(workers, 0, sizeof workers);
  rows = ring;
  longest = 0;
  atomic_store(&begun, 0);
  atomic_store(&is_over, 0);
  atomic_store(&let_go, 0);
  atomic_store(&added, 0);
  open_store(store_rows);
  for (int index = 0; index < THREADS; index++)
    SAME(pthread_create(&workers[index].thread, NULL, index < WORKERS ? works : sleeps, &workers[index]), 0);
  /* (a sanitizer takes memory while a thread begins) */
  while (atomic_load(&begun) < THREADS)
    pause_for(1);
  stop_each(&found);
  atomic_store(&is_over, 1);
  for (int index = 0; index < THREADS; index++)
    SAME(pthread_join(workers[index].thread, NULL), 0);
  check_rows();
  printf("ring of %lu, %ld rows: %d of %d stops kept others from going on; others took up to about %d ms\n", ring,
         store_rows, found.kept, stops, STOP + longest);
  printf("stalls: %d with stops, %d without; %d signals were let go; %lu statements, %ld of the one that sleeps\n",
         found.stalls, found.stalls_without, atomic_load(&let_go), atomic_load(&added), workers[WORKERS].cycles);
  for (int index = 0; index < THREADS; index++)
    SAME(nigbaru_seat_leave(&workers[index].seat), NIGBARU_OK);
  SAME(nigbaru_shared_close(shared), NIGBARU_OK);
  all->stops += stops;
  all->kept += found.kept;
  all->stalls += found.stalls;
  all->stalls_without += found.stalls_without;
}

/* How often so many heads or more come of so many throws of a coin. */
static double chance_of(int heads, int throws) {
  long double ways = 1, each = 1, sum = 0; /* `ways` of having `count` heads */
  for (int count = 0; count < throws; count++)
    each /= 2;
  for (int count = 0; count <= throws; ways = ways * (throws - count) / (count + 1), count++)
    sum += count < heads ? 0 : ways * each;
  return (double)sum;
}

/* Tries a store for each three numbers, and returns how often chance has as many stalls with stops, or -1 if a stop
   kept others from going on. */
static double try_all(int count, char **numbers) {
  struct found all = {0};
  for (int index = 0; index < count; index += 3)
    try_store(atoi(numbers[index]), (unsigned long)atol(numbers[index + 1]), atol(numbers[index + 2]), &all);
  /* If stops made no difference, each stall would as likely be without one. */
  double chance = chance_of(all.stalls, all.stalls + all.stalls_without);
  printf("in all %d stops: %d kept others from going on; stalls: %d with stops, %d without (by chance: %.3f)\n",
         all.stops, all.kept, all.stalls, all.stalls_without, chance);
  return all.kept > 0 ? -1 : chance;
}

int main(int count, char **words) {
  struct sigaction action = {.sa_handler = wait_here, .sa_flags = SA_RESTART};
  int is_given = count > 1 && strcmp(words[1], "outside") == 0, numbers = count - 1 - is_given;
  atomic_store(&is_outside, is_given);
  CHECK(numbers > 0 && numbers % 3 == 0);
  SAME(sigaction(SIGUSR1, &action, NULL), 0);
  double chance = 0;
  for (int tries = 0; tries < TRIES && chance >= 0 && chance < CHANCE; tries++)
    chance = try_all(numbers, words + count - numbers);
  return chance < CHANCE;
}
