/* How much memory a store takes that is at work for long: memory ROWS SECONDS ENTRIES [all]

   The store has ROWS rows and a ring of 16,384. Fifteen sessions commit branches, and one sleeps meanwhile that has
   seen all rows: a store has sixteen. Each of the fifteen writes a hundred rows over and over, or with `all` any of the
   rows. They end after ENTRIES entries or SECONDS, whichever comes first. What the process has in memory then, less
   what it had before the store was opened, may be as much as the ring takes and what `bounds` has for so many rows.
   Then the one that slept reads what each of the others wrote last. */
#include "nigbaru_shared.h"

#include "check.h"

#include <malloc.h>
#include <pthread.h>
#include <stdatomic.h>
#include <time.h>
#include <unistd.h>

#define RING 16384
#define WORKERS 15
#define SESSIONS 16
#define CHECKPOINTS 4
#define OWN 100     /* rows that a session writes over and over */
#define PEACE 50    /* milliseconds between two looks at the memory */
#define MB 1000000L

/* Megabytes beside the ring: what the test asks for, if each thread writes a hundred rows or if all rows are written, and
   what a store should take at most in both cases. If all rows are written, half of the memory and more may be what
   glibc's allocator keeps for later, and how much that is depends on what else the machine does. */
static const struct bound { long rows, held, held_all, aimed; } bounds[] = {
    {100000, 30, 80, 50}, {1000000, 80, 200, 200}};

struct worker {
  pthread_t thread;
  nigbaru_seat seat;
  int number;
  unsigned long cycles;
  long last; /* the row that it committed last */
  char apart[128];
};

static nigbaru_shared *shared;
static struct worker workers[SESSIONS];
static long rows;
static int is_all;
static unsigned long wanted;
static atomic_ulong length; /* of the history, about */
static atomic_int is_over, at_work;

static void pause_for(long milliseconds) {
  struct timespec time = {milliseconds / 1000, milliseconds % 1000 * 1000000};
  nanosleep(&time, NULL);
}

/* How many bytes of the process are in memory. */
static long resident(void) {
  long size = 0, pages = 0;
  FILE *file = fopen("/proc/self/statm", "r");
  CHECK(file != NULL && fscanf(file, "%ld %ld", &size, &pages) == 2);
  fclose(file);
  return pages * sysconf(_SC_PAGESIZE);
}

/* How many bytes of blocks are in use, without those that glibc's allocator keeps for later. */
static long in_use(void) {
  struct mallinfo2 info = mallinfo2();
  return (long)(info.uordblks + info.hblkhd);
}

static uint64_t say(struct worker *it, const char *text, uint32_t status, const char *value) {
  nigbaru_answer answer;
  uint32_t got = nigbaru_seat_run(&it->seat, text, strlen(text), &answer, NULL, 0);
  if (got != status) {
    fprintf(stderr, "%d %s: %s (%u)\n", it->number, text, nigbaru_text(got), answer.error);
    exit(1);
  }
  if (value != NULL) {
    SAME(answer.length, strlen(value));
    SAME(memcmp(answer.value, value, strlen(value)), 0);
  }
  return answer.place;
}

/* The row of a cycle. Each session has rows of its own, so that none meets another's lock. */
static long row_of(const struct worker *it) {
  unsigned long each = is_all ? (unsigned long)rows / WORKERS : OWN, random = it->cycles * 2654435761u % 4294967296u;
  return (long)((is_all ? random : it->cycles) % each) * WORKERS + it->number - 1;
}

static void *works(void *worker) {
  struct worker *it = worker;
  while (!atomic_load(&is_over)) {
    char text[96];
    static const char *const forms[] = {"XA START 'g%d_%ld'", NULL, "XA END 'g%d_%ld'", "XA PREPARE 'g%d_%ld'",
                                        "XA COMMIT 'g%d_%ld'"};
    it->cycles++;
    it->last = row_of(it);
    for (int index = 0; index < 5; index++) {
      if (index == 1)
        snprintf(text, sizeof text, "PUT 'row%07ld','new%d_%ld'", it->last, it->number, it->cycles);
      else
        snprintf(text, sizeof text, forms[index], it->number, it->cycles);
      atomic_store_explicit(&length, say(it, text, NIGBARU_OK, NULL), memory_order_relaxed);
    }
    if (atomic_load_explicit(&length, memory_order_relaxed) >= wanted)
      break;
  }
  atomic_fetch_sub(&at_work, 1);
  return NULL;
}

/* All sessions have seen all rows when the work begins. */
static void open_store(void) {
  char text[64];
  SAME(nigbaru_shared_open(RING, SESSIONS, &shared), NIGBARU_OK);
  for (int index = 0; index < SESSIONS; index++) {
    workers[index].number = index + 1;
    SAME(nigbaru_seat_take(shared, (uint64_t)index + 1, &workers[index].seat), NIGBARU_OK);
  }
  for (long row = 0; row < rows; row++) {
    snprintf(text, sizeof text, "PUT 'row%07ld','value%ld'", row, row);
    SAME(say(&workers[0], text, NIGBARU_OK, NULL), row);
  }
  for (int index = 0; index < SESSIONS; index++)
    say(&workers[index], "GET 'row0000000'", NIGBARU_VALUE, "value0");
}

/* Has the fifteen work, and returns the most memory that was seen meanwhile. */
static long work(long seconds) {
  long most = 0;
  atomic_store(&at_work, WORKERS);
  for (int index = 0; index < WORKERS; index++)
    SAME(pthread_create(&workers[index].thread, NULL, works, &workers[index]), 0);
  for (long turn = 0; atomic_load(&at_work) > 0; turn++) {
    long now = resident();
    most = now > most ? now : most;
    if (turn * PEACE >= seconds * 1000)
      atomic_store(&is_over, 1);
    pause_for(PEACE);
  }
  for (int index = 0; index < WORKERS; index++)
    SAME(pthread_join(workers[index].thread, NULL), 0);
  return most;
}

static void wake(void) {
  for (int index = 0; index < WORKERS; index++) {
    char text[64], value[64];
    snprintf(text, sizeof text, "GET 'row%07ld'", workers[index].last);
    snprintf(value, sizeof value, "new%d_%lu", index + 1, workers[index].cycles);
    say(&workers[WORKERS], text, NIGBARU_VALUE, value);
  }
}

int main(int count, char **words) {
  const struct bound *bound = bounds;
  const long ring = 8 + 184L * RING * (SESSIONS + CHECKPOINTS);
  CHECK(count == 4 || (count == 5 && strcmp(words[4], "all") == 0));
  is_all = count == 5;
  rows = atol(words[1]);
  while (bound < bounds + sizeof bounds / sizeof *bounds && bound->rows != rows)
    bound++;
  CHECK(bound < bounds + sizeof bounds / sizeof *bounds);
  long before = resident();
  open_store();
  long filled = resident() - before;
  wanted = (unsigned long)(rows + atol(words[3]));
  long most = work(atol(words[2])) - before, after = resident() - before, blocks = in_use();
  wake();
  long held = is_all ? bound->held_all : bound->held;
  printf("%ld rows, %s: %.1f million entries; beside the ring's %ld MB: %ld MB when filled, %ld at most, %ld at the end, "
         "of which blocks in use %ld, and %ld once all are awake; held %ld, aimed at %ld\n",
         rows, is_all ? "all written" : "few written", ((double)atomic_load(&length) - (double)rows) / 1e6, ring / MB,
         (filled - ring) / MB, (most - ring) / MB, (after - ring) / MB, (blocks - ring) / MB,
         (resident() - before - ring) / MB, held, bound->aimed);
  for (int index = 0; index < SESSIONS; index++)
    SAME(nigbaru_seat_leave(&workers[index].seat), NIGBARU_OK);
  SAME(nigbaru_shared_close(shared), NIGBARU_OK);
  return after - ring > held * MB;
}
