/* Seats: taken and given back by many threads at once, each by one at a time; handles that are stale, copied, empty or
   another thread's; a store that is closed while seats are taken: seats [TURNS] */
#include "nigbaru_shared.h"

#include "check.h"

#include <pthread.h>
#include <sched.h>
#include <stdatomic.h>

#define SEATS 4
#define THREADS 12

static nigbaru_shared *shared;
static atomic_int holders[SEATS + 1];
static int turns = 400;

static uint32_t run(const nigbaru_seat *seat, const char *text) {
  nigbaru_answer answer;
  return nigbaru_seat_run(seat, text, strlen(text), &answer, NULL, 0);
}

/* ---- one thread ---- */

/* Each call with a seat that is none: null, zeros, given back. */
static void refuses(const nigbaru_seat *seat, uint32_t wanted) {
  nigbaru_entry entry;
  SAME(run(seat, "GET 'k'"), wanted);
  SAME(nigbaru_seat_follow(seat, &entry), wanted);
  SAME(nigbaru_seat_leave(seat), wanted);
}

static void wrong_calls(void) {
  const nigbaru_seat none = {NULL, 0, 0};
  nigbaru_seat seat;
  SAME(nigbaru_shared_open(8, 2, NULL), NIGBARU_NO_POINTER);
  SAME(nigbaru_shared_open(0, 2, &shared), NIGBARU_OUT_OF_RANGE);
  SAME(nigbaru_shared_open(65537, 2, &shared), NIGBARU_OUT_OF_RANGE);
  SAME(nigbaru_shared_open(8, 0, &shared), NIGBARU_OUT_OF_RANGE);
  SAME(nigbaru_shared_open(8, 17, &shared), NIGBARU_OUT_OF_RANGE);
  SAME(nigbaru_shared_open(8, 2, &shared), NIGBARU_OK);
  SAME(nigbaru_seat_take(NULL, 0, &seat), NIGBARU_NO_POINTER);
  SAME(nigbaru_seat_take(shared, 0, NULL), NIGBARU_NO_POINTER);
  SAME(nigbaru_seat_take(shared, 3, &seat), NIGBARU_OUT_OF_RANGE);
  SAME(nigbaru_seat_take(shared, UINT64_MAX, &seat), NIGBARU_OUT_OF_RANGE);
  SAME(nigbaru_seat_number(&none), 0);
  SAME(nigbaru_seat_number(NULL), 0);
  refuses(&none, NIGBARU_NO_HANDLE);
  refuses(NULL, NIGBARU_NO_POINTER);
  SAME(nigbaru_shared_close(NULL), NIGBARU_NO_POINTER);
}

/* A handle that was given back does nothing to whoever has the session now, as often as it is tried. */
static void stale_handles(void) {
  nigbaru_seat first, copy, other, again;
  SAME(nigbaru_seat_take(shared, 0, &first), NIGBARU_OK);
  SAME(nigbaru_seat_number(&first), 1);
  SAME(nigbaru_seat_take(shared, 0, &other), NIGBARU_OK);
  SAME(nigbaru_seat_number(&other), 2);
  SAME(nigbaru_seat_take(shared, 0, &again), NIGBARU_NO_SESSION);
  SAME(nigbaru_seat_take(shared, 1, &again), NIGBARU_NO_SESSION);
  SAME(nigbaru_shared_close(shared), NIGBARU_BUSY);
  copy = first;
  SAME(run(&first, "XA START 'lost'"), NIGBARU_OK);
  SAME(run(&copy, "PUT 'k','lost'"), NIGBARU_OK);
  SAME(nigbaru_seat_leave(&first), NIGBARU_OK);
  refuses(&first, NIGBARU_NO_HANDLE);
  refuses(&copy, NIGBARU_NO_HANDLE);
  SAME(nigbaru_seat_take(shared, 1, &again), NIGBARU_OK);
  SAME(run(&again, "XA START 'kept'"), NIGBARU_OK);
  SAME(run(&again, "PUT 'k','kept'"), NIGBARU_OK);
  for (int turn = 0; turn < 3; turn++) {
    refuses(&first, NIGBARU_NO_HANDLE);
    refuses(&copy, NIGBARU_NO_HANDLE);
  }
  SAME(run(&other, "PUT 'k','no'"), NIGBARU_REFUSED);
  SAME(run(&again, "XA END 'kept'"), NIGBARU_OK);
  SAME(run(&again, "XA PREPARE 'kept'"), NIGBARU_OK);
  SAME(nigbaru_seat_leave(&again), NIGBARU_OK);
  SAME(run(&other, "XA COMMIT 'kept'"), NIGBARU_OK);
  SAME(nigbaru_shared_close(shared), NIGBARU_BUSY);
  SAME(nigbaru_seat_leave(&other), NIGBARU_OK);
  SAME(nigbaru_shared_close(shared), NIGBARU_OK);
}

/* ---- many threads ---- */

/* Takes a seat again and again, works in a branch, and gives it back twice; nobody else has it meanwhile. */
static void *works(void *at) {
  int thread = *(int *)at, done = 0;
  while (done < turns) {
    nigbaru_seat seat;
    char text[64];
    if (nigbaru_seat_take(shared, (uint64_t)(thread % (SEATS + 1)), &seat) != NIGBARU_OK) {
      sched_yield();
      continue;
    }
    int number = (int)nigbaru_seat_number(&seat);
    SAME(atomic_fetch_add(&holders[number], 1), 0);
    snprintf(text, sizeof text, "XA START '%d','%d'", thread, done);
    SAME(run(&seat, text), NIGBARU_OK);
    snprintf(text, sizeof text, "PUT 'row%d','%d'", thread, done + 1);
    SAME(run(&seat, text), NIGBARU_OK);
    int is_kept = done % 3 != 2 || done + 1 == turns;
    if (is_kept) {
      snprintf(text, sizeof text, "XA END '%d','%d'", thread, done);
      SAME(run(&seat, text), NIGBARU_OK);
      snprintf(text, sizeof text, "XA COMMIT '%d','%d' ONE PHASE", thread, done);
      SAME(run(&seat, text), NIGBARU_OK);
    }
    SAME(atomic_fetch_sub(&holders[number], 1), 1);
    SAME(nigbaru_seat_leave(&seat), NIGBARU_OK);
    refuses(&seat, NIGBARU_NO_HANDLE);
    done++;
  }
  return NULL;
}

static void many_threads(void) {
  pthread_t threads[THREADS];
  int numbers[THREADS];
  nigbaru_seat seat;
  SAME(nigbaru_shared_open(64, SEATS, &shared), NIGBARU_OK);
  for (int index = 0; index < THREADS; index++) {
    numbers[index] = index;
    SAME(pthread_create(&threads[index], NULL, works, &numbers[index]), 0);
  }
  for (int index = 0; index < THREADS; index++)
    SAME(pthread_join(threads[index], NULL), 0);
  SAME(nigbaru_seat_take(shared, 0, &seat), NIGBARU_OK);
  for (int index = 0; index < THREADS; index++) {
    char text[32], wanted[16];
    nigbaru_answer answer;
    int length = snprintf(wanted, sizeof wanted, "%d", turns);
    snprintf(text, sizeof text, "GET 'row%d'", index);
    SAME(nigbaru_seat_run(&seat, text, strlen(text), &answer, NULL, 0), NIGBARU_VALUE);
    SAME(answer.length, length);
    SAME(memcmp(answer.value, wanted, (size_t)length), 0);
  }
  SAME(nigbaru_seat_leave(&seat), NIGBARU_OK);
  SAME(nigbaru_shared_close(shared), NIGBARU_OK);
}

/* Copies of one handle in several threads: each call is answered, or refused with BUSY, until one of them gives it
   back. */
static nigbaru_seat copied;
static atomic_int answered;

/* Whoever gives it back is one thread; the others go on until they are refused. */
static void *uses_copy(void *gives_back) {
  nigbaru_seat own = copied;
  uint32_t status = NIGBARU_OK;
  for (int turn = 0; status != NIGBARU_NO_HANDLE && (gives_back == NULL || turn < turns); turn++) {
    status = run(&own, "PUT 'k','v'");
    CHECK(status == NIGBARU_OK || status == NIGBARU_BUSY || (status == NIGBARU_NO_HANDLE && gives_back == NULL));
    atomic_fetch_add(&answered, status == NIGBARU_OK);
  }
  while (gives_back != NULL && (status = nigbaru_seat_leave(&own)) == NIGBARU_BUSY)
    sched_yield();
  SAME(status, gives_back != NULL ? NIGBARU_OK : NIGBARU_NO_HANDLE);
  return NULL;
}

static void copies(void) {
  pthread_t threads[3];
  nigbaru_answer answer;
  nigbaru_seat seat;
  SAME(nigbaru_shared_open(16, 2, &shared), NIGBARU_OK);
  SAME(nigbaru_seat_take(shared, 2, &copied), NIGBARU_OK);
  for (int index = 0; index < 3; index++)
    SAME(pthread_create(&threads[index], NULL, uses_copy, index == 0 ? &copied : NULL), 0);
  for (int index = 0; index < 3; index++)
    SAME(pthread_join(threads[index], NULL), 0);
  SAME(nigbaru_seat_take(shared, 0, &seat), NIGBARU_OK);
  SAME(nigbaru_seat_run(&seat, "GET 'k'", 7, &answer, NULL, 0), NIGBARU_VALUE);
  SAME(answer.place, atomic_load(&answered));
  SAME(nigbaru_seat_leave(&seat), NIGBARU_OK);
  SAME(nigbaru_shared_close(shared), NIGBARU_OK);
}

int main(int count, char **words) {
  turns = count > 1 ? atoi(words[1]) : turns;
  wrong_calls();
  stale_handles();
  many_threads();
  copies();
  return 0;
}
