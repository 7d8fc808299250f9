#include "nigbaru_shared.h"

#include <sched.h>
#include <stdatomic.h>
#include <stdlib.h>
#include <string.h>

#define SEATS 16
#define ROUNDS 16 /* how often all places are looked at for a free one, since others move meanwhile */

/* What a place's word has in its last bits; before them it counts how often the place was taken. */
enum { FREE, TAKEN, CALLED, CLOSED, STATES };

/* A session. Only the thread that has brought the word from FREE to TAKEN, and then to CALLED, uses it. */
struct place {
  atomic_uint_fast64_t word;
  nigbaru_session session;
  uint64_t yielded; /* the place in the history at which the session yielded its processor last */
  char apart[128]; /* so that no two places share a line of the cache */
};

struct nigbaru_shared {
  uint64_t rows, sessions;
  struct place places[SEATS];
};

static uint64_t word_of(uint64_t turn, unsigned state) { return turn * STATES + state; }

/* Steps from one word to another, if that is still the place's. */
static int steps(struct place *place, uint64_t *from, uint64_t to) {
  uint_fast64_t found = *from;
  int stepped =
      atomic_compare_exchange_strong_explicit(&place->word, &found, to, memory_order_acq_rel, memory_order_acquire);
  *from = found;
  return stepped;
}

static void leave_all(nigbaru_shared *shared) {
  for (uint64_t index = 0; index < SEATS; index++)
    nigbaru_leave(&shared->places[index].session);
}

/* Opens the store, and takes all its sessions; they keep it, so its own handle is closed. */
static uint32_t take_all(nigbaru_shared *shared) {
  nigbaru_store store = NIGBARU_EMPTY;
  uint32_t status = nigbaru_open(shared->rows, shared->sessions, &store);
  for (uint64_t index = 0; index < shared->sessions && status == NIGBARU_OK; index++)
    status = nigbaru_take(&store, index + 1, &shared->places[index].session);
  if (status != NIGBARU_OK)
    leave_all(shared);
  nigbaru_close(&store);
  return status;
}

uint32_t nigbaru_shared_open(uint64_t rows, uint64_t sessions, nigbaru_shared **shared) {
  if (shared == NULL)
    return NIGBARU_NO_POINTER;
  nigbaru_shared *made = malloc(sizeof *made);
  if (made == NULL)
    return NIGBARU_NO_MEMORY;
  memset(made, 0, sizeof *made);
  made->rows = rows;
  made->sessions = sessions;
  for (uint64_t index = 0; index < SEATS; index++) {
    const nigbaru_session left = NIGBARU_EMPTY;
    made->places[index].session = left;
    atomic_init(&made->places[index].word, word_of(0, FREE));
  }
  uint32_t status = take_all(made);
  if (status != NIGBARU_OK) {
    free(made);
    return status;
  }
  *shared = made;
  return NIGBARU_OK;
}

/* Brings so many places from one state to another, or none if one of them isn't in it. */
static int brings_all(nigbaru_shared *shared, uint64_t count, unsigned from, unsigned to) {
  for (uint64_t index = 0; index < count; index++) {
    struct place *place = &shared->places[index];
    uint64_t word = atomic_load_explicit(&place->word, memory_order_acquire);
    if (word % STATES != from || !steps(place, &word, word - from + to)) {
      brings_all(shared, index, to, from);
      return 0;
    }
  }
  return 1;
}

uint32_t nigbaru_shared_close(nigbaru_shared *shared) {
  if (shared == NULL)
    return NIGBARU_NO_POINTER;
  if (!brings_all(shared, shared->sessions, FREE, CLOSED))
    return NIGBARU_BUSY;
  leave_all(shared);
  free(shared);
  return NIGBARU_OK;
}

/* Takes a place, if it is free. */
static int is_taken_now(nigbaru_shared *shared, uint64_t index, nigbaru_seat *seat) {
  struct place *place = &shared->places[index];
  uint64_t word = atomic_load_explicit(&place->word, memory_order_acquire);
  while (word % STATES == FREE) {
    uint64_t turn = word / STATES + 1;
    if (steps(place, &word, word_of(turn, TAKEN))) {
      *seat = (nigbaru_seat){.shared = shared, .number = index + 1, .turn = turn};
      return 1;
    }
  }
  return 0;
}

uint32_t nigbaru_seat_take(nigbaru_shared *shared, uint64_t number, nigbaru_seat *seat) {
  if (shared == NULL || seat == NULL)
    return NIGBARU_NO_POINTER;
  if (number > shared->sessions)
    return NIGBARU_OUT_OF_RANGE;
  if (number != 0)
    return is_taken_now(shared, number - 1, seat) ? NIGBARU_OK : NIGBARU_NO_SESSION;
  for (uint64_t step = 0; step < ROUNDS * shared->sessions; step++)
    if (is_taken_now(shared, step % shared->sessions, seat))
      return NIGBARU_OK;
  return NIGBARU_NO_SESSION;
}

/* Begins a call with a seat: nobody else is in one, and it wasn't given back. */
static uint32_t begin(const nigbaru_seat *seat, struct place **place) {
  if (seat == NULL)
    return NIGBARU_NO_POINTER;
  if (seat->shared == NULL)
    return NIGBARU_NO_HANDLE;
  *place = &seat->shared->places[seat->number - 1];
  uint64_t word = word_of(seat->turn, TAKEN);
  if (steps(*place, &word, word_of(seat->turn, CALLED)))
    return NIGBARU_OK;
  return word == word_of(seat->turn, CALLED) ? NIGBARU_BUSY : NIGBARU_NO_HANDLE;
}

static void end(const nigbaru_seat *seat, struct place *place, unsigned state) {
  atomic_store_explicit(&place->word, word_of(seat->turn, state), memory_order_release);
}

/* Has a statement answered in as many tries as it takes. A session that is behind needs a checkpoint, which others
   make: it lets them go on. */
static uint32_t run(nigbaru_session *session, const char *text, size_t length, nigbaru_answer *answer,
                    nigbaru_xid *xids, size_t room) {
  for (;;) {
    uint32_t status = nigbaru_run(session, text, length, answer, xids, room, 1);
    if (status != NIGBARU_OVERTAKEN && status != NIGBARU_BEHIND)
      return status;
    if (status == NIGBARU_BEHIND)
      sched_yield();
  }
}

uint32_t nigbaru_seat_run(const nigbaru_seat *seat, const char *text, size_t length, nigbaru_answer *answer,
                          nigbaru_xid *xids, size_t room) {
  struct place *place;
  uint32_t status = begin(seat, &place);
  if (status != NIGBARU_OK)
    return status;
  status = run(&place->session, text, length, answer, xids, room);
  int is_time = status <= NIGBARU_REFUSED && answer->place >= place->yielded + seat->shared->rows / 4;
  if (is_time)
    place->yielded = answer->place;
  end(seat, place, TAKEN);
  /* The history has grown by a quarter of the ring since the session yielded last. It yields again, so that whoever
     waits for a processor gets one before the ring has gone round. The seat is no longer in a call, so whoever shares
     it can use it meanwhile. */
  if (is_time)
    sched_yield();
  return status;
}

uint64_t nigbaru_seat_number(const nigbaru_seat *seat) { return seat == NULL ? 0 : seat->number; }

uint32_t nigbaru_seat_follow(const nigbaru_seat *seat, nigbaru_entry *entry) {
  struct place *place;
  uint32_t status = begin(seat, &place);
  if (status != NIGBARU_OK)
    return status;
  status = nigbaru_follow(&place->session, entry);
  end(seat, place, TAKEN);
  return status;
}

uint32_t nigbaru_seat_leave(const nigbaru_seat *seat) {
  struct place *place;
  nigbaru_answer answer;
  uint32_t status = begin(seat, &place);
  if (status != NIGBARU_OK)
    return status;
  status = run(&place->session, "DISCONNECT", 10, &answer, NULL, 0);
  end(seat, place, status == NIGBARU_OK ? FREE : TAKEN);
  return status;
}
