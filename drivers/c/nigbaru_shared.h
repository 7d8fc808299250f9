/* A store that threads share, over nigbaru.h: its sessions are lent, and given back, from any thread.

   A seat is a session that is lent, to one thread at a time. The library takes no lock. If a thread is stopped in the
   middle of a call, the others go on, except in the cases of docs/EMBEDDING.md#threads. A handle of a seat is a value:
   it may be copied and passed on. After nigbaru_seat_leave no copy of it does anything any more, also if another thread
   has the same session by then. This file is tested, not proved. */
#ifndef NIGBARU_SHARED_H
#define NIGBARU_SHARED_H

#include "nigbaru.h"

#ifdef __cplusplus
extern "C" {
#endif

typedef struct nigbaru_shared nigbaru_shared;

/* A seat that was taken. Its fields are read by nobody but these calls; one of zeros is none. */
typedef struct nigbaru_seat {
  nigbaru_shared *shared;
  uint64_t number;
  uint64_t turn;
} nigbaru_seat;

/* Opens an empty store. rows: how many slots its ring has, in [1, 65536]. sessions: how many it has, in [1, 16].
   NIGBARU_NO_POINTER, NIGBARU_OUT_OF_RANGE, NIGBARU_NO_MEMORY. */
uint32_t nigbaru_shared_open(uint64_t rows, uint64_t sessions, nigbaru_shared **shared);

/* Closes a store, and frees it. After that no call may be given the store or a seat of it.
   NIGBARU_NO_POINTER; NIGBARU_BUSY if a seat is taken, and then nothing was done. */
uint32_t nigbaru_shared_close(nigbaru_shared *shared);

/* Takes the seat of a number, or the lowest that is free where it is 0.
   NIGBARU_NO_POINTER, NIGBARU_OUT_OF_RANGE, NIGBARU_NO_SESSION (it is taken, or all are). */
uint32_t nigbaru_seat_take(nigbaru_shared *shared, uint64_t number, nigbaru_seat *seat);

/* Has a statement answered, as nigbaru_run without a limit, and yields the processor now and then.
   NIGBARU_NO_HANDLE if the seat was given back, or is none; NIGBARU_BUSY if another thread has a call with it. */
uint32_t nigbaru_seat_run(const nigbaru_seat *seat, const char *text, size_t length, nigbaru_answer *answer,
                          nigbaru_xid *xids, size_t room);

/* The seat's number, that of its session in the history; 0 where it is none. */
uint64_t nigbaru_seat_number(const nigbaru_seat *seat);

/* Hands out the next entry of the history, as nigbaru_follow. Each number hands out for itself, also where it was given
   back meanwhile.
   NIGBARU_NO_HANDLE as above. */
uint32_t nigbaru_seat_follow(const nigbaru_seat *seat, nigbaru_entry *entry);

/* Sends DISCONNECT, which rolls back a branch that isn't prepared, and gives the seat back. NIGBARU_NO_POINTER;
   NIGBARU_BUSY, if another thread has a call with it; NIGBARU_NO_HANDLE, if it was given back already, or is none;
   NIGBARU_NO_MEMORY, and then it is still taken. */
uint32_t nigbaru_seat_leave(const nigbaru_seat *seat);

#ifdef __cplusplus
}
#endif

#endif
