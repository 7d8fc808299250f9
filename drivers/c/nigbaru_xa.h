/* The store as a resource manager of X/Open C193, for any transaction manager that links an xa_switch_t, and its rows
   for the application.

   README.md, 'A resource manager', says what xa_open's string holds, what a thread of control owes, and what each call
   answers in each state. A mutex is taken by xa_open, by xa_close, by the end of a thread that has a store open, and by
   nigbaru_xa_drop. No other call takes a lock of the library's; docs/EMBEDDING.md#threads says when one may have to
   wait for another thread. */
#ifndef NIGBARU_XA_H
#define NIGBARU_XA_H

#include "xa.h"

#include <stddef.h>

#ifdef __cplusplus
extern "C" {
#endif

extern struct xa_switch_t nigbaru_xa_switch;

/* Rows, for the thread of control that has rmid open: in its branch where that is active, and at once where it works in
   none. Keys have 1 to 64 bytes, values 0 to 64. What is returned is a status of nigbaru.h:

   - NIGBARU_OK (put, delete); NIGBARU_VALUE with the value and its length, or NIGBARU_NONE (get);
   - 3572: another branch holds the row (docs/STATEMENTS.md#replies);
   - NIGBARU_NO_POINTER, NIGBARU_OUT_OF_RANGE (a length), NIGBARU_NO_HANDLE (the thread hasn't rmid open),
     NIGBARU_NO_SESSION (outside a branch: all sessions are in use), NIGBARU_NO_MEMORY.

   In all but the first line nothing was done. */
int nigbaru_xa_get(int rmid, const void *key, size_t key_length, unsigned char value[64], size_t *length);
int nigbaru_xa_put(int rmid, const void *key, size_t key_length, const void *value, size_t length);
int nigbaru_xa_delete(int rmid, const void *key, size_t key_length);

/* Drops a store with all its rows, idle and prepared branches too: it stays until then, also while no thread has it
   open.
   XA_OK; XAER_INVAL (there is no store of this name); XAER_PROTO (a thread has it open). */
int nigbaru_xa_drop(const char *store);

#ifdef __cplusplus
}
#endif

#endif
