/* nigbaru.h: a verified row store with XA branches, called from C or C++.
 *
 * Open a store, take a session for each thread, and give the sessions statements, by calls of their own or as text:
 *
 *     nigbaru_store store = NIGBARU_EMPTY;
 *     nigbaru_session session = NIGBARU_EMPTY;
 *     nigbaru_answer answer;
 *     if (nigbaru_open(16384, 16, &store) || nigbaru_take(&store, 1, &session)) return 1;
 *     if (nigbaru_put(&session, "k", 1, "v", 1, &answer, 0) != NIGBARU_OK) return 1;
 *     if (nigbaru_run(&session, "GET 'k'", 7, &answer, NULL, 0, 0) != NIGBARU_VALUE) return 1;
 *     nigbaru_leave(&session);
 *     nigbaru_close(&store);
 *
 * docs/STATEMENTS.md has the statements and their replies, docs/EMBEDDING.md whole programs and how to link.
 *
 * Threads. Sessions of one store may be on threads of their own, without a lock of yours. Each session
 * answers from its own copy of the rows, and adds to the one history that all share. A handle takes one call
 * at a time: a second call on it at the same time returns NIGBARU_BUSY. The library takes no lock; malloc may
 * take one of its own, and wait for it. A statement without a limit is tried again as long as other sessions are
 * faster, or its session is behind; then it may need a thread that was stopped to go on
 * (docs/EMBEDDING.md#threads). A handle may be moved to another thread between calls.
 *
 * The history has no end. It is kept in a ring of `rows` slots: each new entry overwrites the oldest one. A
 * session that isn't used while others add more entries than that is behind. Its next statement then goes on
 * from a checkpoint, a copy of the store's state that the other sessions leave near the end of the history.
 *
 * Memory. The library takes memory by malloc and realloc, and frees it. The ring doesn't grow.
 * nigbaru_follow, nigbaru_leave and nigbaru_close take no memory. A store is freed after it was closed and
 * all its sessions have left. A handle that you neither leave nor close keeps its memory.
 *
 * After an error. From status 5 on nothing of the statement is in the history, and every handle holds what it
 * held, except that a session may have seen more of the history. You can go on with all of them.
 *
 * No call can see whether you keep these rules, so they are yours:
 *   1. A pointer that isn't null points to what its type says, with room for it.
 *   2. `text` points to `length` bytes, `key` to `key_length`, `value` to `value_length`, and `xids` to room for
 *      `room` identifiers.
 *   3. A handle begins as NIGBARU_EMPTY, and only calls of this header change it.
 *   4. A handle is never copied: pass it by its address, and move it only while no call has it.
 *   5. What a call writes to, such as `answer` and `entry`, isn't touched by another thread before the call has
 *      returned. It doesn't overlap anything else that the call is given. Store and session are two different
 *      handles.
 *   6. No call comes from a signal handler, or from the child after a fork of a process with threads.
 *   7. malloc, realloc and free belong to one allocator, which aligns blocks to 16 bytes.
 *   8. If you call nigbaru_raw_* yourself: no pointer is null, and one thread at a time uses a handle. These
 *      calls don't look.
 */
#ifndef NIGBARU_H
#define NIGBARU_H

#include <stddef.h>
#include <stdint.h>

#ifdef __cplusplus
#include <atomic>
typedef std::atomic_flag nigbaru_flag;
extern "C" {
#else
#include <stdatomic.h>
#include <stdbool.h>
typedef atomic_flag nigbaru_flag;
#endif

/* The statuses that calls return. 0 to 4: the statement was answered, and answer.place is the place in the
 * history. From 5 on the call failed. If several causes hold, the one that the call's comment names first is
 * returned. No call returns 6 or 12. */

/* The call was carried out; of a statement: the reply is OK. */
#define NIGBARU_OK            0
/* GET: the row's value is the first answer.length bytes of answer.value. */
#define NIGBARU_VALUE         1
/* GET: there is no such row. From nigbaru_follow: all entries that there are were handed out. */
#define NIGBARU_NONE          2
/* XA RECOVER: there are answer.count prepared branches. The first of them, as many as `room`, are in xids. If
 * there are more, call again with more room. */
#define NIGBARU_LIST          3
/* The server refused the statement, and nothing changed: answer.error is the number of the error. */
#define NIGBARU_REFUSED       4
/* Another session added to the history first: call again, or let the call try more often. */
#define NIGBARU_OVERTAKEN     5
/* An allocation failed, or the history has more than 2^59 entries: free some memory and call again. */
#define NIGBARU_NO_MEMORY     7
/* The text is no statement: answer.place is the first byte that doesn't fit, from 0. Correct the text. */
#define NIGBARU_SYNTAX        8
/* The handle is empty, or holds a session where a store is needed, or a store where a session is: open or
 * take first. */
#define NIGBARU_NO_HANDLE     9
/* An argument is out of its range, or the formatID of a text is above LONG_MAX: correct it. */
#define NIGBARU_OUT_OF_RANGE 10
/* Somebody has the session of this number: take another number, or wait until the session leaves. */
#define NIGBARU_NO_SESSION   11
/* The handle that is to be filled isn't empty: leave or close it first, or use another. */
#define NIGBARU_HELD         13
/* Another call has the handle, and this one did nothing: give each thread a session of its own. Not from
 * nigbaru_raw_*. */
#define NIGBARU_BUSY         14
/* A pointer is null that must not be, and the call did nothing. Not from nigbaru_raw_*. */
#define NIGBARU_NO_POINTER   15
/* Others have added so many entries since this session last answered that some which it needs are
 * overwritten, and no checkpoint brought it to the end of the history just now: call again, or let the call try
 * more often. From nigbaru_follow: entry.lost entries are lost, as they were overwritten or would be next; call
 * again for the entries after them. */
#define NIGBARU_BEHIND       16

/* What a store or a session is kept by. Its pointer is the library's. */
typedef struct nigbaru_handle { void *at; } nigbaru_handle;

/* What a statement is answered. It is written at every status except NIGBARU_NO_POINTER and NIGBARU_BUSY. */
typedef struct nigbaru_answer {
    /* At 0 to 4: how many entries of the history come before the answer, from the store's first on, in
     * [0, 2^59 + rows]. At NIGBARU_SYNTAX: the first byte of the text that doesn't fit, from 0. Else 0. */
    uint64_t place;
    /* At NIGBARU_VALUE: how many bytes of `value` are the row's, in [0, 64]. Else 0. */
    uint64_t length;
    /* At NIGBARU_LIST: how many prepared branches there are, also if there was less room. Else 0. */
    uint64_t count;
    /* At NIGBARU_REFUSED the number of the error, else 0. docs/STATEMENTS.md#errors has each cause and
     * remedy.
     *   1397 XAER_NOTA    there is no such branch for this session
     *   1398 XAER_INVAL   the clause isn't supported
     *   1399 XAER_RMFAIL  the session's state doesn't allow the statement
     *   1440 XAER_DUPID   the identifier is in use already
     *   3572              another branch holds the row's lock: try again after it ended */
    uint32_t error;
    /* At NIGBARU_VALUE the row's value, in the first `length` bytes. */
    uint8_t value[64];
} nigbaru_answer;

/* How long the text of an entry is at most, in bytes. */
#define NIGBARU_TEXT 304

/* What nigbaru_follow writes. It is written at every status except NIGBARU_NO_POINTER and NIGBARU_BUSY. */
typedef struct nigbaru_entry {
    /* At NIGBARU_OK: the number of the session that added the entry, in [1, 16]. Else 0. */
    uint64_t number;
    /* At NIGBARU_OK: how many bytes of `text` are the statement's, in [1, NIGBARU_TEXT]. Else 0. */
    uint64_t length;
    /* At NIGBARU_BEHIND: how many entries are lost, from 1 on: overwritten, or next to be. Else 0. */
    uint64_t lost;
    /* At NIGBARU_OK: the statement in its canonical form (docs/STATEMENTS.md#canonical-form), in the first
     * `length` bytes, without a terminator. */
    uint8_t text[NIGBARU_TEXT];
} nigbaru_entry;

/* X/Open's XID, with the same layout: you may pass an XID * as a nigbaru_xid *. data has the gtrid and then
 * the bqual: { 1, 3, 2, "tx1b1" } is the statements' 'tx1','b1',1. A call takes a formatID from 0 on, and
 * lengths in [0, 64]. */
typedef struct nigbaru_xid {
    long formatID;
    long gtrid_length;
    long bqual_length;
    char data[128];
} nigbaru_xid;

/* ---- The library's functions. They are proved, for one call at a time on a handle. Use the calls below
 * instead. ---- */
uint32_t nigbaru_raw_open(uint64_t rows, uint64_t sessions, nigbaru_handle *store);
uint32_t nigbaru_raw_take(nigbaru_handle *store, uint64_t number, nigbaru_handle *session);
uint32_t nigbaru_raw_attempt(nigbaru_handle *session, const uint8_t *text, size_t length, nigbaru_answer *answer,
                             nigbaru_xid *xids, size_t room);
uint32_t nigbaru_raw_start(nigbaru_handle *session, const nigbaru_xid *xid, nigbaru_answer *answer);
uint32_t nigbaru_raw_end(nigbaru_handle *session, const nigbaru_xid *xid, nigbaru_answer *answer);
uint32_t nigbaru_raw_prepare(nigbaru_handle *session, const nigbaru_xid *xid, nigbaru_answer *answer);
uint32_t nigbaru_raw_commit(nigbaru_handle *session, const nigbaru_xid *xid, bool one_phase, nigbaru_answer *answer);
uint32_t nigbaru_raw_rollback(nigbaru_handle *session, const nigbaru_xid *xid, nigbaru_answer *answer);
uint32_t nigbaru_raw_recover(nigbaru_handle *session, nigbaru_answer *answer, nigbaru_xid *xids, size_t room);
uint32_t nigbaru_raw_get(nigbaru_handle *session, const uint8_t *key, size_t key_length, nigbaru_answer *answer);
uint32_t nigbaru_raw_put(nigbaru_handle *session, const uint8_t *key, size_t key_length, const uint8_t *value,
                         size_t value_length, nigbaru_answer *answer);
uint32_t nigbaru_raw_del(nigbaru_handle *session, const uint8_t *key, size_t key_length, nigbaru_answer *answer);
uint32_t nigbaru_raw_disconnect(nigbaru_handle *session, nigbaru_answer *answer);
uint32_t nigbaru_raw_follow(nigbaru_handle *session, nigbaru_entry *entry);
uint32_t nigbaru_raw_leave(nigbaru_handle *session);
uint32_t nigbaru_raw_close(nigbaru_handle *store);

#ifdef __cplusplus
}
#endif

/* ---- The calls. They refuse null pointers and a second thread, and are plain C. ---- */

/* A store's and a session's handle. Begin with NIGBARU_EMPTY. */
typedef struct nigbaru_store { nigbaru_handle handle; nigbaru_flag busy; } nigbaru_store;
typedef struct nigbaru_session { nigbaru_handle handle; nigbaru_flag busy; } nigbaru_session;
#define NIGBARU_EMPTY { { NULL }, ATOMIC_FLAG_INIT }

static inline int nigbaru_enter_(nigbaru_flag *busy) {
#ifdef __cplusplus
    return !busy->test_and_set();
#else
    return !atomic_flag_test_and_set(busy);
#endif
}
static inline void nigbaru_exit_(nigbaru_flag *busy) {
#ifdef __cplusplus
    busy->clear();
#else
    atomic_flag_clear(busy);
#endif
}

/* Opens a store with no branch and no row.
 *
 * rows: how many entries its ring keeps, in [1, 65536]. sessions: how many sessions it has, in [1, 16].
 * store: an empty handle, which holds the store afterwards.
 * Errors: NO_POINTER, BUSY, HELD (the handle isn't empty), OUT_OF_RANGE (rows or sessions), NO_MEMORY.
 * After an error the handle is as before. docs/EMBEDDING.md#the-ring says how much memory the ring takes, and
 * how to choose its rows. */
static inline uint32_t nigbaru_open(uint64_t rows, uint64_t sessions, nigbaru_store *store) {
    uint32_t status;
    if (store == NULL) return NIGBARU_NO_POINTER;
    if (!nigbaru_enter_(&store->busy)) return NIGBARU_BUSY;
    status = nigbaru_raw_open(rows, sessions, &store->handle);
    nigbaru_exit_(&store->busy);
    return status;
}

/* Takes a session of a store. Nobody else has it until it leaves. Any thread may take it.
 *
 * number: the session's, in [1, sessions]. session: an empty handle, which holds the session afterwards. It
 * keeps the store alive, so you may close the store's handle. If the session was taken before and has left,
 * it goes on where it was: its branch is as it was, with its locks, and so is what it has handed out by
 * nigbaru_follow.
 * Errors: NO_POINTER, BUSY, NO_HANDLE (the store's handle holds no store), HELD (the session's isn't empty),
 * OUT_OF_RANGE (number), NO_MEMORY, NO_SESSION (somebody has it).
 * After an error both handles are as before, and the session can still be taken. */
static inline uint32_t nigbaru_take(nigbaru_store *store, uint64_t number, nigbaru_session *session) {
    uint32_t status;
    if (store == NULL || session == NULL) return NIGBARU_NO_POINTER;
    if (!nigbaru_enter_(&store->busy)) return NIGBARU_BUSY;
    if (!nigbaru_enter_(&session->busy)) { nigbaru_exit_(&store->busy); return NIGBARU_BUSY; }
    status = nigbaru_raw_take(&store->handle, number, &session->handle);
    nigbaru_exit_(&session->busy);
    nigbaru_exit_(&store->busy);
    return status;
}

/* Counts down, up to a tenth of a millisecond. A session that is behind needs a checkpoint, which others
 * make: so it lets them go on, for longer each time. */
static inline void nigbaru_pause_(uint64_t tried) {
    volatile uint32_t left = UINT32_C(64) << (tried < 10 ? tried : 10);
    while (left != 0) left = left - 1;
}

/* Whether a statement is tried again, which has this status after `tried` tries. */
static inline bool nigbaru_again_(uint32_t status, uint64_t tried, uint64_t tries) {
    if ((status != NIGBARU_OVERTAKEN && status != NIGBARU_BEHIND) || tried == tries) return false;
    if (status == NIGBARU_BEHIND) nigbaru_pause_(tried);
    return true;
}

/* The library takes no null pointer, also where there are no bytes or there is no room. */
static inline const uint8_t *nigbaru_bytes_(const void *bytes) {
    return (const uint8_t *)(bytes == NULL ? "" : bytes);
}
static inline nigbaru_xid *nigbaru_room_(nigbaru_xid *xids) {
    static nigbaru_xid none;
    return xids == NULL ? &none : xids;
}

/* What each call for a statement does. */
#define NIGBARU_TRY_(HAS_POINTERS, CALL)                                                 \
    uint32_t status;                                                                     \
    uint64_t tried = 0;                                                                  \
    if (session == NULL || answer == NULL || !(HAS_POINTERS)) return NIGBARU_NO_POINTER; \
    do {                                                                                 \
        if (!nigbaru_enter_(&session->busy)) return NIGBARU_BUSY;                        \
        status = CALL;                                                                   \
        nigbaru_exit_(&session->busy);                                                   \
    } while (nigbaru_again_(status, ++tried, tries));                                    \
    return status

/* ---- Statements, as text and by calls of their own: nigbaru_start(&session, &xid, &answer, 0) does what
 * nigbaru_run does with the text of XA START and this identifier, and has nothing to spell or to read.
 *
 * answer: gets the answer. tries: how often it is tried at most, from 1 on; 0 means without a limit. It is tried
 * again while the session is overtaken or behind. While it is behind it pauses between two tries, for a tenth of a
 * millisecond at most. A try takes no lock of the library's, and waits for no other thread, unless malloc does.
 * Returns 0 to 4 if the statement was answered. Errors: NO_POINTER, BUSY, NO_HANDLE (no session is held), SYNTAX
 * (of a text), OUT_OF_RANGE, then BEHIND, NO_MEMORY and OVERTAKEN; OVERTAKEN and BEHIND only after `tries` tries.
 * After an error nothing of the statement is in the history. The session may have seen more of it. ---- */

/* Gives a session a statement as text.
 *
 * text, length: the statement, in length bytes without a terminator; text may be null if length is 0. OUT_OF_RANGE:
 * its formatID is above LONG_MAX. xids, room: room for the identifiers of an XA RECOVER; xids may be null if room is
 * 0. It is written only at LIST. */
static inline uint32_t nigbaru_run(nigbaru_session *session, const char *text, size_t length, nigbaru_answer *answer,
                                  nigbaru_xid *xids, size_t room, uint64_t tries) {
    NIGBARU_TRY_((text != NULL || length == 0) && (xids != NULL || room == 0),
                 nigbaru_raw_attempt(&session->handle, nigbaru_bytes_(text), length, answer,
                                     nigbaru_room_(xids), room));
}

/* The same, tried once. */
static inline uint32_t nigbaru_attempt(nigbaru_session *session, const char *text, size_t length,
                                      nigbaru_answer *answer, nigbaru_xid *xids, size_t room) {
    return nigbaru_run(session, text, length, answer, xids, room, 1);
}

/* XA START. Of this and the next four, xid: the branch. OUT_OF_RANGE: its formatID is negative, as that of no
 * identifier is, or one of its lengths isn't in [0, 64]. */
static inline uint32_t nigbaru_start(nigbaru_session *session, const nigbaru_xid *xid, nigbaru_answer *answer,
                                    uint64_t tries) {
    NIGBARU_TRY_(xid != NULL, nigbaru_raw_start(&session->handle, xid, answer));
}

/* XA END. */
static inline uint32_t nigbaru_end(nigbaru_session *session, const nigbaru_xid *xid, nigbaru_answer *answer,
                                  uint64_t tries) {
    NIGBARU_TRY_(xid != NULL, nigbaru_raw_end(&session->handle, xid, answer));
}

/* XA PREPARE. */
static inline uint32_t nigbaru_prepare(nigbaru_session *session, const nigbaru_xid *xid, nigbaru_answer *answer,
                                      uint64_t tries) {
    NIGBARU_TRY_(xid != NULL, nigbaru_raw_prepare(&session->handle, xid, answer));
}

/* XA COMMIT, and if one_phase is true XA COMMIT .. ONE PHASE. */
static inline uint32_t nigbaru_commit(nigbaru_session *session, const nigbaru_xid *xid, bool one_phase,
                                     nigbaru_answer *answer, uint64_t tries) {
    NIGBARU_TRY_(xid != NULL, nigbaru_raw_commit(&session->handle, xid, one_phase, answer));
}

/* XA ROLLBACK. */
static inline uint32_t nigbaru_rollback(nigbaru_session *session, const nigbaru_xid *xid, nigbaru_answer *answer,
                                       uint64_t tries) {
    NIGBARU_TRY_(xid != NULL, nigbaru_raw_rollback(&session->handle, xid, answer));
}

/* XA RECOVER. xids, room: as of nigbaru_run. */
static inline uint32_t nigbaru_recover(nigbaru_session *session, nigbaru_answer *answer, nigbaru_xid *xids, size_t room,
                                      uint64_t tries) {
    NIGBARU_TRY_(xids != NULL || room == 0,
                 nigbaru_raw_recover(&session->handle, answer, nigbaru_room_(xids), room));
}

/* GET. Of this and the next two, key, key_length: the row's key, 1 to 64 bytes. OUT_OF_RANGE: it is shorter or
 * longer, or the value is longer. A pointer may be null if its length is 0. */
static inline uint32_t nigbaru_get(nigbaru_session *session, const void *key, size_t key_length, nigbaru_answer *answer,
                                  uint64_t tries) {
    NIGBARU_TRY_(key != NULL || key_length == 0,
                 nigbaru_raw_get(&session->handle, nigbaru_bytes_(key), key_length, answer));
}

/* PUT. value, value_length: the value, 0 to 64 bytes. */
static inline uint32_t nigbaru_put(nigbaru_session *session, const void *key, size_t key_length, const void *value,
                                  size_t value_length, nigbaru_answer *answer, uint64_t tries) {
    NIGBARU_TRY_((key != NULL || key_length == 0) && (value != NULL || value_length == 0),
                 nigbaru_raw_put(&session->handle, nigbaru_bytes_(key), key_length, nigbaru_bytes_(value),
                                 value_length, answer));
}

/* DEL. */
static inline uint32_t nigbaru_del(nigbaru_session *session, const void *key, size_t key_length, nigbaru_answer *answer,
                                  uint64_t tries) {
    NIGBARU_TRY_(key != NULL || key_length == 0,
                 nigbaru_raw_del(&session->handle, nigbaru_bytes_(key), key_length, answer));
}

/* DISCONNECT: rolls back the session's branch, unless it is prepared. */
static inline uint32_t nigbaru_disconnect(nigbaru_session *session, nigbaru_answer *answer, uint64_t tries) {
    NIGBARU_TRY_(true, nigbaru_raw_disconnect(&session->handle, answer));
}

#undef NIGBARU_TRY_

/* Hands out the next entry of the history: its session and its statement. A session hands out each entry
 * once, in order, from the store's first on, also after it has left and was taken again. If it follows too
 * slowly, entries are overwritten; it says how many it lost, and goes on after them. Never waits.
 *
 * entry: gets the entry at OK, and the number of lost entries at BEHIND.
 * Returns OK with an entry; NONE if all that the history has was handed out: call again later; BEHIND if
 * entries were lost: call again for the next. Errors: NO_POINTER, BUSY, NO_HANDLE (no session is held).
 * Entries that the session itself adds are handed out like all others. Takes no memory. */
static inline uint32_t nigbaru_follow(nigbaru_session *session, nigbaru_entry *entry) {
    uint32_t status;
    if (session == NULL || entry == NULL) return NIGBARU_NO_POINTER;
    if (!nigbaru_enter_(&session->busy)) return NIGBARU_BUSY;
    status = nigbaru_raw_follow(&session->handle, entry);
    nigbaru_exit_(&session->busy);
    return status;
}

/* Gives a session back to its store, from which any thread can take it again. Its handle is empty afterwards.
 *
 * Nothing is logged: what the session added stays, and so does its open branch, with its locks. Call
 * nigbaru_disconnect first to roll an open branch back. Takes no memory.
 * Errors: NO_POINTER, BUSY, NO_HANDLE (no session is held, also if it has left already). After an error the
 * handle is as before. */
static inline uint32_t nigbaru_leave(nigbaru_session *session) {
    uint32_t status;
    if (session == NULL) return NIGBARU_NO_POINTER;
    if (!nigbaru_enter_(&session->busy)) return NIGBARU_BUSY;
    status = nigbaru_raw_leave(&session->handle);
    nigbaru_exit_(&session->busy);
    return status;
}

/* Ends a store's handle, which is empty afterwards. Nothing is logged. Sessions that were taken go on, and the
 * memory is freed when the last of them has left. Takes no memory.
 *
 * Errors: NO_POINTER, BUSY, NO_HANDLE (no store is held). After an error the handle is as before. */
static inline uint32_t nigbaru_close(nigbaru_store *store) {
    uint32_t status;
    if (store == NULL) return NIGBARU_NO_POINTER;
    if (!nigbaru_enter_(&store->busy)) return NIGBARU_BUSY;
    status = nigbaru_raw_close(&store->handle);
    nigbaru_exit_(&store->busy);
    return status;
}

/* Returns a short text for a status, with a terminator; "no status" for any other number. */
static inline const char *nigbaru_text(uint32_t status) {
    switch (status) {
    case NIGBARU_OK: return "ok";
    case NIGBARU_VALUE: return "a value";
    case NIGBARU_NONE: return "no such row, or no entry";
    case NIGBARU_LIST: return "a list of identifiers";
    case NIGBARU_REFUSED: return "refused";
    case NIGBARU_OVERTAKEN: return "overtaken by another session";
    case NIGBARU_NO_MEMORY: return "out of memory";
    case NIGBARU_SYNTAX: return "the text spells no statement";
    case NIGBARU_NO_HANDLE: return "the handle holds nothing that the call takes";
    case NIGBARU_OUT_OF_RANGE: return "out of range";
    case NIGBARU_NO_SESSION: return "somebody has the session";
    case NIGBARU_HELD: return "the handle holds something";
    case NIGBARU_BUSY: return "another call has the handle";
    case NIGBARU_NO_POINTER: return "a null pointer";
    case NIGBARU_BEHIND: return "behind: entries are overwritten";
    default: return "no status";
    }
}

#endif
