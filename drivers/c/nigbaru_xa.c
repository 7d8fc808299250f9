#include "nigbaru_xa.h"

#include "nigbaru.h"

#include <pthread.h>
#include <stdatomic.h>
#include <stdlib.h>
#include <string.h>

#define LONGEST_NAME 64
#define DEFAULT_ROWS 16384
#define MOST_SESSIONS 16
#define DEFAULT_SESSIONS MOST_SESSIONS
#define ROUNDS 16 /* how often all places are looked at for a free one, since others move meanwhile */
#define WORDS_OF_XID (sizeof(XID) / sizeof(unsigned long))
_Static_assert(sizeof(XID) % sizeof(unsigned long) == 0, "an XID is a whole number of words");

/* What a place's word has in its last bits; before them it counts how often the place got a branch. USED: in a call;
   UNCLEAN: free, but with a branch that there was no memory to roll back when its thread ended. */
enum state { FREE, USED, ACTIVE, IDLE, UNCLEAN, STATES };

/* A session. Only the thread that has brought the word to USED, or works in the branch that is ACTIVE, uses it. All
   threads read the branch. */
struct place {
  atomic_uint_fast64_t word;
  atomic_ulong branch[WORDS_OF_XID];
  nigbaru_session session;
  char apart[128]; /* so that no two places share a line of the cache */
};

/* A store that xa_open named. The list and each entry's openings are the mutex'. */
struct named_store {
  char name[LONGEST_NAME + 1];
  uint64_t rows, sessions;
  struct place places[MOST_SESSIONS];
  uint64_t openings;
  struct named_store *next;
};

/* What a thread of control has open under an rmid. */
struct opening {
  int rmid;
  struct named_store *store;
  struct place *active; /* with the branch that the thread works in, if it does */
  uint64_t last;        /* the place that it used last */
  XID *scan;            /* what xa_recover lists, from scan_at on, where is_scanning */
  size_t scan_count, scan_at;
  int is_scanning;
  struct opening *next;
};

static pthread_mutex_t stores_mutex = PTHREAD_MUTEX_INITIALIZER;
static struct named_store *stores;
static pthread_once_t key_once = PTHREAD_ONCE_INIT;
static pthread_key_t openings_key;
static int has_key;

static void *zeroed(size_t size) {
  void *memory = malloc(size);
  return memory == NULL ? NULL : memset(memory, 0, size);
}

/* ---- places ---- */

static uint64_t word_of(uint64_t turn, enum state state) { return turn * STATES + state; }

static uint64_t word_in(struct place *place) { return atomic_load_explicit(&place->word, memory_order_acquire); }

/* Brings a place from a word to USED, if the word is still the place's. */
static int is_used_now(struct place *place, uint64_t from) {
  uint_fast64_t found = from;
  return atomic_compare_exchange_strong_explicit(&place->word, &found, word_of(from / STATES, USED),
                                                 memory_order_acq_rel, memory_order_relaxed);
}

/* Ends the use of a place. */
static void put_back(struct place *place, enum state state) {
  atomic_store_explicit(&place->word, word_of(word_in(place) / STATES, state), memory_order_release);
}

/* Has a place that is used keep a branch, which is ACTIVE then. */
static void keep_branch(struct place *place, const XID *xid) {
  unsigned long words[WORDS_OF_XID];
  memcpy(words, xid, sizeof words);
  for (size_t index = 0; index < WORDS_OF_XID; index++)
    atomic_store_explicit(&place->branch[index], words[index], memory_order_release);
  atomic_store_explicit(&place->word, word_of(word_in(place) / STATES + 1, ACTIVE), memory_order_release);
}

/* The branch of a place. It is whole where the place has the same word before and after. */
static XID branch_of(struct place *place) {
  unsigned long words[WORDS_OF_XID];
  XID xid;
  for (size_t index = 0; index < WORDS_OF_XID; index++)
    words[index] = atomic_load_explicit(&place->branch[index], memory_order_acquire);
  memcpy(&xid, words, sizeof xid);
  return xid;
}

static int is_same_branch(const XID *one, const XID *other) {
  return one->formatID == other->formatID && one->gtrid_length == other->gtrid_length &&
         one->bqual_length == other->bqual_length &&
         memcmp(one->data, other->data, (size_t)(one->gtrid_length + one->bqual_length)) == 0;
}

/* The place with a branch that is ACTIVE or IDLE, and its word; null where there is none. */
static struct place *place_of(struct named_store *store, const XID *xid, uint64_t *word) {
  for (uint64_t index = 0; index < store->sessions; index++) {
    struct place *place = &store->places[index];
    *word = word_in(place);
    if (*word % STATES != ACTIVE && *word % STATES != IDLE)
      continue;
    XID found = branch_of(place);
    if (is_same_branch(xid, &found) && word_in(place) == *word)
      return place;
  }
  return NULL;
}

/* Has the session of a place roll back what isn't prepared. The place is free then, or UNCLEAN without memory. */
static int is_clean_now(struct place *place) {
  nigbaru_answer answer;
  int is_clean = nigbaru_disconnect(&place->session, &answer, 0) == NIGBARU_OK;
  if (!is_clean)
    put_back(place, UNCLEAN);
  return is_clean;
}

/* A place without a branch, to be used for a statement: that of the last time if it is free. Null where none is. */
static struct place *free_place(struct opening *it) {
  struct named_store *store = it->store;
  for (uint64_t step = 0; step < ROUNDS * store->sessions; step++) {
    uint64_t index = (it->last + step) % store->sessions;
    struct place *place = &store->places[index];
    uint64_t word = word_in(place);
    if ((word % STATES != FREE && word % STATES != UNCLEAN) || !is_used_now(place, word))
      continue;
    if (word % STATES == UNCLEAN && !is_clean_now(place))
      continue;
    it->last = index;
    return place;
  }
  return NULL;
}

/* ---- what a thread of control has open ---- */

/* Rolls back the branch that the thread works in, if any, and frees the opening. */
static void end_opening(struct opening *it) {
  if (it->active != NULL && is_clean_now(it->active))
    put_back(it->active, FREE);
  pthread_mutex_lock(&stores_mutex);
  it->store->openings--;
  pthread_mutex_unlock(&stores_mutex);
  free(it->scan);
  free(it);
}

/* A thread that ends without xa_close. */
static void end_openings(void *first) {
  for (struct opening *it = first, *next; it != NULL; it = next) {
    next = it->next;
    end_opening(it);
  }
}

static void make_key(void) { has_key = pthread_key_create(&openings_key, end_openings) == 0; }

static struct opening *first_opening(void) {
  pthread_once(&key_once, make_key);
  return has_key ? pthread_getspecific(openings_key) : NULL;
}

static struct opening *opening_of(int rmid) {
  struct opening *it = first_opening();
  while (it != NULL && it->rmid != rmid)
    it = it->next;
  return it;
}

/* ---- statements ---- */

/* A statement about a branch, tried without a limit where `tries` is 0. */
typedef uint32_t branch_call(nigbaru_session *, const nigbaru_xid *, nigbaru_answer *, uint64_t tries);

static uint32_t commit(nigbaru_session *session, const nigbaru_xid *xid, nigbaru_answer *answer, uint64_t tries) {
  return nigbaru_commit(session, xid, false, answer, tries);
}

static uint32_t commit_one_phase(nigbaru_session *session, const nigbaru_xid *xid, nigbaru_answer *answer,
                                 uint64_t tries) {
  return nigbaru_commit(session, xid, true, answer, tries);
}

static int is_branch_id(const XID *xid) {
  return xid != NULL && xid->formatID >= 0 && xid->gtrid_length >= 1 && xid->gtrid_length <= MAXGTRIDSIZE &&
         xid->bqual_length >= 0 && xid->bqual_length <= MAXBQUALSIZE;
}

/* What a call returns for the store's answer. A statement that its state forbids is C193's XAER_PROTO. */
static int code_of(uint32_t status, const nigbaru_answer *answer, int without_memory) {
  switch (status) {
  case NIGBARU_OK: return XA_OK;
  case NIGBARU_NO_MEMORY: return without_memory;
  case NIGBARU_REFUSED: break;
  default: return XAER_RMERR;
  }
  switch (answer->error) {
  case 1397: return XAER_NOTA;
  case 1398: return XAER_INVAL;
  case 1399: return XAER_PROTO;
  case 1440: return XAER_DUPID;
  default: return XAER_RMERR;
  }
}

/* Has a statement about a branch answered by the session of a place. */
static int say(struct place *place, branch_call *call, const XID *xid, int without_memory) {
  nigbaru_answer answer;
  uint32_t status = call(&place->session, (const nigbaru_xid *)xid, &answer, 0);
  return code_of(status, &answer, without_memory);
}

/* The same by any session that has no branch. */
static int say_anywhere(struct opening *it, branch_call *call, const XID *xid, int without_session) {
  struct place *place = free_place(it);
  if (place == NULL)
    return without_session;
  int code = say(place, call, xid, without_session);
  put_back(place, FREE);
  return code;
}

/* What is wrong with a call's flags, its rmid or its identifier; XA_OK where nothing is. */
static int check(long flags, long known, const struct opening *it, const XID *xid) {
  if (flags & TMASYNC)
    return XAER_ASYNC;
  if (flags & ~known)
    return XAER_INVAL;
  if (it == NULL)
    return XAER_PROTO;
  return is_branch_id(xid) ? XA_OK : XAER_INVAL;
}

/* ---- opening and closing ---- */

struct wanted {
  char name[LONGEST_NAME + 1];
  uint64_t rows, sessions;
};

/* A decimal number of 1 to 6 digits; 0 where it is none. */
static uint64_t number_of(const char *digits, size_t length) {
  uint64_t number = 0;
  if (length < 1 || length > 6)
    return 0;
  for (size_t index = 0; index < length; index++) {
    if (digits[index] < '0' || digits[index] > '9')
      return 0;
    number = 10 * number + (uint64_t)(digits[index] - '0');
  }
  return number;
}

/* Takes one part, `name=value`, of xa_open's string. */
static int read_part(const char *part, size_t length, struct wanted *wanted) {
  static const char store[] = "store=", rows[] = "rows=", sessions[] = "sessions=";
  const size_t before_name = sizeof store - 1, before_rows = sizeof rows - 1, before_sessions = sizeof sessions - 1;
  if (length > before_name && length - before_name <= LONGEST_NAME && memcmp(part, store, before_name) == 0) {
    memcpy(wanted->name, part + before_name, length - before_name);
    wanted->name[length - before_name] = 0;
    return 1;
  }
  if (length > before_rows && memcmp(part, rows, before_rows) == 0)
    return (wanted->rows = number_of(part + before_rows, length - before_rows)) != 0;
  if (length > before_sessions && memcmp(part, sessions, before_sessions) == 0)
    return (wanted->sessions = number_of(part + before_sessions, length - before_sessions)) != 0;
  return 0;
}

/* Reads xa_open's string: parts with a comma between, in any order. Of one that comes twice the last counts. */
static int read_info(const char *info, struct wanted *wanted) {
  if (info == NULL || memchr(info, 0, MAXINFOSIZE) == NULL)
    return 0;
  *wanted = (struct wanted){.name = "nigbaru", .rows = DEFAULT_ROWS, .sessions = DEFAULT_SESSIONS};
  while (*info != 0) {
    size_t length = strcspn(info, ",");
    if (!read_part(info, length, wanted))
      return 0;
    info += length;
    if (*info == ',' && *++info == 0)
      return 0;
  }
  return 1;
}

static void leave_all(struct named_store *it) {
  for (uint64_t index = 0; index < MOST_SESSIONS; index++)
    nigbaru_leave(&it->places[index].session);
}

/* Opens a store, and takes all its sessions; they keep it, so its own handle is closed. */
static uint32_t take_all(struct named_store *it) {
  nigbaru_store store = NIGBARU_EMPTY;
  uint32_t status = nigbaru_open(it->rows, it->sessions, &store);
  for (uint64_t index = 0; index < it->sessions && status == NIGBARU_OK; index++)
    status = nigbaru_take(&store, index + 1, &it->places[index].session);
  if (status != NIGBARU_OK)
    leave_all(it);
  nigbaru_close(&store);
  return status;
}

static struct named_store *made(const struct wanted *wanted) {
  struct named_store *it = zeroed(sizeof *it);
  if (it == NULL)
    return NULL;
  memcpy(it->name, wanted->name, sizeof it->name);
  it->rows = wanted->rows;
  it->sessions = wanted->sessions;
  for (uint64_t index = 0; index < MOST_SESSIONS; index++) {
    const nigbaru_session left = NIGBARU_EMPTY;
    it->places[index].session = left;
    atomic_init(&it->places[index].word, word_of(0, FREE));
  }
  return it;
}

/* The store of a name, which is opened where there is none. The mutex is held. */
static int find_or_open(const struct wanted *wanted, struct named_store **found) {
  struct named_store *it = stores;
  while (it != NULL && strcmp(it->name, wanted->name) != 0)
    it = it->next;
  if (it != NULL) {
    *found = it;
    return it->rows == wanted->rows && it->sessions == wanted->sessions ? XA_OK : XAER_INVAL;
  }
  it = made(wanted);
  if (it == NULL)
    return XAER_RMERR;
  uint32_t status = take_all(it);
  if (status != NIGBARU_OK) {
    free(it);
    return status == NIGBARU_OUT_OF_RANGE ? XAER_INVAL : XAER_RMERR;
  }
  it->next = stores;
  *found = stores = it;
  return XA_OK;
}

/* Opens the store for a thread, or leaves all as it was. */
static int open_store(const struct wanted *wanted, struct opening *it) {
  pthread_mutex_lock(&stores_mutex);
  int code = find_or_open(wanted, &it->store);
  if (code == XA_OK)
    it->store->openings++;
  pthread_mutex_unlock(&stores_mutex);
  return code;
}

static int xa_open_here(char *info, int rmid, long flags) {
  struct wanted wanted;
  if (flags & TMASYNC)
    return XAER_ASYNC;
  if (flags != TMNOFLAGS || !read_info(info, &wanted))
    return XAER_INVAL;
  if (opening_of(rmid) != NULL)
    return XA_OK;
  struct opening *it = has_key ? zeroed(sizeof *it) : NULL;
  if (it == NULL)
    return XAER_RMERR;
  it->rmid = rmid;
  it->next = first_opening();
  int code = open_store(&wanted, it);
  if (code == XA_OK && pthread_setspecific(openings_key, it) == 0)
    return XA_OK;
  if (code == XA_OK) {
    end_opening(it);
    return XAER_RMERR;
  }
  free(it);
  return code;
}

/* Takes an opening out of the thread's list. */
static void unlink_opening(struct opening *it) {
  struct opening *before = first_opening();
  if (before == it) {
    pthread_setspecific(openings_key, it->next);
    return;
  }
  while (before->next != it)
    before = before->next;
  before->next = it->next;
}

static int xa_close_here(char *info, int rmid, long flags) {
  (void)info;
  if (flags & TMASYNC)
    return XAER_ASYNC;
  if (flags != TMNOFLAGS)
    return XAER_INVAL;
  struct opening *it = opening_of(rmid);
  if (it == NULL)
    return XA_OK;
  if (it->active != NULL)
    return XAER_PROTO;
  unlink_opening(it);
  end_opening(it);
  return XA_OK;
}

int nigbaru_xa_drop(const char *store) {
  int code = XAER_INVAL;
  pthread_mutex_lock(&stores_mutex);
  struct named_store **at = &stores;
  while (store != NULL && *at != NULL && strcmp((*at)->name, store) != 0)
    at = &(*at)->next;
  struct named_store *it = store == NULL ? NULL : *at;
  if (it != NULL && it->openings != 0)
    code = XAER_PROTO;
  else if (it != NULL) {
    *at = it->next;
    leave_all(it);
    free(it);
    code = XA_OK;
  }
  pthread_mutex_unlock(&stores_mutex);
  return code;
}

/* ---- what is prepared ---- */

/* All prepared branches, in a block of their own, as a session gives them. */
static uint32_t list_by(struct place *place, XID **listed, size_t *count) {
  nigbaru_answer answer;
  size_t room = 16;
  for (;;) {
    XID *xids = zeroed(room * sizeof *xids);
    if (xids == NULL)
      return NIGBARU_NO_MEMORY;
    uint32_t status = nigbaru_recover(&place->session, &answer, (nigbaru_xid *)xids, room, 0);
    if (status == NIGBARU_LIST && answer.count <= room) {
      *listed = xids;
      *count = (size_t)answer.count;
      return NIGBARU_OK;
    }
    free(xids);
    if (status != NIGBARU_LIST)
      return status;
    room = (size_t)answer.count;
  }
}

static uint32_t list_prepared(struct opening *it, XID **listed, size_t *count) {
  struct place *place = free_place(it);
  if (place == NULL)
    return NIGBARU_NO_SESSION;
  uint32_t status = list_by(place, listed, count);
  put_back(place, FREE);
  return status;
}

/* What a call returns for a branch that isn't as it has to be: it is there in another state, or unknown. */
static int code_of_other(struct opening *it, const XID *xid, int without_memory) {
  XID *listed;
  size_t count;
  uint64_t word;
  if (place_of(it->store, xid, &word) != NULL)
    return XAER_PROTO;
  if (list_prepared(it, &listed, &count) != NIGBARU_OK)
    return without_memory;
  int code = XAER_NOTA;
  for (size_t index = 0; index < count; index++)
    if (is_same_branch(&listed[index], xid))
      code = XAER_PROTO;
  free(listed);
  return code;
}

/* ---- work in a branch ---- */

static int xa_start_here(XID *xid, int rmid, long flags) {
  struct opening *it = opening_of(rmid);
  int code = check(flags, TMJOIN | TMRESUME | TMNOWAIT, it, xid);
  if (code != XA_OK)
    return code;
  /* The store knows neither (docs/STATEMENTS.md). */
  if (flags & (TMJOIN | TMRESUME))
    return XAER_INVAL;
  if (it->active != NULL)
    return XAER_PROTO;
  struct place *place = free_place(it);
  if (place == NULL)
    return XAER_RMERR;
  code = say(place, nigbaru_start, xid, XAER_RMERR);
  if (code == XA_OK) {
    keep_branch(place, xid);
    it->active = place;
  } else
    put_back(place, FREE);
  return code;
}

static int xa_end_here(XID *xid, int rmid, long flags) {
  struct opening *it = opening_of(rmid);
  int code = check(flags, TMSUSPEND | TMMIGRATE | TMSUCCESS | TMFAIL, it, xid);
  if (code != XA_OK)
    return code;
  /* The store has no branch whose work is suspended (docs/STATEMENTS.md). */
  if (flags != TMSUCCESS && flags != TMFAIL)
    return XAER_INVAL;
  if (it->active == NULL)
    return XAER_PROTO;
  XID own = branch_of(it->active);
  if (!is_same_branch(xid, &own))
    return code_of_other(it, xid, XAER_RMERR);
  code = say(it->active, nigbaru_end, xid, XAER_RMERR);
  if (code == XA_OK) {
    put_back(it->active, IDLE);
    it->active = NULL;
  }
  return code;
}

/* ---- the end of a branch ---- */

/* Has the session of an idle branch, whichever thread worked in it, answer a statement that ends or prepares it.
   XAER_NOTA where no branch is idle or active under this identifier, XAER_PROTO where it is active, or another thread
   is in such a call. */
static int finish(struct opening *it, branch_call *call, const XID *xid, int without_memory) {
  uint64_t word;
  struct place *place = place_of(it->store, xid, &word);
  if (place == NULL)
    return XAER_NOTA;
  if (word % STATES != IDLE || !is_used_now(place, word))
    return XAER_PROTO;
  int code = say(place, call, xid, without_memory);
  put_back(place, code == XA_OK ? FREE : IDLE);
  return code;
}

static int xa_prepare_here(XID *xid, int rmid, long flags) {
  struct opening *it = opening_of(rmid);
  int code = check(flags, TMNOFLAGS, it, xid);
  if (code != XA_OK)
    return code;
  code = finish(it, nigbaru_prepare, xid, XAER_RMERR);
  return code == XAER_NOTA ? code_of_other(it, xid, XAER_RMERR) : code;
}

static int xa_commit_here(XID *xid, int rmid, long flags) {
  struct opening *it = opening_of(rmid);
  uint64_t word;
  int code = check(flags, TMONEPHASE | TMNOWAIT, it, xid);
  if (code != XA_OK)
    return code;
  if (flags & TMONEPHASE) {
    code = finish(it, commit_one_phase, xid, XAER_RMFAIL);
    /* XAER_RMERR would say that the branch was rolled back. */
    return code == XAER_NOTA ? code_of_other(it, xid, XAER_RMFAIL) : code;
  }
  return place_of(it->store, xid, &word) != NULL ? XAER_PROTO : say_anywhere(it, commit, xid, XA_RETRY);
}

static int xa_rollback_here(XID *xid, int rmid, long flags) {
  struct opening *it = opening_of(rmid);
  int code = check(flags, TMNOFLAGS, it, xid);
  if (code != XA_OK)
    return code;
  code = finish(it, nigbaru_rollback, xid, XAER_RMFAIL);
  return code == XAER_NOTA ? say_anywhere(it, nigbaru_rollback, xid, XAER_RMFAIL) : code;
}

/* No branch is ever completed by the store's own decision, so there is none to forget. */
static int xa_forget_here(XID *xid, int rmid, long flags) {
  int code = check(flags, TMNOFLAGS, opening_of(rmid), xid);
  return code != XA_OK ? code : XAER_NOTA;
}

/* ---- recovery ---- */

static void end_scan(struct opening *it) {
  free(it->scan);
  it->scan = NULL;
  it->is_scanning = 0;
}

static int begin_scan(struct opening *it) {
  end_scan(it);
  if (list_prepared(it, &it->scan, &it->scan_count) != NIGBARU_OK)
    return XAER_RMERR;
  it->scan_at = 0;
  it->is_scanning = 1;
  return XA_OK;
}

static int xa_recover_here(XID *xids, long count, int rmid, long flags) {
  struct opening *it = opening_of(rmid);
  if ((flags & ~(TMSTARTRSCAN | TMENDRSCAN)) || count < 0 || (xids == NULL && count > 0))
    return XAER_INVAL;
  if (it == NULL)
    return XAER_PROTO;
  if (!(flags & TMSTARTRSCAN) && !it->is_scanning)
    return XAER_INVAL;
  if ((flags & TMSTARTRSCAN) && begin_scan(it) != XA_OK)
    return XAER_RMERR;
  size_t left = it->scan_count - it->scan_at, given = left < (size_t)count ? left : (size_t)count;
  if (given > 0)
    memcpy(xids, it->scan + it->scan_at, given * sizeof *xids);
  it->scan_at += given;
  if ((flags & TMENDRSCAN) || given < (size_t)count)
    end_scan(it);
  return (int)given;
}

/* No call is asynchronous, so none is awaited. */
static int xa_complete_here(int *handle, int *retval, int rmid, long flags) {
  (void)rmid;
  return (flags & ~(TMMULTIPLE | TMNOWAIT)) || handle == NULL || retval == NULL ? XAER_INVAL : XAER_PROTO;
}

struct xa_switch_t nigbaru_xa_switch = {
    .name = "nigbaru",
    .flags = TMNOMIGRATE,
    .version = 0,
    .xa_open_entry = xa_open_here,
    .xa_close_entry = xa_close_here,
    .xa_start_entry = xa_start_here,
    .xa_end_entry = xa_end_here,
    .xa_rollback_entry = xa_rollback_here,
    .xa_prepare_entry = xa_prepare_here,
    .xa_commit_entry = xa_commit_here,
    .xa_recover_entry = xa_recover_here,
    .xa_forget_entry = xa_forget_here,
    .xa_complete_entry = xa_complete_here,
};

/* ---- rows ---- */

enum row_verb { GET, PUT, DELETE };

/* Has a statement about a row answered by a session. */
static uint32_t say_of_row(nigbaru_session *session, enum row_verb verb, const void *key, size_t key_length,
                           const void *value, size_t length, nigbaru_answer *answer) {
  switch (verb) {
  case GET: return nigbaru_get(session, key, key_length, answer, 0);
  case PUT: return nigbaru_put(session, key, key_length, value, length, answer, 0);
  default: return nigbaru_del(session, key, key_length, answer, 0);
  }
}

/* The same, and what the application gets of the answer. */
static int row(int rmid, enum row_verb verb, const void *key, size_t key_length, const void *value, size_t length,
               nigbaru_answer *answer) {
  if (key == NULL || (value == NULL && length != 0))
    return NIGBARU_NO_POINTER;
  if (key_length < 1 || key_length > 64 || length > 64)
    return NIGBARU_OUT_OF_RANGE;
  struct opening *it = opening_of(rmid);
  if (it == NULL)
    return NIGBARU_NO_HANDLE;
  struct place *place = it->active != NULL ? it->active : free_place(it);
  if (place == NULL)
    return NIGBARU_NO_SESSION;
  uint32_t status = say_of_row(&place->session, verb, key, key_length, value, length, answer);
  if (place != it->active)
    put_back(place, FREE);
  return status == NIGBARU_REFUSED ? (int)answer->error : (int)status;
}

int nigbaru_xa_get(int rmid, const void *key, size_t key_length, unsigned char value[64], size_t *length) {
  if (value == NULL || length == NULL)
    return NIGBARU_NO_POINTER;
  nigbaru_answer answer;
  int status = row(rmid, GET, key, key_length, NULL, 0, &answer);
  if (status == NIGBARU_VALUE) {
    *length = (size_t)answer.length;
    memcpy(value, answer.value, *length);
  }
  return status;
}

int nigbaru_xa_put(int rmid, const void *key, size_t key_length, const void *value, size_t length) {
  nigbaru_answer answer;
  return row(rmid, PUT, key, key_length, value, length, &answer);
}

int nigbaru_xa_delete(int rmid, const void *key, size_t key_length) {
  nigbaru_answer answer;
  return row(rmid, DELETE, key, key_length, NULL, 0, &answer);
}
