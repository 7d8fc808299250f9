/* The headers by themselves, as C11 and as C++17: layouts, statuses, and the words of each. */
#include "nigbaru.h"
#include "nigbaru_shared.h"
#include "nigbaru_xa.h"

#include "check.h"

#ifdef __cplusplus
#define HOLDS(what) static_assert(what, #what)
#else
#define HOLDS(what) _Static_assert(what, #what)
#endif

HOLDS(sizeof(nigbaru_xid) == sizeof(XID));
HOLDS(offsetof(nigbaru_xid, formatID) == offsetof(XID, formatID));
HOLDS(offsetof(nigbaru_xid, gtrid_length) == offsetof(XID, gtrid_length));
HOLDS(offsetof(nigbaru_xid, bqual_length) == offsetof(XID, bqual_length));
HOLDS(offsetof(nigbaru_xid, data) == offsetof(XID, data));
HOLDS(sizeof(nigbaru_handle) == sizeof(void *));
HOLDS(sizeof(((nigbaru_answer *)0)->value) == 64);
HOLDS(offsetof(nigbaru_entry, text) == 24);
HOLDS(sizeof(((nigbaru_entry *)0)->text) == NIGBARU_TEXT);

int main(void) {
  nigbaru_store store = NIGBARU_EMPTY;
  nigbaru_session session = NIGBARU_EMPTY;
  SAME(nigbaru_close(&store), NIGBARU_NO_HANDLE);
  SAME(nigbaru_leave(&session), NIGBARU_NO_HANDLE);
  static const uint32_t statuses[] = {NIGBARU_OK, NIGBARU_VALUE, NIGBARU_NONE, NIGBARU_LIST, NIGBARU_REFUSED,
                                      NIGBARU_OVERTAKEN, NIGBARU_NO_MEMORY, NIGBARU_SYNTAX, NIGBARU_NO_HANDLE,
                                      NIGBARU_OUT_OF_RANGE, NIGBARU_NO_SESSION, NIGBARU_HELD, NIGBARU_BUSY,
                                      NIGBARU_NO_POINTER, NIGBARU_BEHIND};
  const size_t count = sizeof statuses / sizeof *statuses;
  uint32_t known = 0;
  for (size_t index = 0; index < count; index++) {
    known |= 1u << statuses[index];
    SAME(strcmp(nigbaru_text(statuses[index]), "no status") == 0, 0);
    for (size_t other = 0; other < index; other++)
      CHECK(strcmp(nigbaru_text(statuses[index]), nigbaru_text(statuses[other])) != 0);
  }
  for (uint32_t status = 0; status < 32; status++)
    if (!(known & (1u << status)))
      SAME(strcmp(nigbaru_text(status), "no status"), 0);
  SAME(strcmp(nigbaru_text(UINT32_MAX), "no status"), 0);
  CHECK(strcmp(nigbaru_xa_switch.name, "nigbaru") == 0);
  SAME(nigbaru_xa_switch.version, 0);
  SAME(nigbaru_xa_switch.flags, TMNOMIGRATE);
  return 0;
}
