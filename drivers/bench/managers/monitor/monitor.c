/* A transaction monitor of a few lines, over an xa_switch_t: presumed abort, a file of decisions, and recovery.

       monitor run VALUE | recover

   It writes a row into each store of 127.0.0.1 whose port is in $PORTS, in one transaction, and keeps its decisions in
   the current folder. Status 0: all is committed, or recovered. */
#include "mariadb_xa.h"

#include <stdio.h>
#include <stdlib.h>
#include <string.h>
#include <sys/random.h>
#include <unistd.h>

#define MOST 64
#define FORMAT 67
#define OWN "monitor " /* its gtrids begin so */
#define TRIES 3
#define PAGE 8 /* identifiers that one xa_recover lists */

static struct xa_switch_t *const xa = &mariadb_xa_switch;
static char *infos[MOST + 1]; /* by rmid */
static int stores;

static void read_ports(void) {
  char *ports = getenv("PORTS");
  for (char *port = strtok(ports ? strdup(ports) : NULL, " "); port && stores < MOST; port = strtok(NULL, " "))
    infos[++stores] = port;
}

static XID xid_of(const char *gtrid, int rmid) {
  XID xid = {.formatID = FORMAT, .gtrid_length = (long)strlen(gtrid)};
  memcpy(xid.data, gtrid, strlen(gtrid));
  xid.bqual_length = snprintf(xid.data + xid.gtrid_length, MAXBQUALSIZE, "%d", rmid);
  return xid;
}

/* The work of a branch, and the end of it. */
static int work(XID *xid, int rmid, const char *value) {
  char text[128];
  snprintf(text, sizeof text, "PUT 'row','%s'", value);
  return xa->xa_open_entry(infos[rmid], rmid, TMNOFLAGS) == XA_OK &&
         xa->xa_start_entry(xid, rmid, TMNOFLAGS) == XA_OK && mariadb_xa_query(rmid, text) == XA_OK &&
         xa->xa_end_entry(xid, rmid, TMSUCCESS) == XA_OK;
}

/* Keeps the decision to commit, whose file is on the disk before anything commits. No decision means to roll back. */
static int decide(const char *gtrid) {
  FILE *file = fopen("decisions", "a");
  int is_kept = file && fprintf(file, "%s\n", gtrid) > 0 && fflush(file) == 0 && fsync(fileno(file)) == 0;
  return file && fclose(file) == 0 && is_kept;
}

static int is_decided(const char *gtrid) {
  char line[MAXGTRIDSIZE + 2];
  FILE *file = fopen("decisions", "r");
  int found = 0;
  while (file && !found && fgets(line, sizeof line, file))
    found = strcspn(line, "\n") == strlen(gtrid) && strncmp(line, gtrid, strlen(gtrid)) == 0;
  if (file)
    fclose(file);
  return found;
}

/* Commits or rolls back a prepared branch, with a few tries; whether it is known to have ended so. A branch that isn't
   there any more has been committed only if an answer was lost before. Whatever isn't known is left to recovery, for as
   long as a store lists it. */
static int finish(XID *xid, int rmid, int commits) {
  int is_lost = 0;
  for (int attempt = 0; attempt < TRIES; attempt++) {
    if (xa->xa_open_entry(infos[rmid], rmid, TMNOFLAGS) != XA_OK)
      continue;
    int status = commits ? xa->xa_commit_entry(xid, rmid, TMNOFLAGS) : xa->xa_rollback_entry(xid, rmid, TMNOFLAGS);
    if (status == XA_OK || (status == XAER_NOTA && (is_lost || !commits)))
      return 1;
    if (status == XAER_NOTA)
      return 0;
    is_lost = is_lost || status == XAER_RMFAIL;
  }
  return 0;
}

static void new_gtrid(char gtrid[MAXGTRIDSIZE + 1]) {
  unsigned long number = 0;
  if (getrandom(&number, sizeof number, 0) != (ssize_t)sizeof number)
    exit(2);
  snprintf(gtrid, MAXGTRIDSIZE + 1, OWN "%016lx", number);
}

static int run(const char *value) {
  char gtrid[MAXGTRIDSIZE + 1];
  XID xids[MOST + 1];
  int votes = 0, worked = 0, ended = 0;
  new_gtrid(gtrid);
  for (int rmid = 1; rmid <= stores; rmid++) {
    xids[rmid] = xid_of(gtrid, rmid);
    worked += worked == rmid - 1 && work(&xids[rmid], rmid, value);
  }
  for (int rmid = 1; worked == stores && rmid <= stores; rmid++)
    votes += xa->xa_prepare_entry(&xids[rmid], rmid, TMNOFLAGS) == XA_OK;
  int commits = worked == stores && votes == stores && decide(gtrid);
  for (int rmid = 1; rmid <= stores; rmid++)
    xa->xa_close_entry(infos[rmid], rmid, TMNOFLAGS); /* which rolls back what isn't prepared */
  for (int rmid = 1; rmid <= stores; rmid++)
    ended += finish(&xids[rmid], rmid, commits);
  return commits && ended == stores;
}

/* Finishes a branch that a store lists, if it is this monitor's; whether it needn't be looked at again. */
static int recover_one(XID *xid, int rmid) {
  char gtrid[MAXGTRIDSIZE + 1] = "";
  memcpy(gtrid, xid->data, (size_t)xid->gtrid_length);
  if (xid->formatID != FORMAT || strncmp(gtrid, OWN, strlen(OWN)) != 0)
    return 1;
  return finish(xid, rmid, is_decided(gtrid));
}

static int recover_store(int rmid) {
  XID xids[PAGE];
  long flags = TMSTARTRSCAN;
  int count, all = 1;
  if (xa->xa_open_entry(infos[rmid], rmid, TMNOFLAGS) != XA_OK)
    return 0;
  do {
    count = xa->xa_recover_entry(xids, PAGE, rmid, flags);
    flags = TMNOFLAGS;
    for (int index = 0; index < count; index++)
      all = recover_one(&xids[index], rmid) && all;
  } while (count == PAGE);
  return all && count >= 0;
}

static int recover(void) {
  int all = 1;
  for (int rmid = 1; rmid <= stores; rmid++)
    all = recover_store(rmid) && all;
  return all;
}

int main(int count, char **words) {
  read_ports();
  if (count == 3 && strcmp(words[1], "run") == 0)
    return !run(words[2]);
  if (count == 2 && strcmp(words[1], "recover") == 0)
    return !recover();
  fprintf(stderr, "monitor run VALUE | recover\n");
  return 2;
}
