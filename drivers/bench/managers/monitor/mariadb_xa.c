#include "mariadb_xa.h"

#include <mysql.h>
#include <stdio.h>
#include <stdlib.h>
#include <string.h>

#define MOST 64
#define SECONDS 30 /* for an answer */
#define TEXT 512

static struct {
  MYSQL *link;
  MYSQL_RES *scan; /* of xa_recover */
} managers[MOST + 1];

static int is_rmid(int rmid) { return rmid >= 1 && rmid <= MOST; }

static void drop(int rmid) {
  mysql_free_result(managers[rmid].scan);
  mysql_close(managers[rmid].link);
  managers[rmid].scan = NULL;
  managers[rmid].link = NULL;
}

/* What a refusal means in X/Open's words. The client library's own errors, from 2000 on, say that the connection is
   lost. */
static int meaning(int rmid, unsigned number) {
  if (number >= 2000 && number < 3000) {
    drop(rmid);
    return XAER_RMFAIL;
  }
  switch (number) {
  case 1397:
    return XAER_NOTA;
  case 1398:
    return XAER_INVAL;
  case 1399: /* a call out of order, which MySQL names XAER_RMFAIL */
    return XAER_PROTO;
  case 1402:
    return XA_RBROLLBACK;
  case 1440:
    return XAER_DUPID;
  default:
    return XAER_RMERR;
  }
}

int mariadb_xa_query(int rmid, const char *text) {
  if (!is_rmid(rmid))
    return XAER_INVAL;
  if (!managers[rmid].link)
    return XAER_RMFAIL;
  return mysql_query(managers[rmid].link, text) ? meaning(rmid, mysql_errno(managers[rmid].link)) : XA_OK;
}

/* `XA VERB X'..',X'..',N CLAUSE` */
static int ask(const char *verb, const XID *xid, int rmid, const char *clause) {
  char text[TEXT], gtrid[2 * MAXGTRIDSIZE + 1], bqual[2 * MAXBQUALSIZE + 1];
  mysql_hex_string(gtrid, xid->data, (unsigned long)xid->gtrid_length);
  mysql_hex_string(bqual, xid->data + xid->gtrid_length, (unsigned long)xid->bqual_length);
  snprintf(text, sizeof text, "XA %s X'%s',X'%s',%ld%s", verb, gtrid, bqual, xid->formatID, clause);
  return mariadb_xa_query(rmid, text);
}

static int do_open(char *info, int rmid, long flags) {
  unsigned seconds = SECONDS;
  (void)flags;
  if (!is_rmid(rmid))
    return XAER_INVAL;
  if (managers[rmid].link)
    return XA_OK;
  managers[rmid].link = mysql_init(NULL);
  if (!managers[rmid].link)
    return XAER_RMERR;
  mysql_options(managers[rmid].link, MYSQL_OPT_READ_TIMEOUT, &seconds);
  if (mysql_real_connect(managers[rmid].link, "127.0.0.1", "root", NULL, NULL, (unsigned)atoi(info), NULL, 0))
    return XA_OK;
  drop(rmid);
  return XAER_RMERR;
}

static int do_close(char *info, int rmid, long flags) {
  (void)info, (void)flags;
  if (!is_rmid(rmid))
    return XAER_INVAL;
  drop(rmid);
  return XA_OK;
}

static int do_start(XID *xid, int rmid, long flags) {
  return flags == TMNOFLAGS ? ask("START", xid, rmid, "") : XAER_INVAL;
}

static int do_end(XID *xid, int rmid, long flags) {
  return flags == TMSUCCESS || flags == TMFAIL ? ask("END", xid, rmid, "") : XAER_INVAL;
}

static int do_rollback(XID *xid, int rmid, long flags) {
  return flags == TMNOFLAGS ? ask("ROLLBACK", xid, rmid, "") : XAER_INVAL;
}

static int do_prepare(XID *xid, int rmid, long flags) {
  return flags == TMNOFLAGS ? ask("PREPARE", xid, rmid, "") : XAER_INVAL;
}

static int do_commit(XID *xid, int rmid, long flags) {
  return flags == TMNOFLAGS || flags == TMONEPHASE ? ask("COMMIT", xid, rmid, flags == TMONEPHASE ? " ONE PHASE" : "")
                                                   : XAER_INVAL;
}

static int start_scan(int rmid) {
  int status = mariadb_xa_query(rmid, "XA RECOVER");
  if (status != XA_OK)
    return status;
  mysql_free_result(managers[rmid].scan);
  managers[rmid].scan = mysql_store_result(managers[rmid].link);
  return managers[rmid].scan ? XA_OK : meaning(rmid, mysql_errno(managers[rmid].link));
}

static int do_recover(XID *xids, long count, int rmid, long flags) {
  MYSQL_ROW row;
  long found = 0;
  int status = flags & TMSTARTRSCAN ? start_scan(rmid) : XA_OK;
  if (status != XA_OK)
    return status;
  if (!is_rmid(rmid) || !managers[rmid].scan)
    return XAER_INVAL;
  while (found < count && (row = mysql_fetch_row(managers[rmid].scan))) {
    XID *xid = &xids[found++];
    xid->formatID = atol(row[0]);
    xid->gtrid_length = atol(row[1]);
    xid->bqual_length = atol(row[2]);
    memcpy(xid->data, row[3], (size_t)(xid->gtrid_length + xid->bqual_length));
  }
  return (int)found;
}

/* Nothing is decided heuristically, and no call goes on by itself. */
static int do_forget(XID *xid, int rmid, long flags) {
  (void)xid, (void)rmid, (void)flags;
  return XAER_NOTA;
}

static int do_complete(int *handle, int *result, int rmid, long flags) {
  (void)handle, (void)result, (void)rmid, (void)flags;
  return XAER_PROTO;
}

struct xa_switch_t mariadb_xa_switch = {.name = "mariadb",
                                        .flags = TMNOMIGRATE,
                                        .xa_open_entry = do_open,
                                        .xa_close_entry = do_close,
                                        .xa_start_entry = do_start,
                                        .xa_end_entry = do_end,
                                        .xa_rollback_entry = do_rollback,
                                        .xa_prepare_entry = do_prepare,
                                        .xa_commit_entry = do_commit,
                                        .xa_recover_entry = do_recover,
                                        .xa_forget_entry = do_forget,
                                        .xa_complete_entry = do_complete};
