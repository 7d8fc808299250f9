/* A server of MySQL's protocol as a resource manager of X/Open C193, over MariaDB's client library. The string of
   xa_open is a port of 127.0.0.1.

   One thread of control, and rmids from 1 to 64. A connection that is lost returns XAER_RMFAIL until xa_open makes
   another. */
#ifndef MARIADB_XA_H
#define MARIADB_XA_H

#include "xa.h"

extern struct xa_switch_t mariadb_xa_switch;

/* A statement of the application, in its branch. XA_OK, or as the switch's calls return. */
int mariadb_xa_query(int rmid, const char *text);

#endif
