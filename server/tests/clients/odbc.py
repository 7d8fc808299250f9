"""A cycle by MariaDB's driver for ODBC, through pyodbc; prints what `test_clients` expects, but for XA RECOVER.

The driver shows the rows of a text that has no parameters only if it begins as a query of SQL, also with a MariaDB. So
GET has one, and XA RECOVER isn't asked.
"""
import sys

import pyodbc

SETTINGS = (
    f"DRIVER=/usr/lib/x86_64-linux-gnu/odbc/libmaodbc.so;SERVER=127.0.0.1;PORT={sys.argv[1]};UID=root;PWD=;DATABASE=db")
connection = pyodbc.connect(SETTINGS, autocommit=True)
cursor = connection.cursor()
XID = "X'6700','b',7"


def value(key):
    return bytes(cursor.execute("GET ?", key).fetchone()[0]).hex()


cursor.execute(f"XA START {XID}")
cursor.execute("PUT ?,?", b"k", b"\0\n'\xff\\")
cursor.execute(f"XA END {XID}")
cursor.execute(f"XA PREPARE {XID}")
cursor.execute(f"XA COMMIT {XID}")
print("value", value("k"))
for text in ("XA END 'none'", "NONSENSE"):
    try:
        cursor.execute(text)
    except pyodbc.Error as refused:
        print("refused", refused.args[1].rpartition("(")[0].rpartition("(")[2].partition(")")[0])
connection.autocommit = False
cursor.execute("PUT 'l','local'")
connection.commit()
print("local", value("l"))
connection.commit()
connection.autocommit = True
cursor.execute("PUT ?,?", "p", "p\n'")
print("prepared", value("p"))
pool = [pyodbc.connect(SETTINGS, autocommit=True) for _ in range(30)]
for number, each in enumerate(pool):
    for text in (f"XA START 'p{number}'", f"PUT 'row {number}','{number}'", f"XA END 'p{number}'",
                 f"XA PREPARE 'p{number}'"):
        each.execute(text)
for number, each in enumerate(pool):
    each.execute(f"XA COMMIT 'p{29 - number}'")
print("thirty", sum(bytes(each.execute("GET ?", f"row {number}").fetchone()[0]) == b"%d" % number
                    for number, each in enumerate(pool)))
