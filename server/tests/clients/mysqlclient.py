"""A cycle by mysqlclient; prints what `test_clients` expects."""
import sys

import MySQLdb

connection = MySQLdb.connect(host="127.0.0.1", port=int(sys.argv[1]), user="root", charset="utf8mb4")
connection.autocommit(True)
cursor = connection.cursor()
xid = (b"g\0", b"b", 7)
for text, values in (("XA START %s,%s,%s", xid), ("PUT %s,%s", (b"k", b"\0\n'\xff\\")), ("XA END %s,%s,%s", xid),
                     ("XA PREPARE %s,%s,%s", xid)):
    cursor.execute(text, values)
cursor.execute("XA RECOVER")
number, gtrid, bqual, data = cursor.fetchone()
print("listed", number, gtrid, bqual, data.hex())
cursor.execute("XA COMMIT %s,%s,%s", xid)
cursor.execute("GET 'k'")
print("value", cursor.fetchone()[0].hex())
for text in ("XA END 'none'", "NONSENSE"):
    try:
        cursor.execute(text)
    except MySQLdb.Error as refused:
        print("refused", refused.args[0])
connection.autocommit(False)
cursor.execute("PUT 'l','local'")
connection.commit()
cursor.execute("GET 'l'")
print("local", cursor.fetchone()[0].hex())
connection.rollback()

pool = [MySQLdb.connect(host="127.0.0.1", port=int(sys.argv[1]), user="root", autocommit=True) for _ in range(30)]
for number, each in enumerate(pool):
    for text in (f"XA START 'p{number}'", f"PUT 'row {number}','{number}'", f"XA END 'p{number}'",
                 f"XA PREPARE 'p{number}'"):
        each.cursor().execute(text)
listed = pool[0].cursor()
print("thirty", listed.execute("XA RECOVER"))
for number, each in enumerate(pool):
    each.cursor().execute(f"XA COMMIT 'p{29 - number}'")
