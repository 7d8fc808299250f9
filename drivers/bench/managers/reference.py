#!/usr/bin/env python3
"""A small transaction manager: presumed abort, a file of decisions, and recovery.

    reference.py run VALUE | recover

It writes a row into each store of 127.0.0.1 whose port is in $PORTS, in one transaction, and keeps its decisions in the
current folder. Status 0: all is committed, or recovered.
"""
import os
import sys

import pymysql

MANAGER = "reference "  # its gtrids begin so
STORES = dict(enumerate(map(int, os.environ["PORTS"].split()), 1))
ASKED = set()  # branches that this process has asked to end: if one isn't there any more, this did it
NOTA = 1397  # what a store answers if it hasn't the branch


def connect(number):
    return pymysql.connect(host="127.0.0.1", port=STORES[number], user="root", autocommit=True)


def ask(connection, text, *values):
    with connection.cursor() as cursor:
        cursor.execute(text, tuple(map(str, values)))
        return cursor.fetchall()


def vote(connection, gtrid, number):
    """Whether the branch is prepared. An answer that is lost counts as no."""
    try:
        ask(connection, "XA PREPARE %s,%s", gtrid, number)
        return True
    except pymysql.Error:
        return False


def decide(gtrid):
    """Keeps the decision to commit. No decision means to roll back."""
    with open("decisions", "a") as file:
        file.write(f"{gtrid}\n")
        os.fsync(file)


def finish(verb, gtrid, number):
    """Commits or rolls back a prepared branch, with two tries; whether it is known to have ended so."""
    for _ in range(2):
        try:
            ask(connect(number), f"XA {verb} %s,%s", gtrid, number)
            return True
        except pymysql.Error as fault:
            if fault.args[0] == NOTA:
                return verb == "ROLLBACK" or (gtrid, number) in ASKED
        finally:
            ASKED.add((gtrid, number))
    return False


def run(value):
    gtrid = MANAGER + os.urandom(8).hex()
    connections = {}
    try:
        for number in STORES:
            connections[number] = connect(number)
            ask(connections[number], "XA START %s,%s", gtrid, number)
            ask(connections[number], "PUT 'row',%s", value)
            ask(connections[number], "XA END %s,%s", gtrid, number)
        votes = [vote(connections[number], gtrid, number) for number in STORES]
    except pymysql.Error:
        votes = [False]
    is_yes = all(votes)
    if is_yes:
        decide(gtrid)
    for connection in connections.values():
        connection._force_close()  # which rolls back what isn't prepared
    ended = [finish("COMMIT" if is_yes else "ROLLBACK", gtrid, number) for number in STORES]
    return is_yes and all(ended)


def recover():
    decided = open("decisions").read().splitlines() if os.path.exists("decisions") else []
    ended = []
    for number in STORES:
        for _, length, _, name in ask(connect(number), "XA RECOVER"):
            gtrid = name[:length].decode()
            if gtrid.startswith(MANAGER):
                ended.append(finish("COMMIT" if gtrid in decided else "ROLLBACK", gtrid, number))
    return all(ended)


sys.exit(not (run(sys.argv[2]) if sys.argv[1] == "run" else recover()))
