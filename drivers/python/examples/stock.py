#!/usr/bin/env python3
"""Four clerks sell from one stock at the same time: each reads how much is left, and writes one less.

    drivers/python/examples/stock.py [--program PATH] [--clerks N] [--sales N]

A row that another transaction holds is refused at once, with 3572, and nobody waits for it. So a clerk who is refused
rolls back, which frees what the transaction held, steps aside for a moment, and begins anew with what is then in the
stock. No sale is lost, and none is counted twice. It needs the package `nigbaru`: `pip install drivers/python`, or
PYTHONPATH=drivers/python.
"""
from __future__ import annotations

import argparse
import itertools
import random
import threading
import time
from typing import List

import nigbaru

LOCKED = 3572


def sell(connection: nigbaru.Connection, sale: str) -> int:
    """Takes one off the stock, and gives how often that was refused before."""
    for refused in itertools.count():
        connection.tpc_begin(connection.xid(1, sale, "stock"))
        try:
            left = int(connection.get("stock") or b"0")
            connection.put("stock", str(left - 1))
        except nigbaru.OperationalError as error:
            if error.number != LOCKED:
                raise
            connection.tpc_rollback()
            # Longer each time, and for a time of its own, so that two that hinder each other don't come back together.
            time.sleep(random.uniform(0, 0.0002) * 2 ** min(refused, 8))
        else:
            connection.tpc_prepare()
            connection.tpc_commit()
            return refused
    raise AssertionError("counting ends nowhere")


def work(server: nigbaru.Server, clerk: int, sales: int, refusals: List[int]) -> None:
    """A clerk's day, over a connection of its own, since threads share none."""
    with server.connect() as connection:
        refusals[clerk] = sum(sell(connection, f"clerk {clerk} sale {sale}") for sale in range(sales))


def main() -> None:
    words = argparse.ArgumentParser(description="Clerks sell from one stock at the same time.")
    words.add_argument("--program", help="xa_script; where it isn't given NIGBARU_PROGRAM has it, or it is on PATH")
    words.add_argument("--clerks", type=int, default=4, help="from 1 to 15 (4)")
    words.add_argument("--sales", type=int, default=100, help="of each clerk (100)")
    given = words.parse_args()
    with nigbaru.Server(program=given.program, timeout=60) as server, server.connect() as owner:
        owner.put("stock", str(given.clerks * given.sales))
        refusals = [0] * given.clerks
        clerks = [threading.Thread(target=work, args=(server, clerk, given.sales, refusals))
                  for clerk in range(given.clerks)]
        for clerk in clerks:
            clerk.start()
        for clerk in clerks:
            clerk.join()
        print(f"{given.clerks * given.sales} were to be sold; {int(owner.get('stock') or b'')} are left")
        print(f"a row was locked {sum(refusals)} times, and the sale was tried again")


if __name__ == "__main__":
    main()
