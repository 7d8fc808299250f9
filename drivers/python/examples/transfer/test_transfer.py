"""Breaks transfers. Alice has 100 in store 1, and bob has 0 in store 2."""
import random
import sys
import time
from concurrent.futures import ThreadPoolExecutor
from pathlib import Path

import pytest
from nigbaru import OperationalError
from transfer import Transfer

pytestmark = pytest.mark.nigbaru(stores=2)
LOCKED = 3572
TRANSFER = (sys.executable, Path(__file__).with_name("transfer.py"))


@pytest.fixture
def server(nigbaru_server):
    nigbaru_server.put(1, "alice", "100")
    nigbaru_server.put(2, "bob", "0")
    return nigbaru_server


def moved(server):
    """The amount that alice has lost and bob has won, which must be the same, while nothing is in doubt."""
    assert server.in_doubt() == [[], []]
    lost, won = 100 - int(server.get(1, "alice")), int(server.get(2, "bob"))
    assert lost == won
    return won


def test_killed_before_the_decision(server):
    """Store 1 has voted, and store 2 hasn't: the recovery rolls back."""
    server.kill_before("STORE 2 XA PREPARE 1", *TRANSFER, "10")
    assert [len(branches) for branches in server.in_doubt()] == [1, 0]
    assert server.run(*TRANSFER) == (0, "")
    assert moved(server) == 0
    assert server.audit() == {"ATOMIC": 1}


def test_killed_after_the_decision(server):
    """Both have voted, and the decision is in the file: the recovery commits."""
    server.kill_before("STORE 1 XA COMMIT 1", *TRANSFER, "10")
    assert [len(branches) for branches in server.in_doubt()] == [1, 1]
    assert server.run(*TRANSFER) == (0, "")
    assert moved(server) == 10
    assert server.audit() == {"ATOMIC": 1}


def test_a_commit_whose_answer_is_cut(server):
    """Store 1 commits, but its answer is lost: the manager looks for the branch again, and finds none."""
    server.fault("STORE 1 XA COMMIT 1 close-after")
    assert server.run(*TRANSFER, "10") == (0, "")
    assert moved(server) == 10
    assert server.verdicts() == ["LEGAL", "LEGAL"]
    assert server.audit() == {"ATOMIC": 1}


def test_a_hot_row(server, tmp_path):
    """Four threads want the same two rows. Whoever is refused one tries again, and no transfer is lost."""
    transfer = Transfer(server.ports, tmp_path)

    def five():
        for _ in range(5):
            move_one(transfer)

    with ThreadPoolExecutor(4) as threads:
        for each in [threads.submit(five) for _ in range(4)]:
            each.result()
    assert moved(server) == 20
    assert server.verdicts() == ["LEGAL", "LEGAL"]
    assert set(server.audit()) == {"ATOMIC"}


def move_one(transfer):
    pause = 0.001
    while True:
        try:
            return transfer.move(1)
        except OperationalError as refused:
            assert refused.number == LOCKED
            time.sleep(random.uniform(0, pause))
            pause = min(2 * pause, 0.064)
