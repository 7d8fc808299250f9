"""Each XA statement in each state of a connection, asked of a store and of a MariaDB. The answers are the same, but for
rows of docs/LIMITS.md#differences-from-mysql-and-mariadb."""
from mariadb import mariadb
from support import Case, wait_for
from wire import Client

WRITES = {"nigbaru": "PUT 'k','v'", "mariadb": "REPLACE INTO db.t VALUES ('k','v')"}
# How a connection comes into each state; its branch is 'own'.
OWN, END, PREPARE = "XA START 'own'", "XA END 'own'", "XA PREPARE 'own'"
STATES = {
    "nothing": [],
    "local": ["BEGIN"],
    "local, wrote": ["BEGIN", "WRITE"],
    "rows without BEGIN": ["WRITE"],
    "ACTIVE": [OWN],
    "ACTIVE, wrote": [OWN, "WRITE"],
    "IDLE": [OWN, END],
    "IDLE, wrote": [OWN, "WRITE", END],
    "PREPARED": [OWN, END, PREPARE],
    "PREPARED, wrote": [OWN, "WRITE", END, PREPARE],
}
ENDS = ("XA COMMIT {}", "XA COMMIT {} ONE PHASE", "XA ROLLBACK {}")
VERBS = ("XA START {}", "XA BEGIN {}", "XA START {} JOIN", "XA START {} RESUME", "XA END {}", "XA END {} SUSPEND",
         "XA END {} SUSPEND FOR MIGRATE", "XA PREPARE {}", *ENDS)
# The own branch; one that another client has open; one that a client prepared that has left; one that there isn't.
XIDS = ("'own'", "'open'", "'left'", "'none'")
OTHERS = ("XA RECOVER", "XA RECOVER FORMAT='SQL'", "XA RECOVER format = 'raw'", "XA RECOVER FORMAT='XML'", "BEGIN",
          "COMMIT", "ROLLBACK", "SET autocommit=0", "SET autocommit=1")
TEXTS = [verb.format(xid) for verb in VERBS for xid in XIDS] + list(OTHERS)
CLEARS = ("XA END 'own'", "XA END 'none'", "XA ROLLBACK 'own'", "XA ROLLBACK 'none'", "ROLLBACK", "SET autocommit=1",
          "XA ROLLBACK 'own'")


def described(answer):
    """A number, or what was answered: of the flags only whether autocommit is on, which no difference touches."""
    if answer.kind == "error":
        return answer.number, answer.sqlstate
    return answer.kind, answer.status & 2, answer.columns


def known(state, text, ours, theirs):
    """The row of LIMITS that a difference is of, if it is of one."""
    is_end = any(text in (verb.format(xid) for xid in XIDS) for verb in ENDS)
    numbers = ours[0], theirs[0]
    if is_end and state.startswith(("ACTIVE", "IDLE")) and "own" not in text and numbers == (1399, 1400):
        return "A session with a branch finishes another one"
    if text.endswith("ONE PHASE") and numbers in ((1397, 1398), (1399, 1398)):
        return "`XA COMMIT .. ONE PHASE` by a session without a branch"
    if text.endswith("RESUME") and state.startswith("IDLE") and numbers in ((1398, "ok"), (1398, 1397)):
        return "`XA START .. RESUME`"
    if state.startswith("PREPARED") and theirs[0] in (1399, 1400):
        return "A branch after `XA PREPARE`"
    return None


class Server:
    """One of the two, with a client that goes through all states, and one that holds the branch 'open'."""

    def __init__(self, case, name, port):
        self.name, self.port = name, port
        self.client, self.holder = [case.ends.enter_context(Client(port)) for _ in range(2)]
        case.ok(self.holder, "XA START 'open'")

    def listed(self):
        return [row[3] for row in self.client.ask("XA RECOVER").rows]

    def leave_a_branch(self):
        with Client(self.port) as client:
            for text in ("XA START 'left'", WRITES[self.name].replace("'k'", "'left'"), "XA END 'left'",
                         "XA PREPARE 'left'"):
                assert client.ask(text).kind == "ok", text
            client.quit()
        # (as long as its client is there MariaDB lets nobody else end it)
        wait_for(lambda: len(self.client.ask("SHOW PROCESSLIST").rows) == 2, "the end of a client")

    def said(self, autocommit, state, text):
        if self.listed() != [b"left"]:
            self.leave_a_branch()
        for step in [f"SET autocommit={autocommit}", *STATES[state]]:
            answer = self.client.ask(WRITES[self.name] if step == "WRITE" else step)
            assert answer.kind == "ok", (state, step, answer)
        answer = described(self.client.ask(text))
        for clear in CLEARS:
            last = self.client.ask(clear)
        assert self.client.ask("SET autocommit=1").status & 3 == 2, (state, text, last)
        return answer


class States(Case):
    def test_each_statement_in_each_state(self):
        seen = set()
        with mariadb() as port:
            with Client(port) as client:
                self.ok(client, "CREATE DATABASE db",
                        "CREATE TABLE db.t (k VARBINARY(64) PRIMARY KEY, v VARBINARY(64)) ENGINE=InnoDB")
            ours, theirs = Server(self, "nigbaru", self.serve().port), Server(self, "mariadb", port)
            for autocommit in (1, 0):
                free = {text: ours.said(autocommit, "nothing", text) for text in TEXTS}
                for state in STATES:
                    for text in TEXTS:
                        with self.subTest(autocommit=autocommit, state=state, text=text):
                            pair = ours.said(autocommit, state, text), theirs.said(autocommit, state, text)
                            row = known(state, text, *pair)
                            seen.add(row)
                            if pair[0] != pair[1]:
                                self.assertIsNotNone(row, pair)
                            # A branch that is prepared leaves its connection free.
                            if state.startswith("PREPARED") and "own" not in text:
                                self.assertEqual(pair[0], free[text])
        self.assertEqual(len(seen), 5, seen)
