"""A judge of records that is as plain and slow as its definition: a server as docs/STATEMENTS.md describes it, and a
search through every order of effects, as docs/HISTORIES.md#what-explains-a-record says. scripts/judged_records compares
`xa_script judge` with it.
"""
from collections import namedtuple
from functools import lru_cache

FREE, ACTIVE, IDLE, PREPARED = "FREE", "ACTIVE", "IDLE", "PREPARED"
OK = "OK"


# the server

# the kind is UNREAD, UNSUPPORTED or as allowances name it; the name is an identifier (formatID, gtrid, bqual) or a key
Statement = namedtuple("Statement", "kind name value", defaults=(None, None))
# shares has keys, and writes pairs of a key and its new value
Branch = namedtuple("Branch", "xid state owner shares writes", defaults=(frozenset(), frozenset()))
# rows has pairs of a key and its value
Store = namedtuple("Store", "rows branches", defaults=(frozenset(), frozenset()))
# what the conditions of docs/STATEMENTS.md#replies are about
Facts = namedtuple("Facts", "exists prepared own held locked")

ANY_STATE = (OK, OK, OK)
WRITES = (lambda it: "3572" if it.held else OK, lambda it: "3572" if it.held else OK, "1399 IDLE")
# for each statement the columns Free, ACTIVE and IDLE; a number of an error stands for the refusal
REPLIES = {
    "XA START": (lambda it: "1440" if it.exists else OK, "1399 ACTIVE", "1399 IDLE"),
    "XA END": ("1399 NON-EXISTING", lambda it: OK if it.own else "1397", "1399 IDLE"),
    "XA PREPARE": ("1399 NON-EXISTING", "1399 ACTIVE", lambda it: OK if it.own else "1397"),
    "XA COMMIT": (lambda it: OK if it.prepared else "1397", "1399 ACTIVE", "1399 IDLE"),
    "XA COMMIT ONE PHASE": (lambda it: "1399 PREPARED" if it.prepared else "1397", "1399 ACTIVE",
                            lambda it: OK if it.own else "1399 IDLE"),
    "XA ROLLBACK": (lambda it: OK if it.prepared else "1397", "1399 ACTIVE", lambda it: OK if it.own else "1399 IDLE"),
    "XA RECOVER": ANY_STATE,
    "UNSUPPORTED": ("1398", "1398", "1398"),
    "GET": (OK, lambda it: "3572" if it.locked else OK, "1399 IDLE"),
    "PUT": WRITES,
    "DEL": WRITES,
    "DISCONNECT": ANY_STATE,
    "UNREAD": ("1064", "1064", "1064"),
}
TEXTS = {
    "1064": "ERROR 1064",
    "1397": "ERROR 1397 (XAE04): XAER_NOTA unknown xid",
    "1398": "ERROR 1398 (XAE05): XAER_INVAL clause not supported",
    "1399": "ERROR 1399 (XAE07): XAER_RMFAIL state ",
    "1440": "ERROR 1440 (XAE08): XAER_DUPID xid already exists",
    "3572": "ERROR 3572 (HY000): row locked by another branch",
}


def literal(data):
    return "0x" + data.hex() if data else "X''"


def value_text(value):
    return "NONE" if value is None else "VALUE " + literal(value)


def rows_text(xids):
    """An answer with rows, on a line each, in their order."""
    rows = [f"{number} {len(gtrid)} {len(bqual)} 0x{(gtrid + bqual).hex()}" for number, gtrid, bqual in sorted(xids)]
    return "\n".join([f"ROWS {len(rows)}", *rows])


def branch_of(store, session):
    return next((branch for branch in store.branches if branch.owner == session), None)


def facts_of(store, mine, name):
    others = [branch for branch in store.branches if branch != mine]
    locked = any(key == name for branch in others for key, _ in branch.writes)
    return Facts(
        exists=any(branch.xid == name for branch in store.branches),
        prepared=any(branch.xid == name and branch.state == PREPARED for branch in store.branches),
        own=mine is not None and mine.xid == name,
        held=locked or any(name in branch.shares for branch in others),
        locked=locked,
    )


def replaced(store, old, new):
    """The store with one branch in place of another; None is no branch."""
    return store._replace(branches=(store.branches - {old} | {new}) - {None})


def written(store, writes):
    values = {**dict(store.rows), **dict(writes)}
    return store._replace(rows=frozenset((key, value) for key, value in values.items() if value is not None))


def worked(store, mine, statement):
    """An accepted GET, PUT or DEL: docs/STATEMENTS.md#rows-and-locks."""
    key = statement.name
    committed = dict(store.rows).get(key)
    if statement.kind == "GET":
        if mine is None:
            return value_text(committed), store
        if key in dict(mine.writes):
            return value_text(dict(mine.writes)[key]), store
        return value_text(committed), replaced(store, mine, mine._replace(shares=mine.shares | {key}))
    write = frozenset({(key, statement.value)})
    if mine is None:
        return OK, written(store, write)
    others = frozenset((other, value) for other, value in mine.writes if other != key)
    return OK, replaced(store, mine, mine._replace(shares=mine.shares - {key}, writes=others | write))


def changed(store, mine, session, statement):
    """The store after another accepted statement: docs/STATEMENTS.md#branches."""
    kind, xid, _ = statement
    if kind == "XA START":
        return replaced(store, None, Branch(xid, ACTIVE, session))
    if kind == "DISCONNECT":
        return replaced(store, mine, None)
    named = next(branch for branch in store.branches if branch.xid == xid)
    if kind == "XA END":
        return replaced(store, named, named._replace(state=IDLE))
    if kind == "XA PREPARE":
        return replaced(store, named, named._replace(state=PREPARED, owner=None))
    return replaced(store if kind == "XA ROLLBACK" else written(store, named.writes), named, None)


def listing(store):
    """The lines of the store, as docs/COMMANDS.md#show describes them."""
    text = ""
    for xid, state, owner, shares, writes in sorted(store.branches, key=lambda branch: branch.xid):
        number, gtrid, bqual = xid
        session = "" if owner is None else f" SESSION {owner}"
        text += f"  BRANCH {literal(gtrid)},{literal(bqual)},{number} {state}{session}\n"
        locks = [(key, f"SHARES {literal(key)}") for key in shares]
        locks += [(key, f"HOLDS {literal(key)} " + ("DELETES" if value is None else f"WRITES {literal(value)}"))
                  for key, value in writes]
        text += "".join(f"    {lock}\n" for _, lock in sorted(locks))
    return text + "".join(f"  ROW {literal(key)} {value_text(value)}\n" for key, value in sorted(store.rows))


@lru_cache(maxsize=1 << 16)
def carried_out(store, session, statement):
    """What a statement is answered, as `run` prints it, and the store after it."""
    mine = branch_of(store, session)
    cell = REPLIES[statement.kind][(FREE, ACTIVE, IDLE).index(mine.state if mine else FREE)]
    reply = cell if isinstance(cell, str) else cell(facts_of(store, mine, statement.name))
    if reply != OK:
        number, _, state = reply.partition(" ")
        return TEXTS[number] + state, store
    if statement.kind == "XA RECOVER":
        return rows_text([branch.xid for branch in store.branches if branch.state == PREPARED]), store
    if statement.kind in ("GET", "PUT", "DEL"):
        return worked(store, mine, statement)
    return OK, changed(store, mine, session, statement)


# the search

# a line of a record. The mark is >, <, ?, LOST or GONE. Said is the statement of a call or the answer of a return, of
# a refusal with nothing behind its number
Seen = namedtuple("Seen", "session mark said", defaults=(None,))
# how far a session is: IDLE, CALLED, ANSWERED, GONE or LEFT, with what has no effect yet, and with its answer
Client = namedtuple("Client", "stage statement answer", defaults=(None, None))
# clients has a client for each session, at the place of its number
Config = namedtuple("Config", "store clients")
# the place of the first line that no order explains, what it could be, and how many configurations there are before
# each line
Verdict = namedtuple("Verdict", "place could_be sizes")
LEAVE = Statement("DISCONNECT")


def now(config, session, client, store=None):
    clients = config.clients[:session] + (client,) + config.clients[session + 1:]
    return Config(config.store if store is None else store, clients)


def effects(config):
    """Each configuration to which one effect leads."""
    found = []
    for session, (stage, statement, _) in enumerate(config.clients):
        if stage in ("CALLED", "GONE") and statement is not None:
            answer, store = carried_out(config.store, session, statement)
            after = Client("ANSWERED", None, answer) if stage == "CALLED" else Client("GONE")
            found.append(now(config, session, after, store))
        if stage == "GONE":
            # what it had called for never takes effect behind its DISCONNECT
            found.append(now(config, session, Client("LEFT"), carried_out(config.store, session, LEAVE)[1]))
    return found


def closed(configs):
    """These and all to which effects lead, in every order."""
    found, fresh = set(configs), list(configs)
    while fresh:
        for config in effects(fresh.pop()):
            if config not in found:
                found.add(config)
                fresh.append(config)
    return found


def shows(seen, answer, kind, allowed):
    """Whether a return shows this answer. An allowance is the rules' number, the kind, and the other number."""
    if seen.startswith("ERROR") and answer.startswith("ERROR"):
        wanted, number = answer.split()[1], seen.split()[1]
        return number == wanted or (wanted, kind, number) in allowed
    return seen == answer


def after_line(config, line, kind, allowed):
    """The configuration behind a line, if it can be seen there."""
    client = config.clients[line.session]
    if line.mark == ">":
        called = {"IDLE": Client("CALLED", line.said), "GONE": Client("GONE", line.said)}
        return now(config, line.session, called.get(client.stage, client))
    if line.mark == "<":
        is_shown = client.stage == "ANSWERED" and shows(line.said, client.answer, kind, allowed)
        return now(config, line.session, Client("IDLE")) if is_shown else None
    if line.mark == "?":
        return now(config, line.session, Client("IDLE"))
    return now(config, line.session, Client("GONE", client.statement))


def moved(record):
    """The lines with their places, and each GONE directly behind its session's last return, where it may begin."""
    lines = []
    for place, line in enumerate(record):
        behind = len(lines)
        if line.mark == "GONE":
            behind = max((at + 1 for at, (_, other) in enumerate(lines)
                          if other.session == line.session and other.mark in "<?"), default=0)
        lines.insert(behind, (place, line))
    return lines


def judged(record, store, allowed):
    """The verdict on a record without faulty lines."""
    configs, kinds = {Config(store, (Client("IDLE"),) * 17)}, {}
    sizes = [0] * len(record)
    for place, line in moved(record):
        if line.mark == ">":
            kinds[line.session] = line.said.kind
        configs = closed(configs)
        sizes[place] = len(configs)
        left = {after_line(config, line, kinds.get(line.session, ""), allowed) for config in configs}
        if left == {None}:
            answers = {config.clients[line.session].answer for config in configs}
            return Verdict(place, sorted(filter(None, answers)), sizes)
        configs = {config for config in left if config is not None}
    return Verdict(None, [], sizes)
