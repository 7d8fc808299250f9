"""What is said of each message in a sentence, for who reads along and for who hears the page."""
from .svg import plain

CALLS = {
    b"BEGIN": "The manager begins a transaction.",
    b"PREPARE": "The manager wants transaction {n} to be committed. Phase one: the coordinator asks for votes.",
    b"DECIDE": "The manager has the coordinator decide that transaction {n} commits.",
    b"FINISH": "The manager has transaction {n} finished. Phase two: each participant is told how it ends.",
    b"ABANDON": "The manager gives transaction {n} up.",
    b"RECOVER": "The coordinator recovers: it asks each store what is still prepared.",
    b"SHOW": "The manager asks what is prepared, and what is decided.",
}
TOLD = {
    "prepare": "The coordinator asks store {store} to prepare, and to vote.",
    "end of work": "The coordinator tells store {store} that the work is at its end. It is the only one, so there is "
                   "no vote.",
    "commit": "The coordinator tells store {store} to commit.",
    "commit in one phase": "The coordinator tells store {store} to commit in one phase.",
    "roll back": "The coordinator tells store {store} to roll back.",
    "what is in doubt?": "The coordinator asks store {store} which branches are in doubt.",
    "all ended?": "The coordinator asks store {store} whether all have ended.",
    "work": "The coordinator gives store {store} work.",
}
ANSWERED = {
    "vote yes": "Store {store} votes yes: it is prepared, and in doubt until it hears how the transaction ends.",
    "vote no": "Store {store} votes no.",
    "acknowledgement": "Store {store} has done so, and says so.",
    "heuristic outcome": "Store {store} has no such branch any more: somebody else has ended it.",
}
EVENTS = {
    b"crash": "The manager crashes.", b"restart": "The manager is started again.",
    b"lost": "This message is lost.", b"unanswered": "The answer is lost.", b"outage": "The store is restarted.",
    b"verdict": "The verdict.",
}


def asking(it, manager):
    """Of a call's own message."""
    said = plain(it.statement)
    if it.is_managers:
        return f"{manager} asks store {it.store}: {said}."
    if it.kind == "stranger":
        return f"Another client asks store {it.store}: {said}."
    if it.kind == "work":
        return f"The manager has work for store {it.store}: {said}."
    number = plain(it.words[1]) if len(it.words) > 1 else ""
    return CALLS.get(it.words[0], "The manager asks: {said}.").format(n=number, said=said)


def crash(it):
    if it.words[0] == b"STOP":
        return "The coordinator crashes. Its decisions are kept."
    return "From here on a session of the coordinator fails."


def changes(change, store, signs):
    """What a message changed in a store, in words."""
    return " ".join(f"In store {store} {of_row(change.rows[key], was, signs)}."
                    for key, was in list(change.changed.items())[:3])


def of_row(row, was, signs):
    key, value = plain(row.key), shown(row.value)
    before = shown(was.value) if was else None
    if before is not None and before != value:
        return f"{key} was {before} and is {value} now"
    if row.locks:
        lock = row.locks[-1]
        who = signs.of(lock.xid)
        if lock.is_read:
            return f"{key} is {value}, and {who} keeps others from writing it"
        return f"{who} has locked {key}: it is {value} still, and will be {shown(lock.will_be)} if {who} commits"
    return f"{key} is {value}" + (", and free again" if was and was.locks else "")


def shown(value):
    return "none" if value is None else plain(value) or "empty"
