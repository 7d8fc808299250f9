"""What a nigbaru-server does, as it writes it each second with `--status FILE`. Only this file is read, whatever the
page asks."""
import json
import os
import time

SILENT = 5  # seconds after which a server that wrote nothing is taken for one that has ended


class Status:
    def __init__(self, path, most):
        self._path, self._most = path, most

    def look(self):
        """The stores, and for how many seconds nothing was written; or why they can't be seen."""
        try:
            with open(self._path, "rb") as file:
                written, text = os.fstat(file.fileno()).st_mtime, file.read(self._most + 1)
        except OSError as fault:
            return {"fault": f"{self._path.name} can't be read: {fault.strerror}. Start the server by nigbaru-server "
                    "--status FILE"}
        if len(text) > self._most:
            return {"fault": f"{self._path.name} has more than {self._most} bytes"}
        try:
            stores = [store_of(it) for it in json.loads(text)["stores"]]
        except (ValueError, KeyError, TypeError, RecursionError):
            return {"fault": f"{self._path.name} isn't what nigbaru-server writes with --status"}
        age = max(0, time.time() - written)
        return {"stores": stores, "age": round(age, 1), "silent": age > SILENT}


NUMBERS = ("connections", "strangers", "lent", "waiting", "entries")


def store_of(it):
    """A store with what the view shows, each part of the kind that it is to have."""
    return {"name": str(it["name"]), "out": bool(it["out"]), **{name: int(it[name]) for name in NUMBERS},
            "statements": {str(kind): int(count) for kind, count in it["statements"].items()},
            "refusals": {str(number): int(count) for number, count in it["refusals"].items()},
            "branches": [branch_of(branch) for branch in it["branches"]]}


def branch_of(it):
    def number(name):
        return None if it[name] is None else float(it[name])
    return {"xid": str(it["xid"]), "state": str(it["state"]), "connection": number("connection"),
            "session": number("session"), "age": number("age"),
            "rows": {str(key): str(how) for key, how in it["rows"].items()}}
