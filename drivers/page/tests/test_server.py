"""The view of a server for MySQL's clients: what it writes is what is shown, each second, and nothing else is read."""
import json
import os
import re
import subprocess
import sys
import tempfile
import time
import unittest
from pathlib import Path

from browser import the_browser
from support import PATIENCE, ROOT, Page, ask, room, wait_for
from views import View

sys.path.append(str(ROOT / "server/tests"))

from wire import Client  # noqa: E402

SERVER = Path(os.environ.get("NIGBARU_SERVER", ROOT / "server/target/release/nigbaru-server"))
STORE = {"name": "store 1", "out": False, "connections": 2, "strangers": 0, "lent": 1, "waiting": 0, "entries": 7,
         "statements": {"XA START": 2, "GET": 0}, "refusals": {"3572": 4},
         "branches": [{"xid": "0x61,0x62,7", "state": "PREPARED", "connection": 1, "session": None, "age": 61.25,
                       "rows": {"0x6b": "HOLDS"}},
                      {"xid": "0x63,X'',1", "state": "ACTIVE", "connection": 2, "session": 3, "age": 1.0,
                       "rows": {"0x6c": "SHARES"}}]}


class Asked(unittest.TestCase):
    """The page's own server."""

    def setUp(self):
        folder = tempfile.TemporaryDirectory()
        self.addCleanup(folder.cleanup)
        self.file = Path(folder.name) / "status.json"

    def asked(self, **limits):
        with room(status=self.file, **limits) as served:
            status, found = ask(served.server_port, "server", {})
        self.assertEqual(status, 200)
        return found

    def test_what_the_server_wrote(self):
        self.file.write_text(json.dumps({"stores": [STORE]}))
        os.utime(self.file, (time.time() + PATIENCE,) * 2)  # so it was written just now, however busy the machine is
        found = self.asked()
        self.assertEqual(found["stores"], [STORE])
        self.assertFalse(found["silent"])
        os.utime(self.file, (time.time() - 60,) * 2)
        self.assertTrue(self.asked()["silent"])

    def test_none_is_watched(self):
        with room() as served:
            self.assertEqual(ask(served.server_port, "server", {}), (200, {}))

    def test_what_is_no_status(self):
        self.assertIn("can't be read: No such file", self.asked()["fault"])
        for text in ("", "[]", "{}", '{"stores":[{}]}', "[" * 100_000,
                     json.dumps({"stores": [{**STORE, "branches": 1}]}), "\xff"):
            self.file.write_text(text)
            self.assertIn("isn't what nigbaru-server writes", self.asked()["fault"], text[:50])
        self.file.write_text(" " * 5000)
        self.assertIn("more than 4096 bytes", self.asked(status_bytes=4096)["fault"])

    def test_texts_are_texts(self):
        """Whatever stands in the file is sent as texts and numbers."""
        self.file.write_text(json.dumps(
            {"stores": [{**STORE, "name": "<img src=x onerror='window.hacked = 1'>", "refusals": {"<b>": 1}}]}))
        self.assertEqual(self.asked()["stores"][0]["refusals"], {"<b>": 1})


class Watched(View):
    view = "server"

    @classmethod
    def setUpClass(cls):
        folder = tempfile.TemporaryDirectory()
        cls.addClassCleanup(folder.cleanup)
        cls.file = Path(folder.name) / "status.json"
        cls.page = Page("--server", cls.file)
        cls.addClassCleanup(cls.page.end)
        cls.browser = the_browser()
        cls.addClassCleanup(cls.browser.leave)

    def write(self, *stores):
        next_one = self.file.with_suffix(".next")
        next_one.write_text(json.dumps({"stores": stores}))
        next_one.rename(self.file)

    def texts(self, css):
        return self.browser.run("return [...document.querySelectorAll(arguments[0])].map((it) => "
                                "it.innerText.replace(/\\s+/g, ' ').trim())", css)

    def test_it_follows_the_file(self):
        self.write(STORE)
        self.open()
        self.until(lambda: self.texts("#server article"), "branches are shown")
        first, second = self.texts("#server article")
        self.assertEqual(first, "'a','b',7 PREPARED no owner; prepared by connection 1 since 61 s holds 'k'")
        self.assertEqual(second, "'c',X'',1 ACTIVE connection 2, session 3 since 1 s shares 'l'")
        tables = self.texts("#server table")
        self.assertIn("entries of the history 7", tables[0])
        self.assertEqual(tables[1:], ["Statements XA START 2", "Refused 3572 4"])
        self.write({**STORE, "branches": [], "out": True}, {**STORE, "name": "store 2"})
        self.until(lambda: len(self.texts("#server .store")) == 2, "the second store is shown")
        self.assertIn("store 1 is out: it refuses connections", self.texts("#server .store h2")[0])
        self.assertIn("No branch is open or prepared.", self.texts("#server .store")[0])
        self.pictures()

    def test_bytes_are_no_markup(self):
        xid = "0x" + b"<img src=x onerror='window.hacked=1'>".hex() + ",X'',1"
        self.write({**STORE, "name": "<b>bold</b>", "branches": [{**STORE["branches"][0], "xid": xid}]})
        self.open()
        self.until(lambda: self.texts("#server h3") and "onerror" in self.texts("#server h3")[0], "the branch is shown")
        self.assertEqual(self.browser.all("#server b, #server img"), [])

    def test_a_server_that_is_silent(self):
        self.write(STORE)
        os.utime(self.file, (time.time() - 300,) * 2)
        self.open()
        self.until(lambda: re.search(r"written nothing for \d+ min", self.texts("#server-said")[0]), "it is said")

    def test_only_while_it_is_shown(self):
        self.write(STORE)
        self.open()
        self.until(lambda: self.texts("#server article"), "branches are shown")
        self.browser.run("location.hash = '#judge'")
        asked = "return performance.getEntriesByType('resource').filter((it) => it.name.endsWith('/api/server')).length"

        def is_asked_no_more():
            """While it is asked, it is each second. (What was asked before may still be answered.)"""
            before = self.browser.run(asked)
            time.sleep(2.5)
            return self.browser.run(asked) == before

        self.until(is_asked_no_more, "nothing is asked")
        before = self.browser.run(asked)
        self.browser.run("location.hash = '#server'")
        self.until(lambda: self.browser.run(asked) > before, "it is asked again")


class Unwatched(View):
    view = "server"

    def test_it_says_how(self):
        self.open()
        self.until(lambda: "--status" in self.texts("#server-welcome")[0], "it says how to start")
        self.assertEqual(self.texts("#server .store"), [])

    texts = Watched.texts


@unittest.skipUnless(os.access(SERVER, os.X_OK), "server/build has built no server")
class Real(unittest.TestCase):
    def test_a_server(self):
        """What a real server writes is taken."""
        with tempfile.TemporaryDirectory() as folder:
            file = Path(folder) / "status.json"
            server = subprocess.Popen([SERVER, "--port", "0", "--status", file], stderr=subprocess.PIPE, text=True)
            try:
                port = int(server.stderr.readline().rpartition(":")[2])
                with Client(port) as client, room(status=file) as served:
                    for text in ("XA START 'a','b',7", "PUT 'k','v'"):
                        self.assertEqual(client.ask(text).kind, "ok")

                    def branches():
                        stores = ask(served.server_port, "server", {})[1].get("stores")
                        return stores and [(it["xid"], it["state"], it["rows"]) for it in stores[0]["branches"]]
                    wait_for(lambda: branches() == [("0x61,0x62,7", "ACTIVE", {"0x6b": "HOLDS"})])
            finally:
                server.terminate()
                server.wait(PATIENCE)
                server.stderr.close()
