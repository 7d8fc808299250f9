"""Who is served: other hosts, other origins, other files, and what every answer says to the browser."""
import json
import socket
import unittest

from support import PAGE, ROOT, Page, own, send

PUT = "1 PUT 'k','v'"


class WhoIsServed(unittest.TestCase):
    @classmethod
    def setUpClass(cls):
        cls.page = Page()
        cls.port = cls.page.port

    @classmethod
    def tearDownClass(cls):
        cls.page.end()

    def get(self, path, *headers):
        return send(self.port, "GET", path, headers=headers)

    def test_it_listens_on_127_0_0_1_alone(self):
        for address in ("127.0.0.2", "::1", *own_addresses()):
            with socket.socket(socket.AF_INET6 if ":" in address else socket.AF_INET) as other:
                other.settimeout(5)
                with self.assertRaises(OSError, msg=address):
                    other.connect((address, self.port))

    def test_own_hosts_are_served(self):
        for host in (f"127.0.0.1:{self.port}", f"localhost:{self.port}"):
            self.assertEqual(self.get("/", ("Host", host))[0], 200)

    def test_other_hosts_are_refused(self):
        for host in ("127.0.0.1", "localhost", "example.org", f"example.org:{self.port}",
                     f"127.0.0.1.example.org:{self.port}", f"127.0.0.1:{self.port + 1}",
                     f"127.0.0.1:{self.port}@example.org", ""):
            for path in ("/", "/api/examples", "/js/main.js"):
                self.assertEqual(self.get(path, ("Host", host))[0], 403, host)
        self.assertEqual(self.get("/")[0], 403, "no host")
        self.assertEqual(self.get("/", ("Host", f"127.0.0.1:{self.port}"), ("Host", "example.org"))[0], 403,
                         "two hosts")

    def test_other_origins_are_refused(self):
        host = ("Host", f"127.0.0.1:{self.port}")
        for origin in ("http://example.org", "null", f"https://127.0.0.1:{self.port}",
                       f"http://127.0.0.1:{self.port + 1}", f"http://localhost:{self.port}", ""):
            self.assertEqual(self.get("/api/examples", host, ("Origin", origin))[0], 403, origin)
            status, _, _ = send(self.port, "POST", "/api/race", json.dumps({"script": PUT}).encode(),
                                [host, ("Origin", origin), ("Content-Type", "application/json")])
            self.assertEqual(status, 403, origin)
        status, _, _ = send(self.port, "POST", "/api/race", json.dumps({"script": PUT}).encode(),
                            [host, ("Content-Type", "application/json")])
        self.assertEqual(status, 403, "no origin")

    def test_a_form_of_another_page_is_refused(self):
        status, _, _ = send(self.port, "POST", "/api/race", b'{"script": ""}',
                            [*own(self.port)[:2], ("Content-Type", "text/plain")])
        self.assertEqual(status, 415)

    def test_every_answer_has_the_policy(self):
        host = ("Host", f"127.0.0.1:{self.port}")
        for path, *headers in [("/", host), ("/css/base.css", host), ("/js/main.js", host), ("/nothing", host), ("/",),
                               ("/api/tables", host)]:
            _, found, _ = self.get(path, *headers)
            policy = dict(part.split(" ", 1) for part in found["Content-Security-Policy"].split("; "))
            self.assertEqual(policy["default-src"], "'none'")
            self.assertEqual(policy["script-src"], "'self'")
            self.assertEqual(policy["frame-ancestors"], "'none'")
            self.assertNotIn("unsafe", found["Content-Security-Policy"])
            self.assertEqual(found["X-Content-Type-Options"], "nosniff")
            self.assertIsNone(found["Access-Control-Allow-Origin"])

    def test_the_page_has_nothing_inline_and_nothing_from_elsewhere(self):
        page = (PAGE / "static/index.html").read_text()
        self.assertNotRegex(page, r"<script(?![^>]*src=)[^>]*>|<style|\sstyle=|\son\w+=|javascript:")
        for path in (PAGE / "static").rglob("*"):
            if path.is_file():
                # the name of SVG's namespace, which nothing loads
                found = path.read_text().replace('"http://www.w3.org/2000/svg"', "")
                self.assertNotRegex(
                    found, r"https?://|@import|innerHTML|outerHTML|insertAdjacentHTML|document\.write|\beval\(",
                    path.name)

    def test_the_rules_that_are_cited_are_those_of_the_document(self):
        text = (ROOT / "docs/STATEMENTS.md").read_text()
        found = json.loads(self.get("/api/tables", ("Host", f"127.0.0.1:{self.port}"))[2])
        for row in [*found["replies"], *found["refusals"]]:
            self.assertIn("| " + " | ".join(row) + " |\n", text)
        self.assertEqual(found["replies"][0], ["Statement", "Free", "ACTIVE", "IDLE"])
        self.assertEqual([row[0] for row in found["refusals"][1:]],
                         ["1397", "1398", "1399", "1440", "3572", "1064", "1037"])

    def test_no_other_file_is_sent(self):
        host = ("Host", f"127.0.0.1:{self.port}")
        for path in ("/../serve", "/%2e%2e/serve", "/js/../../serve", "//etc/passwd", "/etc/passwd", "/serve",
                     "/classroom/server.py", "/js", "/js/", "/?x"):
            self.assertEqual(self.get(path, host)[0], 404, path)
        status, found, _ = send(self.port, "PUT", "/", b"", own(self.port))
        self.assertEqual(status, 501)
        self.assertIn("default-src 'none'", found["Content-Security-Policy"])


def own_addresses():
    """This machine's address in its network, where it has one; nothing is sent to find it."""
    with socket.socket(socket.AF_INET, socket.SOCK_DGRAM) as probe:
        try:
            probe.connect(("192.0.2.1", 9))
        except OSError:
            return []
        return [probe.getsockname()[0]]


if __name__ == "__main__":
    unittest.main()
