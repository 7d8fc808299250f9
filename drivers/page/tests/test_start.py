"""How the page is started: what is said where it can't be, and who can open it where `--host` says so."""
import re
import socket
import subprocess
import unittest
from unittest import mock

from browser import ELSEWHERE, the_browser
from selenium.webdriver.common.keys import Keys
from support import PAGE, PATIENCE, PROGRAM, ROOT, SERVE, Classroom, Limits, Page, send, standing_in


def own_addresses():
    """This machine's IPv4 addresses in networks, as the system lists them."""
    listed = subprocess.run(["hostname", "-I"], capture_output=True, text=True, check=True).stdout.split()
    return [address for address in listed if re.fullmatch(r"[\d.]+", address)]


def refused(*words, serve=SERVE):
    """What a start that fails says; it is one line."""
    ran = subprocess.run([*serve, *words], capture_output=True, text=True, timeout=PATIENCE)
    return ran.returncode, ran.stderr


def started(test, host):
    """A page at this host, which ends with the test."""
    process = subprocess.Popen([*SERVE, "--program", PROGRAM, "--port", "0", "--host", host],
                               stdout=subprocess.PIPE, stderr=subprocess.PIPE, text=True)
    for last in (process.stderr.close, process.stdout.close, lambda: process.wait(PATIENCE), process.terminate):
        test.addCleanup(last)
    return process


class Started(unittest.TestCase):
    def assert_advice(self, words, *said, serve=SERVE):
        status, text = refused(*words, serve=serve)
        self.assertEqual((status, len(text.splitlines())), (1, 1), text)
        for part in ("serve: ", *said):
            self.assertIn(part, text)

    def test_a_port_in_use(self):
        with Page() as page:
            self.assert_advice(["--program", PROGRAM, "--port", str(page.port)], f"port {page.port} is in use",
                               f"--port {page.port + 1}")

    def test_a_wrong_program(self):
        self.assert_advice(["--program", "/nothing/here"], "/nothing/here isn't there", "--program")
        self.assert_advice(["--program", "/tmp"], "/tmp is a folder", "scripts/build")
        self.assert_advice(["--program", PAGE / "README.md"], "isn't executable")

    def test_a_program_that_isnt_the_built_one(self):
        self.assert_advice(["--program", "/bin/true"], "/bin/true isn't xa_script", "--program")
        with standing_in("exit 0") as silent:
            self.assert_advice(["--program", silent], "isn't xa_script")
        with standing_in("exec yes") as endless:
            self.assert_advice(["--program", endless], "isn't xa_script")
        with standing_in("exec sleep 600") as slow:
            self.assert_advice(["--program", slow], "isn't xa_script", serve=[PAGE / "serve"])

    def test_another_machines_address(self):
        self.assert_advice(["--program", PROGRAM, "--port", "0", "--host", "203.0.113.9"],
                           "203.0.113.9 is no IPv4 address of this machine")

    def test_words_that_arent_read(self):
        for words in (["--port", "99999"], ["--port", "x"], ["--nothing"]):
            self.assertEqual(refused("--program", PROGRAM, *words)[0], 2)


class AtAName(unittest.TestCase):
    """A page at a name that leads to this machine alone."""

    def test_it_is_open_to_no_other_machine(self):
        process = started(self, "localhost")
        port = int(re.fullmatch(r"http://localhost:(\d+)/\n", process.stdout.readline())[1])
        for name in ("localhost", "127.0.0.1"):
            self.assertEqual(send(port, "GET", "/", headers=[("Host", f"{name}:{port}")])[0], 200, name)
        self.assertEqual(send(port, "GET", "/", headers=[("Host", f"127.0.0.2:{port}")])[0], 403)
        process.terminate()
        self.assertEqual(process.communicate(timeout=PATIENCE), ("", ""))


class WithoutANetwork(unittest.TestCase):
    def test_no_address_is_made_up(self):
        with mock.patch("classroom.server.own_addresses", return_value=[]), Classroom(
                PROGRAM, ROOT, 0, Limits(), "0.0.0.0") as served:
            self.assertEqual((served.outside, served.address), ([], f"http://127.0.0.1:{served.server_port}/"))


class Opened(unittest.TestCase):
    """A page for students on other machines. A name of another machine is still none that is served."""

    def setUp(self):
        self.process = started(self, "0.0.0.0")
        self.address = self.process.stdout.readline().strip()
        self.port = int(self.address.split(":")[2].strip("/"))
        self.said = [self.process.stderr.readline() for _ in range(3)]

    def test_what_it_opens_is_said(self):
        own = {f"http://{address}:{self.port}/" for address in own_addresses()}
        said = self.said[0].removeprefix("Other machines open it at ").strip()
        if own:
            self.assertEqual((set(said.split()), said.split()[0]), (own, self.address))
        else:
            self.assertEqual(said, f"port {self.port} of this machine's addresses")
        self.assertIn(f"port {self.port}", self.said[1])
        self.assertIn("no password", self.said[2])

    def test_it_answers_at_this_machines_addresses_by_number_only(self):
        for address in ["127.0.0.1", *own_addresses()]:
            with socket.create_connection((address, self.port), PATIENCE) as line:
                line.sendall(f"GET / HTTP/1.1\r\nHost: {address}:{self.port}\r\nConnection: close\r\n\r\n".encode())
                self.assertIn(b" 200 ", line.recv(64))
        for host in (f"{ELSEWHERE}:{self.port}", f"203.0.113.9:{self.port}", f"localhost:{self.port + 1}"):
            self.assertEqual(send(self.port, "GET", "/", headers=[("Host", host)])[0], 403)

    def test_the_page_works_there(self):
        """A browser of another machine has no crypto.randomUUID and no clipboard."""
        own = own_addresses()
        if not own:
            self.skipTest("this machine has no address in a network")
        browser = the_browser()
        self.addCleanup(browser.leave)
        browser.go(f"http://{own[0]}:{self.port}/#sessions")
        self.assertFalse(browser.run("return isSecureContext"))
        browser.type('#entry input[name="1"]', "GET 'k'" + Keys.ENTER)
        browser.until(lambda: browser.texts("#given .reply") == ["NONE"], "it is answered")
        self.assertEqual(self.copied(browser), browser.run("return location.href"))

    def test_a_link_that_is_copied_here_leads_here_from_other_machines(self):
        if not own_addresses():
            self.skipTest("this machine has no address in a network")
        browser = the_browser()
        self.addCleanup(browser.leave)
        for name in ("127.0.0.1", "localhost"):
            browser.go(f"http://{name}:{self.port}/#sessions?script=1%20GET%20'k'&at=0")
            browser.until(lambda: browser.all("#pending > li"), "the line waits")
            self.assertEqual(self.copied(browser), self.address + browser.run("return location.hash"))

    def copied(self, browser):
        """What the button puts into the clipboard."""
        browser.listen("#copy-link")
        browser.push("#copy-link")
        browser.until(lambda: "Copied" in browser.heard(), "the link is copied")
        browser.replace('#entry input[name="1"]', "")
        browser.chord(Keys.CONTROL, "v")
        return browser.one('#entry input[name="1"]').get_property("value")


if __name__ == "__main__":
    unittest.main()
