"""What a page of another address can do with this one, in a browser: nothing."""
import contextlib
import json
import tempfile
import threading
import unittest
from http.server import BaseHTTPRequestHandler, ThreadingHTTPServer
from pathlib import Path

from browser import ELSEWHERE, the_browser
from selenium.webdriver.common.keys import Keys
from support import Page, ask, room, standing_in

TRIES = """<!doctype html><title>trying</title><iframe src="TARGET"></iframe><script>
const tried = async (path, settings) => {
  try { const answer = await fetch("TARGET" + path, settings); return answer.type + " " + answer.status; } catch { return "refused"; }
};
const race = { method: "POST", body: '{"script": ""}' };
(async () => {
  const found = [await tried("api/examples"), await tried("api/race", { ...race, headers: { "Content-Type": "application/json" } }),
    await tried("api/race", { ...race, mode: "no-cors" }), navigator.sendBeacon("TARGETapi/race", race.body)];
  const framed = document.querySelector("iframe");
  try { found.push(framed.contentDocument === null || framed.contentDocument.body.textContent === ""); } catch { found.push(true); }
  document.title = JSON.stringify(found);
})();
</script>"""


class Elsewhere(unittest.TestCase):
    @classmethod
    def setUpClass(cls):
        cls.browser = the_browser()

    def tearDown(self):
        self.browser.leave()

    def test_a_name_that_leads_here_is_refused(self):
        with Page() as page:
            self.browser.driver.get(f"http://{ELSEWHERE}:{page.port}/")
            self.assertEqual(self.browser.text("body").strip(), "this host isn't served")

    def test_a_page_of_another_address_starts_nothing_and_reads_nothing(self):
        with tempfile.TemporaryDirectory() as folder, standing_in(f"echo ran >> {folder}/ran") as program, room(
                program) as served:
            with serving(TRIES.replace("TARGET", served.address)) as port:
                self.browser.driver.get(f"http://{ELSEWHERE}:{port}/")
                self.browser.until(lambda: self.browser.driver.title != "trying", "all was tried")
                found = json.loads(self.browser.driver.title)
            self.assertEqual(found[:3], ["refused"] * 3)
            self.assertTrue(found[4], "it isn't framed")
            self.assertFalse((Path(folder) / "ran").exists(), "no child was started")
            ask(served.server_port, "race", {"script": ""})
            self.assertTrue((Path(folder) / "ran").exists(), "the page itself starts one")

    def test_localhost_is_served(self):
        with Page() as page:
            self.browser.go(f"http://localhost:{page.port}/#sessions")
            self.browser.type('#entry input[name="1"]', "GET 'k'" + Keys.ENTER)
            self.browser.until(lambda: self.browser.texts("#given .reply") == ["NONE"], "it is answered")
            self.browser.leave()


@contextlib.contextmanager
def serving(page):
    """A page of somebody else's, at the port that this gives."""

    class Handler(BaseHTTPRequestHandler):
        def do_GET(self):
            self.send_response(200)
            self.send_header("Content-Type", "text/html")
            self.end_headers()
            self.wfile.write(page.encode())

        def log_message(self, *_):
            pass

    server = ThreadingHTTPServer(("127.0.0.1", 0), Handler)
    server.daemon_threads, server.block_on_close = True, False
    thread = threading.Thread(target=server.serve_forever, args=(0.05,))
    thread.start()
    try:
        yield server.server_port
    finally:
        server.shutdown()
        thread.join()
        server.server_close()


if __name__ == "__main__":
    unittest.main()
