"""A point of the bench's table as a story: the page that the bench keeps of it leads to the view of two-phase
commit."""
import subprocess
import sys
import tempfile
import unittest
from pathlib import Path

from support import PROGRAM, ROOT
from views import View

BENCH = ROOT / "drivers/bench"
POINT = "store 2 XA COMMIT 1, manager killed before"


class Story(View):
    view = "commit"

    @classmethod
    def setUpClass(cls):
        super().setUpClass()
        folder = tempfile.TemporaryDirectory()
        cls.addClassCleanup(folder.cleanup)
        manager = f"{sys.executable} {BENCH}/managers/wrong.py never-decides"
        words = ["--program", PROGRAM, "--run", f"{manager} run 90", "--recover", f"{manager} recover", "--only", POINT,
                 "--keep", folder.name]
        ran = subprocess.run([sys.executable, BENCH / "bench", *words], stdout=subprocess.PIPE,
                             stderr=subprocess.STDOUT, text=True)
        assert ran.returncode == 1, ran.stdout
        cls.kept = Path(folder.name) / POINT.replace(",", "").replace(" ", "-")
        usual = (cls.kept / "story.html").read_text()
        assert "http://127.0.0.1:8400/" in usual
        (cls.kept / "story.html").write_text(usual.replace("http://127.0.0.1:8400/", cls.page.address))

    def calls(self):
        return self.browser.run("return [...document.querySelectorAll('#sequence .call[data-answer]')].map((it) => "
                                "[it.dataset.line, it.dataset.answer])")

    def test_the_link_shows_what_each_store_was_asked(self):
        """Store 1 has committed, store 2 waits in doubt until the recovery rolls it back, and the rows differ in the
        end."""
        story = (self.kept / "story.calls").read_text().splitlines()
        self.browser.driver.get((self.kept / "story.html").as_uri())
        self.browser.push("a")
        self.until(lambda: len(self.calls()) == sum(line.startswith("AT ") for line in story),
                   "the whole story is drawn")
        said = {story[int(line) - 1]: answer for line, answer in self.calls()}
        self.assertEqual((said["AT 1 GET 'row'"], said["AT 2 GET 'row'"]), ("VALUE '90'", "NONE"))
        (commit,) = [line for line in story if " XA COMMIT " in line and line.startswith("AT ")]
        self.assertTrue(commit.startswith("AT 1 "))
        self.assertEqual(said[commit], "OK")
        remarks = " ".join(self.browser.texts("#sequence .remark"))
        self.assertIn(f"{POINT}: MIXED, store 1 committed, store 2 rolled back", remarks)
        drawn = self.browser.text("#sequence svg")
        for words in ("The store never gets it.", "The manager is killed.", "Recovery 1 begins.", "Verdict: MIXED",
                      "row 'row' of store 1 is '90', as a commit leaves it"):
            self.assertIn(words, drawn)
        bands = self.browser.run("return [...document.querySelectorAll('#sequence .doubt')].map((it) => "
                                 "[it.dataset.store, it.querySelector('rect').getBBox().height])")
        heights = dict(bands)
        self.assertEqual(sorted(heights), ["1", "2"])
        self.assertGreater(heights["2"], 2 * heights["1"])
        self.assertEqual(self.browser.run("return document.querySelector('#stores').value"), "3")
        self.assertEqual(self.browser.texts("#sequence .head title"),
                         ["Tested manager", "Store 1", "Store 2", "Other client"])
        self.assertEqual(len(self.browser.all("#sequence .cross.crash")), 1, "the manager's")
        asked = self.browser.texts("#sequence .call .statement")
        self.assertEqual([it for it in asked if "reference" in it], [], "branches have short signs")
        self.assertEqual(len([it for it in self.browser.texts("#sequence .statement") if "reference" in it]), 2,
                         "which are explained")


if __name__ == "__main__":
    unittest.main()
