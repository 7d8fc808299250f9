"""The card of statements and errors, docs/pictures/card.html, as Chromium prints it."""
import re
import subprocess
import tempfile
import unittest
from pathlib import Path

PATIENCE = 240  # seconds: a machine may be busy with other work
CARD = Path(__file__).resolve().parents[3] / "docs/pictures/card.html"


class Card(unittest.TestCase):
    def test_one_sheet(self):
        with tempfile.TemporaryDirectory() as folder:
            sheet = Path(folder) / "card.pdf"
            words = ["--headless", "--no-sandbox", "--disable-gpu", "--disable-dev-shm-usage", "--no-pdf-header-footer",
                     f"--user-data-dir={folder}/user", f"--print-to-pdf={sheet}", CARD.as_uri()]
            subprocess.run(["/usr/bin/chromium", *words], check=True, capture_output=True, timeout=PATIENCE)
            self.assertEqual(len(re.findall(rb"/Type\s*/Page\b", sheet.read_bytes())), 1)


if __name__ == "__main__":
    unittest.main()
