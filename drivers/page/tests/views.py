"""What every test of a view needs: one page, one browser, and what is seen of answers."""
import re
import unittest
from urllib.parse import quote

from browser import the_browser
from support import PICTURES, Page

NARROW = (600, 2000)


def in_address(text):
    """Bytes as they stand in an address."""
    return quote(text, safe="'(),;:@/!*")


class View(unittest.TestCase):
    view: str

    @classmethod
    def setUpClass(cls):
        cls.page = Page()
        cls.addClassCleanup(cls.page.end)
        cls.browser = the_browser()
        cls.addClassCleanup(cls.browser.leave)

    def tearDown(self):
        self.assertEqual(self.browser.complaints(), [])
        self.assertIsNone(self.browser.run("return window.hacked ?? null"))
        self.assertEqual(len(self.browser.all("script")), 1)

    def open(self, **state):
        parts = "&".join(f"{name}={in_address(value if isinstance(value, bytes) else str(value).encode())}"
                         for name, value in state.items())
        self.browser.go(f"{self.page.address}#{self.view}?{parts}" if parts else f"{self.page.address}#{self.view}")

    def reopen(self):
        """Opens the address that the page has now, as somebody does to whom it was sent."""
        self.browser.go(self.browser.run("return location.href"))

    def sized(self, width, height):
        """Gives the page this size until the test ends."""
        self.browser.sized(width, height)
        self.addCleanup(self.browser.unsized)

    def until(self, holds, what):
        self.browser.until(holds, what)

    def as_printed(self, css):
        """What the program printed for each element."""
        return self.browser.run(f"return [...document.querySelectorAll(arguments[0])].map({PRINTED})", css)

    def pictures(self, height=1000):
        """The view as it is now, at two widths."""
        PICTURES.mkdir(parents=True, exist_ok=True)
        for name, size in [("wide", (1400, height)), ("narrow", NARROW)]:
            self.browser.picture(PICTURES / f"{self.view}-{name}.png", size)


# what the program printed for an element, which may be shown otherwise
PRINTED = "(it) => it.dataset.printed ?? it.textContent"


def shown_bytes(text):
    """How the page shows bytes as text: what can be seen as it is, each other byte as a backslash of the style sheet
    and two digits."""
    found = ""
    for char in text.decode("utf-8", "surrogateescape"):
        if "\udc80" <= char <= "\udcff":
            found += f"{ord(char) - 0xdc00:02x}"
        elif char == " " or char.isprintable():
            found += char
        else:
            found += char.encode().hex()
    return found


def replies(transcript):
    """The replies of a transcript whose lists are in digits, one for each answer, each with its rows."""
    found = []
    for line in transcript.splitlines():
        if re.match(r"(\d+|-) (OK|NONE|VALUE|ROWS|ERROR)", line):
            found.append(line.split(" ", 1)[1])
        elif not line.startswith("  "):
            found[-1] += f"\n{line}"
    return found
