"""Chromium without a window, driven by its keys, as a person without a mouse would.

Behind each key the page is waited for until it is at rest: whatever it asks its server is answered, and drawn. So what
is looked at next doesn't depend on how fast the machine is. Keys that are to come while it works are given at once, as
`press(one, other)`.
"""
import atexit
import functools
import os
import time

from selenium import webdriver
from selenium.common.exceptions import (NoSuchElementException, StaleElementReferenceException, TimeoutException,
                                        WebDriverException)
from selenium.webdriver.common.action_chains import ActionChains
from selenium.webdriver.common.actions.action_builder import ActionBuilder
from selenium.webdriver.common.actions.interaction import POINTER_TOUCH
from selenium.webdriver.common.actions.pointer_input import PointerInput
from selenium.webdriver.common.by import By
from selenium.webdriver.common.keys import Keys
from selenium.webdriver.chrome.options import Options
from selenium.webdriver.chrome.service import Service

PATIENCE = float(os.environ.get("PAGE_PATIENCE", 240))  # seconds: a machine may be busy with other work
TRIES = 5
FORGOTTEN = 2  # seconds after which what was typed to choose is no longer the beginning of a word
ROUNDS = 50  # the page may change under the keys, so what is left to go is counted anew after each round of them
# How many elements the tabulator has to pass from the focus to the wanted one; fewer than 0 where it lies behind, 0
# where it has the focus. Nothing where it isn't there, or takes no focus.
STEPS = """
    const wanted = document.querySelector(arguments[0]), focus = document.activeElement;
    const all = [...document.querySelectorAll('a[href], button, input, select, textarea, summary, [tabindex="0"]')]
        .filter((it) => !it.disabled && it.checkVisibility({ visibilityProperty: true }));
    if (!all.includes(wanted)) return null;
    const follows = (one, other) => Boolean(one.compareDocumentPosition(other) & Node.DOCUMENT_POSITION_FOLLOWING);
    const between = (from, to) => all.filter((it) => follows(from, it) && !follows(to, it)).length;
    return focus === wanted ? 0 : follows(focus, wanted) ? between(focus, wanted) : -all.filter((it) => follows(it, focus) && !follows(it, wanted)).length;
"""


# Keeps what is chosen in a list, or was already.
CHOSEN = """
    const list = document.querySelector(arguments[0]);
    const keep = () => { window.chosen = list.selectedOptions[0]?.textContent ?? ''; };
    list.addEventListener('change', keep);
    keep();"""
# Counts what each page asks and isn't answered yet. An answer counts as open until what waits for it has had its turn.
COUNTING = """
    window.asking = 0;
    const counted = (real) => function (...all) {
        window.asking += 1;
        const done = () => setTimeout(() => { window.asking -= 1; });
        const found = real.apply(this, all);
        found.then(done, done);
        return found;
    };
    window.fetch = counted(window.fetch);
    for (const read of ['json', 'text']) Response.prototype[read] = counted(Response.prototype[read]);
"""
# Waits until nothing is asked: a change of the address is told to the page in a turn of its own, and may have it ask
# once more. Another size is told with the next frame. (A page that isn't drawn has no frames, so these aren't waited
# for in vain.)
REST = """
    const [isSized, done] = arguments;
    const frame = () => new Promise((go) => { requestAnimationFrame(go); setTimeout(go, 200); });
    const turn = () => new Promise((go) => setTimeout(go));
    (async () => {
        if (isSized) for (const _ of [1, 2]) await frame();
        for (let quiet = 0; quiet < 2; ) {
            await turn();
            quiet = window.asking ? 0 : quiet + 1;
        }
        done();
    })();
"""
ELSEWHERE = "elsewhere.example"  # a name that leads to this machine
SIZE = (1000, 800)
WORDS = ("--headless=new", "--disable-gpu", "--disable-dev-shm-usage", "--force-prefers-reduced-motion",
         "--no-first-run", "--disable-extensions", "--disable-background-networking", "--disable-component-update",
         "--disable-sync", "--disable-breakpad", "--disable-back-forward-cache",
         "--disable-features=PreloadTopChromeWebUI,Translate,MediaRouter", f"--window-size={SIZE[0]},{SIZE[1]}",
         f"--host-resolver-rules=MAP {ELSEWHERE} 127.0.0.1")


@functools.cache
def the_browser():
    """One browser for all tests: the first that wants it starts it, and it ends with them."""
    browser = open_browser()
    atexit.register(browser.close)
    return browser


def open_browser():
    options = Options()
    options.binary_location = "/usr/bin/chromium"
    for word in WORDS:
        options.add_argument(word)
    if os.geteuid() == 0:
        options.add_argument("--no-sandbox")  # Chromium doesn't start as root with it
    options.set_capability("goog:loggingPrefs", {"browser": "ALL"})
    driver = started(options)
    driver.set_page_load_timeout(PATIENCE)
    driver.set_script_timeout(PATIENCE)
    driver.execute_cdp_cmd("Page.addScriptToEvaluateOnNewDocument", {"source": COUNTING})
    return Browser(driver)


def started(options):
    """Starts it, once more where the machine was so busy that Selenium waited in vain."""
    for rest in reversed(range(TRIES)):
        try:
            return webdriver.Chrome(options=options, service=Service("/usr/bin/chromedriver"))
        except WebDriverException:
            if not rest:
                raise


class Browser:
    def __init__(self, driver):
        self.driver = driver

    def go(self, address):
        """Opens an address as if it had been sent: the page begins anew."""
        self.driver.get("about:blank")
        self.driver.get(address)
        self.until(lambda: self.text("#program"), "the page says the program's version")
        self.rest(is_sized=True)

    def rest(self, is_sized=False):
        """Waits until the page is at rest. (While a page gives way to another one, it can't be asked.)"""
        def is_at_rest():
            try:
                self.driver.execute_async_script(REST, is_sized)
            except TimeoutException:
                raise
            except WebDriverException:
                return False
            return True

        self.until(is_at_rest, "the page is at rest")

    def leave(self):
        """Leaves the page while its server is still there, to which it says so; what the browser complained of is no
        further test's."""
        self.driver.get("about:blank")
        self.complaints()

    def all(self, css):
        return self.driver.find_elements(By.CSS_SELECTOR, css)

    def one(self, css):
        return self.driver.find_element(By.CSS_SELECTOR, css)

    def text(self, css):
        return self.one(css).get_property("textContent")

    def texts(self, css):
        """The texts of all elements at once, so that none goes away in between."""
        return self.run("return [...document.querySelectorAll(arguments[0])].map((it) => it.textContent)", css)

    def run(self, script, *arguments):
        return self.driver.execute_script(script, *arguments)

    def until(self, holds, what):
        """Waits, and asks less and less often: on a busy machine each question takes time from what is waited for."""
        deadline, pause = time.monotonic() + PATIENCE, 0.01
        while not self._is_so(holds):
            if time.monotonic() > deadline:
                raise AssertionError(f"it didn't come: {what}")
            time.sleep(pause)
            pause = min(pause * 1.5, 0.5)

    @staticmethod
    def _is_so(holds):
        try:
            return holds()
        except (NoSuchElementException, StaleElementReferenceException):
            return False  # it isn't there yet, or was made anew while it was looked at

    # texts that are shown for a while

    def listen(self, css):
        """From now on each text is kept that an element is given, since one may be gone before it is asked for."""
        self.run("""window.heard = [];
            new MutationObserver((all) => window.heard.push(...all.flatMap((it) => [...it.addedNodes])
                .map((it) => it.textContent))).observe(document.querySelector(arguments[0]), { childList: true });""",
                 css)

    def heard(self):
        return self.run("return window.heard")

    # a keyboard and a pointer

    def press(self, *keys):
        self._keys(*keys)
        self.rest()

    def chord(self, held, key):
        self._chord(held, key)
        self.rest()

    def _keys(self, *keys):
        ActionChains(self.driver).send_keys(*keys).perform()

    def _chord(self, held, key):
        ActionChains(self.driver).key_down(held).send_keys(key).key_up(held).perform()

    def click(self, css):
        """Clicks by a pointer. What was drawn anew before the pointer came to it is looked for again."""
        def is_clicked():
            try:
                ActionChains(self.driver).move_to_element(self.one(css)).click().perform()
            except StaleElementReferenceException:
                return False
            return True

        self.until(is_clicked, f"{css} stays where it is")
        self.rest()

    def tap(self, css):
        """Taps by a finger, which lies over nothing that it doesn't touch, where it is on the screen, and waits until
        the page has that as a click. (The driver would move what it knows as an element.)"""
        x, y = self.run("""window.tapped = false;
            addEventListener('click', () => { window.tapped = true; }, { capture: true, once: true });
            const box = document.querySelector(arguments[0]).getBoundingClientRect();
            return [box.x + box.width / 2, box.y + box.height / 2].map(Math.round);""", css)
        finger = ActionBuilder(self.driver, mouse=PointerInput(POINTER_TOUCH, "finger"))
        finger.pointer_action.move_to_location(x, y).pointer_down().pointer_up()
        finger.perform()
        self.until(lambda: self.run("return window.tapped"), f"a tap on {css}")
        self.rest()

    def sized(self, width, height):
        """Gives the page another size, as a screen of its own."""
        self.driver.execute_cdp_cmd("Emulation.setDeviceMetricsOverride",
                                    {"width": width, "height": height, "deviceScaleFactor": 1, "mobile": False})
        self.rest(is_sized=True)

    def unsized(self):
        self.driver.execute_cdp_cmd("Emulation.clearDeviceMetricsOverride", {})

    def focus(self, css):
        """Comes to an element by the tabulator alone, from where the focus is."""
        steps = None
        for _ in range(ROUNDS):
            self.until(lambda: self.run(STEPS, css) is not None, f"{css} can take the focus")
            steps = self.run(STEPS, css)
            if steps == 0:
                return
            if steps is not None and steps > 0:
                self._keys(Keys.TAB * steps)
            elif steps is not None:
                self._chord(Keys.SHIFT, Keys.TAB * -steps)
        raise AssertionError(f"the tabulator doesn't come to {css}: {steps} steps are left")

    def type(self, css, text):
        self.focus(css)
        self.press(text)

    def replace(self, css, text):
        self.focus(css)
        self._chord(Keys.CONTROL, "a")
        self.press(Keys.DELETE, text)

    def push(self, css):
        """Pushes a button."""
        self.focus(css)
        self.press(Keys.ENTER)

    def choose(self, css, beginning):
        """Chooses an option by typing its first word; where that was too slow to be taken for one word, once more. (A
        blank that comes late opens the list.)"""
        self.run(CHOSEN, css)

        def is_chosen():
            self.focus(css)
            self.press(beginning.split(" ")[0])
            # (what was chosen may have had the page make the list anew)
            if self.run("return window.chosen").startswith(beginning):
                return True
            time.sleep(FORGOTTEN)
            return False

        self.until(is_chosen, f"{beginning} is chosen in {css}")

    def complaints(self):
        """What the browser itself says is wrong, as a breach of the policy or an error of a script."""
        return [it for it in self.driver.get_log("browser") if it["level"] == "SEVERE"]

    def picture(self, path, size):
        self.driver.set_window_size(*size)
        self.driver.save_screenshot(str(path))
        self.driver.set_window_size(*SIZE)

    def close(self):
        self.driver.quit()
