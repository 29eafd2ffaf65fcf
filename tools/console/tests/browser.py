"""What tests of the page in headless Chromium have in common. They take Debian's chromium, chromium-driver and python3-selenium, and the shell program
as test_console.py does. With CONSOLE_PICTURES=FOLDER they leave pictures there."""

from __future__ import annotations

import os
import pathlib
import shutil
import subprocess
import sys
import time
import unittest
from typing import List

from selenium import webdriver
from selenium.webdriver.chrome.options import Options
from selenium.webdriver.chrome.service import Service
from selenium.webdriver.common.by import By
from selenium.webdriver.common.keys import Keys
from selenium.webdriver.support.ui import Select, WebDriverWait

HERE = pathlib.Path(__file__).resolve().parent.parent
ROOT = HERE.parent.parent

EXAMPLES = sorted((ROOT / "examples").glob("*.script"))
PICTURES = os.environ.get("CONSOLE_PICTURES")
# the texts that elements show; a picture's have no innerText, and the title among them is not shown
TEXTS = """return [...document.querySelectorAll(arguments[0])].map(it => it.innerText
    ?? [...it.childNodes].filter(part => part.nodeName !== 'title').map(part => part.textContent).join('')).map(it => it.trim())"""


class Browser(unittest.TestCase):
    """A server of its own and a page of it, which is opened anew for each test."""

    @classmethod
    def setUpClass(cls) -> None:
        cls.server = subprocess.Popen([sys.executable, str(HERE), "--port", "0"], stdout=subprocess.PIPE, text=True)
        cls.addClassCleanup(cls.end_server)
        cls.at = cls.server.stdout.readline().strip()
        options = Options()
        for word in ("--headless=new", "--no-sandbox", "--disable-dev-shm-usage", "--hide-scrollbars", "--window-size=1280,800"):
            options.add_argument(word)
        options.binary_location = shutil.which("chromium") or ""
        options.set_capability("goog:loggingPrefs", {"browser": "ALL"})
        cls.page = webdriver.Chrome(options=options, service=Service(shutil.which("chromedriver")))
        cls.addClassCleanup(cls.page.quit)

    @classmethod
    def end_server(cls) -> None:
        cls.server.terminate()
        cls.server.wait(10)
        cls.server.stdout.close()

    def setUp(self) -> None:
        self.open(1280, 800)

    def tearDown(self) -> None:
        self.assertEqual([], [it["message"] for it in self.page.get_log("browser")], "the browser's console has no error")

    def open(self, width: int, height: int, dark: bool = False, forced: bool = False) -> None:
        """Opens the page anew, in a window of this size; `forced` has the user's few colours in the place of the page's."""
        self.page.execute_cdp_cmd("Emulation.setDeviceMetricsOverride", {"width": width, "height": height, "deviceScaleFactor": 1, "mobile": width < 600})
        self.page.execute_cdp_cmd("Emulation.setEmulatedMedia", {"features": [{"name": "prefers-color-scheme", "value": "dark" if dark else "light"},
                                                                            {"name": "forced-colors", "value": "active" if forced else "none"}]})
        self.leave()
        self.page.get(self.at)
        self.until("return document.body.dataset.ready === 'true'")

    def leave(self) -> None:
        """Leaves the page, whatever is lost."""
        if self.page.execute_script("return Boolean(document.getElementById('ask'))"):
            self.page.execute_script("unsaved = 0; busy = false; document.getElementById('line').value = ''")
        self.page.get("about:blank")

    def until(self, script: str, seconds: float = 60) -> None:
        WebDriverWait(self.page, seconds, 0.05).until(lambda page: page.execute_script(script), script)

    def one(self, selector: str):
        return self.page.find_element(By.CSS_SELECTOR, selector)

    def all(self, selector: str):
        return self.page.find_elements(By.CSS_SELECTOR, selector)

    def texts(self, selector: str) -> List[str]:
        """Read in one script: a page that follows a store may be drawn anew between two calls, and what they found is stale then."""
        return self.page.execute_script(TEXTS, selector)

    def sent(self) -> int:
        return int(self.page.execute_script("return document.body.dataset.sent"))

    def keep(self, name: str) -> None:
        """Leaves a picture, once what has just changed has faded."""
        if PICTURES:
            time.sleep(1.4)
            self.page.save_screenshot(str(pathlib.Path(PICTURES, f"{name}.png")))

    def step(self) -> None:
        before = self.sent()
        self.one("#step").click()
        self.until(f"return document.body.dataset.busy === 'false' && +document.body.dataset.sent > {before}")

    def example(self, name: str, last: str = "") -> None:
        """Chooses an example and steps up to the line that begins so; or runs all of it."""
        Select(self.one("#example")).select_by_value(name)
        if not last:
            self.one("#all").click()
            self.until("return document.body.dataset.busy === 'false' && document.getElementById('step').ariaDisabled === 'true' && +document.body.dataset.sent > 0")
            return
        for _ in range(80):
            self.step()
            if self.texts("#lines li.sent .line")[-1].startswith(last):
                return
        self.fail(last)

    def send(self, *lines: str) -> None:
        for line in lines:
            before = self.sent()
            self.one("#line").send_keys(line, Keys.ENTER)
            self.until(f"return document.body.dataset.busy === 'false' && +document.body.dataset.sent > {before}")

    def pick(self, number: int) -> None:
        """Clicks the line of this number from 1, wherever the list is scrolled to."""
        self.page.execute_script("document.querySelectorAll('#lines li.sent .line')[arguments[0]].click()", number - 1)

    def paste(self, text: str) -> None:
        """Puts lines into the box at once, as a paste does, and sends them."""
        self.page.execute_script("const it = document.getElementById('line'); it.value = arguments[0]; it.dispatchEvent(new Event('input'))", text)
        self.one("#line").send_keys(Keys.ENTER)

    def settle(self, sent: int, seconds: float = 60) -> None:
        """Waits until so many lines and remarks were sent."""
        self.until(f"return document.body.dataset.busy === 'false' && +document.body.dataset.sent === {sent}", seconds)
