"""Opens the page, built by `make page`, in Chromium without a display, and asks it by ask.js. With BROWSER=webkit, that is WebKitGTK
on the display of DISPLAY, as under `xvfb-run`: it has the engine of Safari."""

import glob
import os
import shutil

import pytest
from selenium import webdriver
from selenium.webdriver.chrome.service import Service
from selenium.webdriver.webkitgtk.options import Options

from tools import ROOT, read

SECONDS = 900


class Page:
    def __init__(self, browser):
        self.browser = browser
        browser.set_script_timeout(SECONDS)
        self.open()

    def open(self):
        self.browser.get("about:blank")
        self.browser.get(f"file://{ROOT}/page/index.html")
        self.browser.execute_script(read(f"{ROOT}/tests/page/ask.js"))

    def needs_chromium(self):
        """Skips a test that uses the development tools of Chromium in another browser."""
        if not hasattr(self.browser, "execute_cdp_cmd"):
            pytest.skip("only in Chromium")

    def ask(self, *questions):
        """Sends requests to the page. Returns its replies, or its reply if there is one request."""
        script = "const done = arguments[1]; ask(arguments[0]).then(done, (error) => done(String(error.stack)));"
        replies = self.browser.execute_async_script(script, questions)
        assert not isinstance(replies, str), replies
        return replies if len(questions) > 1 else replies[0]

    def text(self, kind, text, **more):
        """Returns the reply after a text was pasted as this kind of bytes."""
        return self.ask({"kind": kind, "text": text, **more})

    def resize(self, width):
        self.needs_chromium()
        self.browser.execute_cdp_cmd("Emulation.setDeviceMetricsOverride", {"width": width, "height": 900, "deviceScaleFactor": 1, "mobile": False})


def chromium():
    options = webdriver.ChromeOptions()
    for word in ["--headless", "--no-sandbox", "--disable-gpu", "--hide-scrollbars", "--window-size=1280,900"]:
        options.add_argument(word)
    options.binary_location = shutil.which("chromium")
    return webdriver.Chrome(service=Service(shutil.which("chromedriver")), options=options)


def webkit():
    options = Options()
    options.add_argument("--automation")
    options.binary_location = glob.glob("/usr/lib/*/webkit2gtk-4.*/MiniBrowser")[0]
    return webdriver.WebKitGTK(executable_path=shutil.which("WebKitWebDriver"), options=options)


@pytest.fixture(scope="session")
def browser():
    it = webkit() if os.environ.get("BROWSER") == "webkit" else chromium()
    yield it
    it.quit()


@pytest.fixture(scope="session")
def page(browser):
    return Page(browser)
