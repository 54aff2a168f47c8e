"""A headless Chromium, by Selenium: pages are opened, clicked and typed at as a person does. Only for tests and pictures."""
from __future__ import annotations

import json
import os
import shutil
import tempfile
from collections.abc import Callable
from typing import Any

from support.waiting import LONG, until

try:
    from selenium import webdriver
    from selenium.common import exceptions
    from selenium.webdriver.chrome.options import Options
    from selenium.webdriver.chrome.service import Service
    from selenium.webdriver.common.by import By
    from selenium.webdriver.common.keys import Keys
    from selenium.webdriver.remote.remote_connection import RemoteConnection
    from selenium.webdriver.remote.webelement import WebElement
    HAS_SELENIUM = True
except ModuleNotFoundError:
    HAS_SELENIUM = False

BROWSERS, DRIVERS = ("chromium", "chromium-browser", "google-chrome"), ("chromedriver",)
# No sandbox, since tests may run as root, and no requests of the browser's own.
WORDS = ("--headless=new", "--no-sandbox", "--disable-gpu", "--disable-dev-shm-usage", "--no-first-run", "--disable-background-networking",
         "--disable-component-update", "--disable-sync", "--disable-extensions", "--hide-scrollbars")
# The first visible element that matches a selector, and that has this text, or this label, once the page is complete.
SPOT = """
    const found = [...document.querySelectorAll(arguments[0])].find((one) => arguments[1] === null || one.textContent.trim() === arguments[1]
        || one.getAttribute("aria-label") === arguments[1]);
    if (!found || document.readyState !== "complete") return null;
    const box = found.getBoundingClientRect();
    return box.width && box.height ? found : null;
"""
# The events by which the browser complains about a page's script or policy.
COMPLAINTS = ("Log.entryAdded", "Runtime.exceptionThrown", "Runtime.consoleAPICalled", "Page.javascriptDialogOpening")


def found(names: tuple[str, ...]) -> str | None:
    return next(filter(None, map(shutil.which, names)), None)


def missing() -> str | None:
    """What is missing for a browser, by Debian's packages, or None."""
    lacking = [package for is_there, package in ((HAS_SELENIUM, "python3-selenium"), (found(BROWSERS), "chromium"), (found(DRIVERS), "chromium-driver"))
               if not is_there]
    return f"there is no {' and no '.join(lacking)} (apt-get install {' '.join(lacking)})" if lacking else None


class Chromium:
    """A browser with one page, in a `with` block, at whose end it is gone."""

    def __init__(self) -> None:
        self.folder = tempfile.mkdtemp()
        options = Options()
        options.binary_location = found(BROWSERS)
        for word in (*WORDS, f"--user-data-dir={self.folder}"):
            options.add_argument(word)
        options.set_capability("goog:loggingPrefs", {"browser": "ALL", "performance": "ALL"})
        options.set_capability("unhandledPromptBehavior", "ignore")
        # It waits for a slow browser as long as tests wait for anything.
        RemoteConnection.set_timeout(LONG)
        try:
            self.driver = webdriver.Chrome(service=Service(found(DRIVERS), env={**os.environ, "HOME": self.folder}), options=options)
        except BaseException:
            shutil.rmtree(self.folder, ignore_errors=True)
            raise
        self.driver.set_page_load_timeout(LONG)
        self.driver.set_script_timeout(LONG)
        self.ask("Log.enable")

    def __enter__(self) -> Chromium:
        return self

    def __exit__(self, *_: object) -> None:
        self.driver.quit()
        # Processes that it has started end after it, and may still write.
        until(self._is_removed)

    def _is_removed(self) -> bool:
        shutil.rmtree(self.folder, ignore_errors=True)
        return not os.path.exists(self.folder)

    def ask(self, call: str, **given: Any) -> Any:
        """The result of a command of the browser's own protocol."""
        return self.driver.execute_cdp_cmd(call, given)

    def told(self) -> list[dict[str, Any]]:
        """The browser's events since the last call: requests, and complaints."""
        return [json.loads(row["message"])["message"] for row in self.driver.get_log("performance")]

    def complaints(self) -> list[dict[str, Any]]:
        """The complaints in its console since the last call."""
        return list(self.driver.get_log("browser"))

    def value(self, script: str) -> Any:
        """The result of a script in the page."""
        return self.driver.execute_script(f"return {script}")

    def open(self, address: str) -> None:
        self.driver.get(address)

    def wait_for(self, script: str) -> Any:
        """Waits until a script returns something. A page that is loading returns nothing yet."""
        return self._wait(lambda: self.value(script), script)

    def _wait(self, is_so: Callable[[], Any], what: str) -> Any:
        def tried() -> Any:
            try:
                return is_so()
            except (exceptions.JavascriptException, exceptions.StaleElementReferenceException, exceptions.NoSuchElementException):
                return None

        got = until(tried)
        assert got, f"it never comes: {what}"
        return got

    def element(self, chooser: str, text: str | None = None) -> WebElement:
        """The first element that matches a selector, and that has this text, or this label, once it exists and is visible."""
        found: WebElement = self._wait(lambda: self.driver.execute_script(SPOT, chooser, text), f"{chooser} {text}")
        return found

    def _lead(self, act: Callable[[], None], leads: bool) -> None:
        """Runs what leads to the next page, and waits for that."""
        if leads:
            self.value("window.isOld = true")
        act()
        if leads:
            self.wait_for("!window.isOld && document.readyState == 'complete'")

    def click(self, chooser: str, text: str | None = None, leads: bool = True) -> None:
        """Clicks there with the mouse, and waits for the next page if it leads to one."""
        self._lead(self.element(chooser, text).click, leads)

    def type(self, text: str) -> None:
        """Types where the focus is."""
        self.driver.switch_to.active_element.send_keys(text)

    def press(self, key: str, leads: bool = False) -> None:
        """Presses a key: Tab, Enter, or a letter."""
        self._lead(lambda: self.type({"Tab": Keys.TAB, "Enter": Keys.ENTER}.get(key, key)), leads)

    def choose_file(self, chooser: str, path: str) -> None:
        """Puts a file into a field for one."""
        self.driver.find_element(By.CSS_SELECTOR, chooser).send_keys(path)

    def look(self, width: int, height: int, is_dark: bool = False, is_phone: bool = False) -> None:
        """Sets the size of the page, and the colour scheme that the system prefers."""
        self.ask("Emulation.setDeviceMetricsOverride", width=width, height=height, deviceScaleFactor=1, mobile=is_phone)
        self.ask("Emulation.setEmulatedMedia", features=[{"name": "prefers-color-scheme", "value": "dark" if is_dark else "light"}])

    def picture(self, path: str) -> None:
        self.driver.get_screenshot_as_file(path)
