"""A headless Chromium for the tests, where Debian's chromium-driver and python3-selenium are."""

import base64
import importlib
import json
import shutil
import sys
from pathlib import Path
from typing import Any

from tests.driven import PLACE, Driven

# Where Debian's package lies, for a Python that is not Debian's.
sys.path.append("/usr/lib/python3/dist-packages")


def module(name: str) -> Any:
    """A module of selenium, which says little of its types; None where there is none."""
    try:
        return importlib.import_module(f"selenium.webdriver{name}")
    except ImportError:
        return None


WEBDRIVER = module("")
DRIVER = shutil.which("chromedriver")
MISSING = "" if WEBDRIVER and DRIVER else "no chromium-driver or no python3-selenium is installed"
SECONDS = 30


class Browser(Driven):
    """A browser whose window is this wide, in light or in dark colours."""

    def __init__(self, width: int = 1200, height: int = 900, *, is_dark: bool = False) -> None:
        options = module(".chrome.options").Options()
        options.binary_location = shutil.which("chromium") or ""
        for argument in (
            "--headless=new",
            "--no-sandbox",
            "--disable-gpu",
            "--hide-scrollbars",
            "--force-device-scale-factor=1",
            "--disable-dev-shm-usage",
        ):
            options.add_argument(argument)
        options.set_capability("goog:loggingPrefs", {"browser": "ALL", "performance": "ALL"})
        service = module(".chrome.service").Service(DRIVER)
        self.driver = WEBDRIVER.Chrome(service=service, options=options)
        self.driver.set_script_timeout(SECONDS)
        self.resize(width, height)
        self.dress(is_dark=is_dark)

    def resize(self, width: int, height: int) -> None:
        """Sets the size of what the page has."""
        metrics = {"width": width, "height": height, "deviceScaleFactor": 1, "mobile": False}
        self.driver.execute_cdp_cmd("Emulation.setDeviceMetricsOverride", metrics)

    def dress(self, *, is_dark: bool, media: str = "screen") -> None:
        """Sets which colours a person prefers, and whether it is a screen or paper."""
        feature = {"name": "prefers-color-scheme", "value": "dark" if is_dark else "light"}
        self.driver.execute_cdp_cmd(
            "Emulation.setEmulatedMedia", {"media": media, "features": [feature]}
        )

    def get(self, address: str) -> None:
        """Opens an address."""
        self.driver.get(address)

    def wait(self, condition: str) -> None:
        """Waits until a script returns true."""
        waiting = module(".support.ui").WebDriverWait(self.driver, SECONDS, 0.02)
        waiting.until(lambda it: it.execute_script(condition))

    def run(self, script: str, *arguments: object) -> Any:
        """What a script returns."""
        return self.driver.execute_script(script, *arguments)

    def run_async(self, script: str, *arguments: object) -> Any:
        """What a script hands to the function that is its last argument."""
        return self.driver.execute_async_script(script, *arguments)

    def messages(self) -> list[str]:
        """What stands on the console since this was last asked."""
        return [entry["message"] for entry in self.driver.get_log("browser")]

    def requests(self) -> list[str]:
        """The addresses that were asked for since this was last asked."""
        found = []
        for entry in self.driver.get_log("performance"):
            message = json.loads(entry["message"])["message"]
            if message["method"] == "Network.requestWillBeSent":
                found.append(message["params"]["request"]["url"])
        return found

    def mouse(self, kind: str, x: float, y: float, **more: Any) -> None:
        """An event of the mouse, as from the machine itself."""
        event = {"type": kind, "x": x, "y": y, "button": "left", "clickCount": 1, **more}
        self.driver.execute_cdp_cmd("Input.dispatchMouseEvent", event)

    def touch(self, kind: str, *points: tuple[float, float]) -> None:
        """Fingers are put down, moved or lifted."""
        listed = [{"x": x, "y": y, "id": place} for place, (x, y) in enumerate(points)]
        event = {"type": kind, "touchPoints": listed}
        self.driver.execute_cdp_cmd("Input.dispatchTouchEvent", event)

    def shot(self, clip: dict[str, float] | None = None) -> bytes:
        """A picture of what is seen, or of a part of the page, in pixels from its top left."""
        wanted: dict[str, Any] = {"format": "png"}
        if clip:
            wanted["clip"] = {**clip, "scale": 1}
        shot = self.driver.execute_cdp_cmd("Page.captureScreenshot", wanted)
        return base64.b64decode(shot["data"])

    def picture(self, file: Path, *, is_whole: bool = True, part: str = "") -> None:
        """Keeps a picture of the page, or of a part of it, by a selector."""
        height = self.run("return document.documentElement.scrollHeight")
        width = self.run("return innerWidth")
        if is_whole or part:
            self.resize(width, height)
            self.settled()
        file.write_bytes(self.shot(self.run(PLACE, part) if part else None))

    def close(self) -> None:
        """Ends the browser."""
        self.driver.quit()
