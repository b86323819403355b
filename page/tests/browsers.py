"""The browser of the tests: Chromium, or Firefox if the environment has QAUDIT_BROWSER=firefox."""

import os

from tests import chromium, firefox

IS_FIREFOX = os.environ.get("QAUDIT_BROWSER") == "firefox"
MISSING = firefox.MISSING if IS_FIREFOX else chromium.MISSING
Browser = chromium.Browser | firefox.Firefox


def begun() -> Browser:
    """A browser that is begun."""
    return firefox.Firefox() if IS_FIREFOX else chromium.Browser()
