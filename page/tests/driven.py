"""What a browser of the tests can do, whichever it is."""

from abc import ABC, abstractmethod
from pathlib import Path
from typing import Any

READY = "return window.qauditPage !== undefined || !document.getElementById('trouble').hidden"
PLACE = """const {x, y, width, height} =
  document.querySelector(arguments[0]).getBoundingClientRect();
return {x: x + scrollX, y: y + scrollY, width, height};"""


class Driven(ABC):
    """A browser that is told what to do."""

    @abstractmethod
    def get(self, address: str) -> None:
        """Opens an address."""

    @abstractmethod
    def messages(self) -> list[str]:
        """What stands on the console since this was last asked."""

    @abstractmethod
    def wait(self, condition: str) -> None:
        """Waits until a script returns true."""

    @abstractmethod
    def run_async(self, script: str, *arguments: object) -> Any:
        """What a script hands to the function that is its last argument."""

    def open(self, page: Path, fragment: str = "") -> None:
        """Opens a page anew and waits until it is drawn."""
        self.get("about:blank")
        self.messages()
        self.get(page.resolve().as_uri() + fragment)
        self.wait(READY)

    def settled(self) -> None:
        """Waits until all that was asked for is drawn."""
        self.run_async(
            "const done = arguments[0];"
            "requestAnimationFrame(() => requestAnimationFrame(() => done(1)))"
        )
