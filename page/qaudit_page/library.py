"""The library that draws, dygraphs, as it lies on this machine; none of it is kept here."""

import re
from importlib.resources import files
from pathlib import Path

from .failure import Failure

# Where Debian's package has it.
PLACE = Path("/usr/share/javascript/dygraphs/dygraph.min.js")
PACKAGE = "libjs-dygraphs"
VERSION = re.compile(r"\.VERSION\s*=\s*[\"'](\d+)\.(\d+)(?:\.\d+)?[\"']")
WANTED = ("2", "2")


def dygraphs(given: Path | None) -> str:
    """The script of dygraphs 2.2."""
    path = given or PLACE
    try:
        script = path.read_text("utf-8")
    except (OSError, ValueError) as fault:
        text = f"cannot read dygraphs at {path}: Debian's package {PACKAGE} has it, or name it"
        raise Failure(f"{text} with --dygraphs") from fault
    version = VERSION.search(script)
    if version is None or version.groups() != WANTED:
        found = (
            "is not dygraphs" if version is None else f"is dygraphs {'.'.join(version.groups())}"
        )
        wanted = ".".join(WANTED)
        raise Failure(f"{path} {found}: {wanted} is wanted, as Debian's {PACKAGE} has it")
    lines = script.splitlines()
    return "\n".join(line for line in lines if not line.startswith("//# sourceMappingURL"))


def resource(name: str) -> str:
    """A file of this package, which may be an archive."""
    return files(__package__).joinpath(name).read_text("utf-8")


# The parts of the script of a page, in the order in which they are joined.
MODULES = (
    *("data", "shapes", "view", "packets", "held", "state", "strip", "table", "panel", "controls"),
    *("find", "ahead", "start"),
)


def script() -> str:
    """The script of a page."""
    return f"'use strict';\n(() => {{\nconst RUN = '', pair = null;\n{modules()}}})();\n"


def script_of_pair() -> str:
    """The script of a page of two runs, which runs it twice. `RUN` begins what a run has in the
    page."""
    runs = f"for (const RUN of ['first-', 'second-']) {{\n{modules()}}}\n"
    return f"'use strict';\n(() => {{\n{resource('script/pair.js')}\n{runs}}})();\n"


def modules() -> str:
    """What the script of a page does for one run."""
    return "\n".join(resource(f"script/{name}.js") for name in MODULES)


def licence() -> str:
    """The licence of dygraphs."""
    return resource("dygraphs-licence.txt")
