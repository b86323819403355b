"""The version of the program."""

from importlib.resources import files
from pathlib import Path

NAME = "VERSION"


def version() -> str:
    """What the file VERSION has: in this package, where a release puts it, or at the top of the
    repository."""
    packed = files(__package__).joinpath(NAME)
    file = packed if packed.is_file() else Path(__file__).parents[2] / NAME
    return file.read_text("utf-8").strip()
