"""The arguments of the programs of the bench, read as those of conformance/ are."""

import argparse

import conformance_path  # noqa: F401
from processes import is_program
from runners import Parser, absolute

ENDING = """\
The exit status is 0 where each trace got its answer, whatever the times are, 1 where one did not,
and 64 where the arguments are wrong."""


class BenchParser(Parser):
    """Reads the arguments of a program that measures, which begin with those that all such have."""

    def __init__(self, text: str | None, shapes: list[str] | None) -> None:
        super().__init__(text, ENDING)
        if shapes is not None:
            only = "measure only this shape, which may be said of several"
            self.add_argument("--shape", action="append", choices=shapes, help=only)
        folder = "where the temporary folder for traces is to be"
        self.add_argument("--folder", metavar="FOLDER", help=folder)
        self.add_argument("program", metavar="PROGRAM", type=program, help="the auditor")


def program(path: str) -> str:
    """A program that can be run, by a path that is the same in every folder."""
    if not is_program(path):
        raise argparse.ArgumentTypeError(f"{path} is no program that can be run")
    return absolute(path)


def positive(text: str) -> int:
    """A number above 0."""
    number = int(text)
    if number < 1:
        raise argparse.ArgumentTypeError(f"{text} is not above 0")
    return number
