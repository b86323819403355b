"""Reads which functions stand in a source, and the clauses of their contracts.

Of a source only the brackets, the `impl` and `trait` blocks and the heads of functions are looked
at. All else of it is the prover's.
"""

import re
from functools import cached_property
from typing import NamedTuple

# What is no code: comments, texts, characters. An apostrophe behind a word is a part of the word.
NO_CODE = re.compile(
    r"//[^\n]*|\bb?\"(?:\\.|[^\"\\])*\"|\"(?:\\.|[^\"\\])*\""
    r"|(?<!\w)b?'(?:\\[^\n][^'\n]*|[^\\'\n])'",
    re.DOTALL,
)
COMMENT = re.compile(r"//[^\n]*")
OPENING, CLOSING = "([{", ")]}"

# A block whose functions are named behind its type: `impl<A> Trait for Type<A> {`.
OWNER = re.compile(
    r"^(?:pub(?:\([^)]*\))? +)?(?:impl\b(?P<impl>[^{;]*)|trait +(?P<trait>\w+)[^{;]*)\{",
    re.MULTILINE,
)
FUNCTION = re.compile(r"\bfn +(\w+)")
CLAUSE = re.compile(r"\b(requires|ensures\*?)\s*([\w']*)\s*\{")


class Clause(NamedTuple):
    """A clause of a contract: `requires` or `ensures`, its name, and what it says."""

    kind: str
    name: str
    says: str

    def text(self) -> str:
        """The clause as it stands in a contract, on one line."""
        return " ".join(part for part in (self.kind, self.name, f"{{ {self.says} }}") if part)


class Function(NamedTuple):
    """A function: its name behind that of its type, its clauses, and the places between which it
    stands in the source."""

    name: str
    clauses: list[Clause]
    start: int
    end: int


class Owner(NamedTuple):
    """A block with the functions of a type, and the places between which it stands."""

    type: str
    start: int
    end: int


class Source:
    """The text of a source."""

    def __init__(self, text: str) -> None:
        self.text = text
        self.code = NO_CODE.sub(lambda found: re.sub(r"[^\n]", " ", found[0]), text)

    @cached_property
    def functions(self) -> list[Function]:
        """The functions, in the order in which they stand."""
        return [self.function_at(found) for found in FUNCTION.finditer(self.code)]

    def named(self, name: str) -> list[Function]:
        """The functions of this name: more than one where a type has it by several traits."""
        return [function for function in self.functions if function.name == name]

    def function_at(self, found: re.Match[str]) -> Function:
        """The function whose name stands here."""
        start = self.code.rfind("\n", 0, found.start()) + 1
        clauses, end = self.clauses_behind(found.end())
        owner = next((it for it in self.owners if it.start < start < it.end), None)
        return Function(f"{owner.type}::{found[1]}" if owner else found[1], clauses, start, end)

    def clauses_behind(self, start: int) -> tuple[list[Clause], int]:
        """The clauses of the head that goes on here, and where the body behind it ends."""
        clauses, place = [], start
        while self.code[place] not in "{;":
            clause = CLAUSE.match(self.code, place)
            if clause:
                place = self.end_of(clause.end() - 1)
                clauses.append(Clause(clause[1], clause[2], self.said(clause.end(), place - 1)))
            else:
                place = self.end_of(place) if self.code[place] in OPENING else place + 1
        return clauses, self.end_of(place) if self.code[place] == "{" else place + 1

    def said(self, start: int, end: int) -> str:
        """The text between two places, with single blanks and without comments."""
        return " ".join(COMMENT.sub("", self.text[start:end]).split())

    @cached_property
    def owners(self) -> list[Owner]:
        """The blocks whose functions are named behind a type."""
        return [
            Owner(it["trait"] or type_of(it["impl"]), it.start(), self.end_of(it.end() - 1))
            for it in OWNER.finditer(self.code)
        ]

    def end_of(self, start: int) -> int:
        """Where the bracket is closed that opens here, and what is behind it begins."""
        depth = 0
        for place in range(start, len(self.code)):
            depth += (self.code[place] in OPENING) - (self.code[place] in CLOSING)
            if not depth:
                return place + 1
        raise ValueError("a bracket is not closed")


def type_of(head: str) -> str:
    """The name of the type of an `impl` block, by what stands between that word and its brace."""
    plain = without_parameters(head)
    return plain.split(" for ")[-1].split(" where ")[0].split("::")[-1].strip(" &")


def without_parameters(text: str) -> str:
    """A type without what stands in angle brackets."""
    kept, depth = "", 0
    for sign in text:
        depth += sign == "<"
        kept += "" if depth else sign
        depth -= sign == ">"
    return kept
