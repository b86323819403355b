"""Templates of pages, and the policy by which a page runs nothing but its own script."""

import base64
import hashlib
import re

from .library import resource

# Where a template has a part that other templates have too: a file of this name.
PART = re.compile("%%([a-z]+)%%\n")


def template(name: str) -> str:
    """A template with its parts."""
    return PART.sub(lambda found: resource(f"{found[1]}.html"), resource(name))


def filled(template: str, **parts: str) -> str:
    """A template with each of its places filled; what is put in is not looked at again."""
    pieces = template.split("@@")
    for place in range(1, len(pieces), 2):
        pieces[place] = parts[pieces[place]]
    return "".join(pieces)


def policy(scripts: list[str], styles: list[str]) -> str:
    """A policy by which the page runs these texts and fetches nothing."""
    return (
        f"default-src 'none'; script-src {' '.join(map(hashed, scripts))};"
        f" style-src {' '.join(map(hashed, styles))};"
        " base-uri 'none'; form-action 'none'"
    )


def hashed(text: str) -> str:
    """The name of a text in a policy."""
    digest = hashlib.sha256(text.encode()).digest()
    return f"'sha256-{base64.b64encode(digest).decode()}'"
