"""Lets the bench import what it shares with the programs of conformance/."""

import sys
from pathlib import Path

sys.path.append(str(Path(__file__).resolve().parents[1] / "conformance"))
