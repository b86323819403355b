"""The report of conformance/sender.py on a trace, for where the proved program is not at hand.

python3 captures/audit.py < TRACE. It takes the trace to be readable: only a good one has a report.
"""

import json
import sys
from pathlib import Path

sys.path.insert(0, str(Path(__file__).parent.parent / "conformance"))

from sender import report_of  # noqa: E402


def main() -> None:
    """Reads a trace from standard input and writes its report."""
    numbered = enumerate(sys.stdin.read().split("\n"), 1)
    lines = [(number, json.loads(line)) for number, line in numbered if line.strip()]
    sys.stdout.write(report_of(lines[0][1], lines[1:]))


main()
