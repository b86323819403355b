"""Pages that show a run of a QUIC sender, made of a trace and of what qaudit-why says of it."""

import signal
import sys

if sys.argv[0].rpartition("/")[2] in ("qaudit-page", "qaudit-matrix"):
    # While a command imports its modules, Ctrl-C ends it at once, and quietly.
    if signal.getsignal(signal.SIGINT) is signal.default_int_handler:
        signal.signal(signal.SIGINT, signal.SIG_DFL)
