"""The machine, in words, and what else it does."""

import os
import platform
from pathlib import Path


def processor_name() -> str:
    """The first processor's name."""
    for line in Path("/proc/cpuinfo").read_text().splitlines():
        if line.startswith("model name"):
            return line.partition(":")[2].strip()
    return platform.machine()


def machine() -> str:
    """The processor, how many cores, the system, and the version of Python."""
    system = f"{platform.system()} {platform.release()}"
    return (
        f"{processor_name()}, {os.cpu_count()} cores, {system}, Python {platform.python_version()}"
    )


def load() -> str:
    """How many programs wanted a core in the last minute."""
    return f"load average {os.getloadavg()[0]:.1f}"
