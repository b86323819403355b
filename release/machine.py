"""How many crates this machine can prove at a time.

The kit believes that a proof takes a gigabyte for each thousand lines, and proves no more at a time
than memory holds by that. Measured peaks are half of it and less, so with its rule processors are
idle. `RT_JOBS` sets the rule aside, and this is the rule in its place.
"""

import os
import re
from pathlib import Path

ROOT = Path("/")
VARIABLE = "RT_JOBS"
# Of free memory, for each crate that is being proved.
BYTES_OF_A_JOB = 5_000_000_000
MEMORY = "proc/meminfo"
# The limits of a control group, in either version of these: of memory with what is held, and of
# processors, as microseconds of a period.
MEMORY_LIMITS = (
    ("sys/fs/cgroup/memory.max", "sys/fs/cgroup/memory.stat", r"^anon (\d+)"),
    (
        "sys/fs/cgroup/memory/memory.limit_in_bytes",
        "sys/fs/cgroup/memory/memory.stat",
        r"^total_rss (\d+)",
    ),
)
PROCESSOR_LIMITS = (
    ("sys/fs/cgroup/cpu.max", r"^(\d+)", "sys/fs/cgroup/cpu.max", r"^\d+ (\d+)"),
    ("sys/fs/cgroup/cpu/cpu.cfs_quota_us", r"^(\d+)", "sys/fs/cgroup/cpu/cpu.cfs_period_us", ""),
)


def number_in(root: Path, file: str, pattern: str) -> int | None:
    """The number that a file has; None if it is not there, or has none."""
    try:
        found = re.search(pattern or r"^(\d+)", (root / file).read_text(), re.MULTILINE)
    except OSError:
        return None
    return int(found[1]) if found else None


def processors(root: Path = ROOT) -> int:
    """How many processors there are to use."""
    found = len(os.sched_getaffinity(0))
    for file, quota_in, period_file, period_in in PROCESSOR_LIMITS:
        quota = number_in(root, file, quota_in)
        period = number_in(root, period_file, period_in)
        if quota and period:
            found = min(found, max(1, quota // period))
    return found


def free_memory(root: Path = ROOT) -> int:
    """How many bytes of memory are free, also by the limit of the control group; 0 if nothing says
    it."""
    found = [1024 * (number_in(root, MEMORY, r"^MemAvailable:\s+(\d+)") or 0)]
    for file, held_file, held_in in MEMORY_LIMITS:
        limit, held = number_in(root, file, r"^(\d+)"), number_in(root, held_file, held_in)
        if limit and held is not None:
            found.append(max(0, limit - held))
    return min(found)


def wanted_jobs() -> int:
    """What RT_JOBS asks for; 0 if it is not set, or is no number."""
    wanted = os.environ.get(VARIABLE, "")
    return int(wanted) if wanted.isdigit() else 0


def jobs(root: Path = ROOT) -> int:
    """How many crates are proved at a time: what RT_JOBS says, or else one on each processor, as
    many as free memory has room for, at least one."""
    return wanted_jobs() or max(1, min(processors(root), free_memory(root) // BYTES_OF_A_JOB))


def lanes(root: Path = ROOT) -> int:
    """How many crates get on at a time: no more than there are processors."""
    return min(jobs(root), processors(root))


def environment() -> dict[str, str]:
    """The environment of a command that proves."""
    return {**os.environ, VARIABLE: str(jobs())}
