"""What this machine has to spare: its processors and its memory."""
import os
import re


def number_in(file, pattern):
    try:
        with open(file) as text:
            return int(re.search(pattern, text.read())[1])
    except (OSError, TypeError):
        return None


def processors():
    """The processors that this process may use, or fewer where its control group has a quota of time."""
    found = len(os.sched_getaffinity(0))
    quota, period = (number_in("/sys/fs/cgroup/cpu.max", it) for it in (r"^(\d+) ", r"^\d+ (\d+)"))
    return min(found, max(quota // period, 1)) if quota and period else found


def free_memory():
    """The bytes of memory that are free, also under the limit of this process's control group."""
    found = [1024 * (number_in("/proc/meminfo", r"MemAvailable:\s+(\d+)") or 4_000_000)]
    limit, held = (number_in(f"/sys/fs/cgroup/memory.{it}", r"^(\d+)") for it in ("max", "current"))
    return min([*found, limit - held] if limit and held else found)
