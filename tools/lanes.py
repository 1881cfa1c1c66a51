#!/usr/bin/env python3
"""Prints how many checks may run side by side here: one a processor, and as many as memory holds.

A processor is one that this process may run on, or fewer by the quota of its control group. A check
of a crate takes up to three gigabytes; six parts of seven of what is free are lent.
"""
import os
import re

CHECK = 3_000_000_000


def first_number(path, pattern):
    """The number that the pattern finds in a file, or None."""
    try:
        with open(path) as file:
            found = re.search(pattern, file.read())
    except OSError:
        return None
    return int(found[1]) if found else None


def processors():
    count = len(os.sched_getaffinity(0))
    for quota, period in (
        (("/sys/fs/cgroup/cpu.max", r"^(\d+) "), ("/sys/fs/cgroup/cpu.max", r"^\d+ (\d+)")),
        (
            ("/sys/fs/cgroup/cpu/cpu.cfs_quota_us", r"^(\d+)"),
            ("/sys/fs/cgroup/cpu/cpu.cfs_period_us", r"^(\d+)"),
        ),
    ):
        lent, each = first_number(*quota), first_number(*period)
        if lent and each:
            count = min(count, max(lent // each, 1))
    return count


def free_memory():
    """The free memory in bytes, under the control group's limit too."""
    free = 1024 * first_number("/proc/meminfo", r"MemAvailable:\s+(\d+)")
    for limit, held in (
        ("/sys/fs/cgroup/memory.max", "/sys/fs/cgroup/memory.current"),
        (
            "/sys/fs/cgroup/memory/memory.limit_in_bytes",
            "/sys/fs/cgroup/memory/memory.usage_in_bytes",
        ),
    ):
        most, now = first_number(limit, r"^(\d+)"), first_number(held, r"^(\d+)")
        if most and now is not None:
            free = min(free, most - now)
    return free


def lanes():
    return max(1, min(processors(), free_memory() * 6 // (7 * CHECK)))


if __name__ == "__main__":
    print(lanes())
