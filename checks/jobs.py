#!/usr/bin/env python3
"""Prints how many checks `rt ci` should run side by side: one for each processor, but no more than the free memory holds, and at least one.

usage: RT_JOBS=$(python3 checks/jobs.py) rt ci

The largest check of this repository takes about 3 GB. Without RT_JOBS `rt` reckons up to 10 GB for the upper crates and runs them one
by one. Where RT_JOBS is set already, to a number above 0, the script prints that number.
"""

import os
import re

# What a check takes at most, in bytes, with a little room.
A_CHECK = 3_200_000_000


def free_memory():
    """The free memory in bytes: of the machine, and of the control group where that has a limit."""
    with open("/proc/meminfo", encoding="ascii") as file:
        found = [1024 * int(re.search(r"MemAvailable:\s+(\d+)", file.read()).group(1))]
    for limit, held in (("memory.max", "memory.current"), ("memory/memory.limit_in_bytes", "memory/memory.usage_in_bytes")):
        numbers = [number_in(f"/sys/fs/cgroup/{name}") for name in (limit, held)]
        if None not in numbers:
            found.append(numbers[0] - numbers[1])
    return min(found)


def number_in(path):
    """The number that a file holds, or None."""
    try:
        with open(path, encoding="ascii") as file:
            return int(file.read())
    except (OSError, ValueError):
        return None


def jobs():
    given = os.environ.get("RT_JOBS", "")
    if given.isdigit() and int(given):
        return int(given)
    return max(1, min(len(os.sched_getaffinity(0)), free_memory() // A_CHECK))


if __name__ == "__main__":
    print(jobs())
