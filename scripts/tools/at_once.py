"""How many runs of rt the machine has room for."""

import os
import re


def processors():
    """Returns how many processors there are to use."""
    return len(os.sched_getaffinity(0))


def free_memory():
    """Returns the free memory in kB, or none where the system doesn't tell it."""
    with open("/proc/meminfo", encoding="ascii") as file:
        free = re.search(r"MemAvailable: *([0-9]+)", file.read())
    return int(free[1]) if free else None


def at_once(memory):
    """Returns for how many runs that take so many kB each there are processors and memory; at least one."""
    return max(1, min(processors(), (free_memory() or memory) // memory))
