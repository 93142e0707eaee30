"""Measures the processor time that the proof of each crate takes, while `rt ci` runs."""

import contextlib
import os
import pathlib
import threading

# How often processes are looked at, in seconds: at most so much of a proof's end isn't seen.
OFTEN = 0.5
TICKS = os.sysconf("SC_CLK_TCK")


def seen_process(process):
    """Returns the parent of a process, the crate that it proves, and its processor seconds with those of its children that ended.
    Raises FileNotFoundError or ProcessLookupError where it has ended, and LookupError where it proves none."""
    words = pathlib.Path(f"/proc/{process}/cmdline").read_bytes().decode(errors="replace").split("\0")
    if os.path.basename(words[0]) != "rattle" or "--crate-name" not in words:
        raise LookupError(process)
    told = pathlib.Path(f"/proc/{process}/stat").read_text(encoding="ascii", errors="replace").rpartition(")")[2].split()
    return int(told[1]), words[words.index("--crate-name") + 1], sum(map(int, told[11:15])) / TICKS


def below(ancestor):
    """Returns the processes that this one began, and those that they began, with what is seen of each that proves a crate."""
    parents, seen = {}, {}
    for name in os.listdir("/proc"):
        if name.isdigit():
            with contextlib.suppress(OSError, LookupError, ValueError):
                told = pathlib.Path(f"/proc/{name}/stat").read_text(encoding="ascii", errors="replace").rpartition(")")[2].split()
                parents[int(name)] = int(told[1])
            with contextlib.suppress(OSError, LookupError, ValueError):
                seen[int(name)] = seen_process(name)

    def begun(process):
        while process in parents and process != ancestor:
            process = parents[process]
        return process == ancestor

    return {process: what for process, what in seen.items() if begun(process)}


class ProofTimes:
    """Looks at the processes below one, until it is told to end."""

    def __init__(self, ancestor):
        self.seconds, self.ended = {}, threading.Event()
        self.thread = threading.Thread(target=self.watch, args=(ancestor,), daemon=True)
        self.thread.start()

    def watch(self, ancestor):
        while not self.ended.wait(OFTEN):
            seen = below(ancestor)
            for process, (parent, crate, seconds) in seen.items():
                # A proof has helpers, whose time is its own once they have ended.
                if parent not in seen:
                    self.seconds.setdefault(crate, {})[process] = seconds

    def end(self):
        """Returns the seconds of each crate that was proved meanwhile."""
        self.ended.set()
        self.thread.join()
        return {crate: sum(each.values()) for crate, each in self.seconds.items()}
