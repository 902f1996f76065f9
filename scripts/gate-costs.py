#!/usr/bin/env python3
"""gate-costs.py: watches the provers on this machine until it is ended, and then prints what each crate has cost.

One line a crate, as docs/GATE.md has them: processor seconds, user and system together, of its proof, its tests and its
must-fail edits, their sum, and the most memory that one of its processes held, in megabytes. Of a process that ended
between two looks, half a second apart, what came after the last one is not seen.
"""

from __future__ import annotations

import os
import re
import signal
import sys
import time
from collections import defaultdict
from dataclasses import dataclass

TICKS = os.sysconf("SC_CLK_TCK")
PAGE = os.sysconf("SC_PAGE_SIZE")
KINDS = ("proof", "tests", "edits")


@dataclass
class Seen:
    crate: str
    kind: str
    seconds: float = 0.0
    memory: int = 0


def look(pid: str, seen: dict[str, Seen]) -> None:
    """Notes what a process has used, where it works on a crate."""
    with open(f"/proc/{pid}/cmdline", "rb") as file:
        words = file.read().replace(b"\0", b" ").decode(errors="replace")
    crate = re.search(r"--crate-name (\S+)", words)
    if not crate:
        return
    with open(f"/proc/{pid}/stat") as file:
        fields = file.read().rsplit(")", 1)[1].split()
    is_edit = "/rt-edit" in words or "/rt-edit" in os.readlink(f"/proc/{pid}/cwd")
    kind = "edits" if is_edit else "tests" if " --test" in words else "proof"
    # A number is given to one process after another, which began at another time.
    it = seen.setdefault(f"{pid} {fields[19]}", Seen(crate[1], kind))
    it.seconds = (int(fields[11]) + int(fields[12])) / TICKS
    it.memory = max(it.memory, int(fields[21]) * PAGE // 1_000_000)


def rows(seen: dict[str, Seen]) -> list[str]:
    costs: dict[str, dict[str, float]] = defaultdict(lambda: defaultdict(float))
    peaks: dict[str, int] = defaultdict(int)
    for it in seen.values():
        for crate in (it.crate, "all"):
            costs[crate][it.kind] += it.seconds
        peaks[it.crate] = max(peaks[it.crate], it.memory)
    found = ["| Crate | Proof | Tests | Edits | Sum | Peak |", "|---|---|---|---|---|---|"]
    for crate in sorted(costs, key=lambda it: (it == "all", -sum(costs[it].values()))):
        cells = [costs[crate][kind] for kind in KINDS]
        numbers = [f"{it:,.0f}" if it >= 0.5 else "" for it in [*cells, sum(cells), peaks[crate]]]
        found.append("| " + " | ".join([crate, *numbers]) + " |")
    return found


def main() -> int:
    seen: dict[str, Seen] = {}
    ended = []
    for it in (signal.SIGTERM, signal.SIGINT):
        signal.signal(it, lambda *_: ended.append(True))
    while not ended:
        for pid in filter(str.isdigit, os.listdir("/proc")):
            try:
                look(pid, seen)
            except OSError:
                pass  # It has ended, or is somebody else's.
        time.sleep(0.5)
    print("\n".join(rows(seen)))
    return 0


if __name__ == "__main__":
    sys.exit(main())
