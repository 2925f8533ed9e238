#!/usr/bin/env python3
"""Runs a command and says how much processor time the prover took of it, by crate and by what it was for.

    python3 bench/gate_cost.py rt ci

Several times a second it reads what each prover among the command's descendants has used so far. A process whose
folder is the copy of an edit counts as an edit, one that is asked for tests as tests, and the others as proofs. At
the end it prints a Markdown table in minutes. What ends between two readings is missed, a percent or two; the last
line has what the system counted for all descendants, compilers and programs too.
"""

import collections
import os
import re
import resource
import subprocess
import sys
import threading
import time

TICK = os.sysconf("SC_CLK_TCK")


def read(path):
    with open(path, "rb") as file:
        return file.read()


def processes():
    """Each process: its number, its parent's, its ticks."""
    for name in os.listdir("/proc"):
        if name.isdigit():
            try:
                fields = read(f"/proc/{name}/stat").rpartition(b")")[2].split()
            except OSError:
                continue
            yield int(name), int(fields[1]), int(fields[11]) + int(fields[12])


def kind_of(number):
    """The crate that a prover works on, and what for, or nothing."""
    try:
        words = read(f"/proc/{number}/cmdline").split(b"\0")
        folder = os.readlink(f"/proc/{number}/cwd")
    except OSError:
        return None
    if b"--crate-name" not in words:
        return None
    crate = words[words.index(b"--crate-name") + 1].decode()
    if re.search(r"edit|must.fail|seed", folder):
        return crate, "edits"
    return crate, "tests" if b"--test" in words else "proof"


def watch(root, over, used):
    """Keeps the last reading of each prover below a process, until the command is over."""
    while not over.is_set():
        below = {root}
        seen = sorted(processes())
        grown = True
        while grown:
            more = {number for number, parent, _ in seen if parent in below} - below
            below |= more
            grown = bool(more)
        for number, _, ticks in seen:
            if number in below:
                kind = kind_of(number)
                if kind:
                    used[(number, kind)] = ticks
        time.sleep(0.2)


def main():
    used = {}
    over = threading.Event()
    begun = time.time()
    child = subprocess.Popen(sys.argv[1:])
    reader = threading.Thread(target=watch, args=(child.pid, over, used))
    reader.start()
    status = child.wait()
    over.set()
    reader.join()
    minutes = collections.Counter()
    for (_, kind), ticks in used.items():
        minutes[kind] += ticks / TICK / 60
    kinds = ("proof", "tests", "edits")
    print("| Crate | Proof | Tests | Edits | All |")
    print("|---|---|---|---|---|")
    for crate in sorted({crate for crate, _ in minutes}):
        row = [minutes[(crate, kind)] for kind in kinds]
        print(f"| `{crate}` | " + " | ".join(f"{part:.1f}" for part in row + [sum(row)]) + " |")
    row = [sum(v for (_, kind), v in minutes.items() if kind == want) for want in kinds]
    print("| all | " + " | ".join(f"{part:.1f}" for part in row + [sum(row)]) + " |")
    ends = resource.getrusage(resource.RUSAGE_CHILDREN)
    whole = (ends.ru_utime + ends.ru_stime) / 60
    print(f"all descendants: {whole:.1f} processor minutes in {(time.time() - begun) / 60:.1f} minutes")
    return status


if __name__ == "__main__":
    sys.exit(main())
