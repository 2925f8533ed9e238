#!/usr/bin/env python3
"""Wall and processor time of a plan of about a thousand keys by 1, 2, 4 .. workers.

    python3 bench/scaling.py PROGRAM [RUNS]

The deck is the first PLAN of examples/realistic.deck with wider tunnels and a load of every period 12 times as large on a
grid as fine as before, so that most of the time is simulation. Each number of workers runs in turn, RUNS times (5); the
least times count. The bytes of all runs have to be equal. Run it on a quiet machine: workers wait for processors.
"""

import os
import pathlib
import re
import resource
import subprocess
import sys
import time

ROOT = pathlib.Path(__file__).resolve().parent.parent


def wider(line, by):
    """A TUNNEL line with the widths of its first four candidates so much larger."""
    words = line.split()
    for place in range(4, 12, 2):
        words[place] = str(min(int(words[place]) + by, 8 - int(words[place - 1])))
    return " ".join(words)


def deck(by):
    text = (ROOT / "examples/realistic.deck").read_text()
    first = text[: text.index("PLAN\n")]
    lines = [wider(line, by) if line.startswith("TUNNEL ") else line for line in first.split("\n")]
    return "\n".join(lines) + "PLAN\nEND\n"


def run(program, words, script):
    """Standard output, wall seconds and processor seconds of a run."""
    before = resource.getrusage(resource.RUSAGE_CHILDREN)
    start = time.perf_counter()
    done = subprocess.run([program, *words], input=script.encode(), stdout=subprocess.PIPE, check=True)
    wall = time.perf_counter() - start
    after = resource.getrusage(resource.RUSAGE_CHILDREN)
    cpu = after.ru_utime + after.ru_stime - before.ru_utime - before.ru_stime
    return done.stdout, wall, cpu


def main():
    program = sys.argv[1]
    runs = int(sys.argv[2]) if len(sys.argv) > 2 else 5
    script = deck(2)
    processors = os.cpu_count() or 1
    workers = [n for n in (1, 2, 4, 8, 16, 32, 64) if n <= processors]
    least = {n: (1e9, 1e9) for n in workers}
    texts = set()
    for _ in range(runs):
        for n in workers:
            text, wall, cpu = run(program, ["plan", "--workers", str(n)], script)
            texts.add(text)
            least[n] = (min(least[n][0], wall), min(least[n][1], cpu))
    assert len(texts) == 1, "the bytes are not equal"
    keys = re.search(rb"KEYS (\d+)", texts.pop())
    print(f"keys {keys.group(1).decode()}")
    for n in workers:
        wall, cpu = least[n]
        print(f"workers {n}: wall {wall:.3f} s, {least[1][0] / wall:.2f} times, processor {cpu:.3f} s")


if __name__ == "__main__":
    main()
