#!/usr/bin/env python3
"""Compares two builds of the program on random scripts, and times them on decks.

    python3 bench/engines.py PLAIN FAST SCRIPTS SEED [DECK..]

Each script has eight PLANs, with edits between them, so that one engine simulates eight systems or more in turn: merit
order and base blocks first, dear peak blocks, maintenance and none, grids of 1 to 20 MW, one to five conditions, none
to two hydro groups, units that are always out and never. All that the two print has to be equal, byte for byte. A deck
is timed by processor seconds, the least of three runs each.
"""

import os
import random
import resource
import subprocess
import sys


PERIODS = (1, 2, 3, 4)


def plant(draw, step, word, number, name, units):
    least = step * draw.randint(1, 4)
    full = least + step * draw.choice((0, 1, 2, 5))
    heat = draw.randint(1500, 3000)
    inc = draw.choice((heat - 200, heat, heat + 200, 2 * heat, 9000))
    outage = draw.choice((0, 10_000, draw.randint(0, 10_000), draw.randint(200, 1500), draw.randint(200, 1500)))
    repair = draw.choice((0, 0, draw.randint(1, 1500), draw.randint(200, 900)))
    text = f"{word} {number} {name} {units} {least} {full} {heat} {inc} {draw.randint(1, 2)} 0 {draw.randint(0, 300)} {outage} {repair}"
    if word == "THERMAL":
        text += f" {draw.randint(0, 900)} {draw.randint(0, 900)} {draw.randint(0, 20)} {draw.randint(1, 40)}"
    return text


def water(draw, step, conditions, group, project, period):
    triples = (f"{step * draw.randint(0, 2)} {step * draw.randint(0, 3)} {draw.randint(0, 20_000)}" for _ in range(conditions))
    return f"WATER {group} {project} {period} " + " ".join(triples)


class Script:
    """A deck of random data, and edits of it."""

    def __init__(self, draw):
        self.draw = draw
        self.step = draw.choice((1, 2, 5, 10, 20))
        self.periods = draw.choice(PERIODS)
        self.conditions = draw.randint(1, 5)
        self.years = draw.randint(1, 2)
        self.groups = draw.randint(0, 2)
        self.plants = draw.randint(1, 3)
        self.thermals = draw.randint(1, 2)

    def weights(self):
        cuts = sorted(self.draw.randint(0, 10_000) for _ in range(self.conditions - 1))
        ends = [0] + cuts + [10_000]
        return " ".join(str(b - a) for a, b in zip(ends, ends[1:]))

    def shape(self):
        loads = sorted(self.draw.sample(range(1, 10_000), self.draw.randint(0, 4)))
        shares = sorted((self.draw.randint(0, 10_000) for _ in range(len(loads) + 1)), reverse=True)
        points = [(0, 10_000)] + list(zip(loads + [10_000], shares))
        return "SHAPE 1 " + " ".join(f"{a} {b}" for a, b in points)

    def load(self, year):
        peaks = " ".join(f"{self.step * self.draw.randint(5, 60)} 1" for _ in range(self.periods))
        return f"LOAD {year} {peaks}"

    def existing(self, p):
        return plant(self.draw, self.step, "PLANT", p, f"P{p}", self.draw.randint(0, 5))

    def thermal(self, k):
        return plant(self.draw, self.step, "THERMAL", k, f"T{k}", 4)

    def waters(self):
        for group in range(1, self.groups + 1):
            for project in (1, 2):
                for period in range(1, self.periods + 1):
                    yield water(self.draw, self.step, self.conditions, group, project, period)

    def lines(self):
        yield from ("VERSION 2", f"YEARS {self.years}", f"PERIODS {self.periods}", "RATE 1000 800", "ENS 100000")
        yield from (f"CONDITIONS {self.weights()}", f"GRID {self.step}", self.shape())
        yield from (f"FUEL 1 {self.draw.randint(0, 900)} 0", f"FUEL 2 0 {self.draw.randint(0, 900)}")
        yield from (self.load(t + 1) for t in range(self.years))
        yield from (self.existing(p + 1) for p in range(self.plants))
        yield from (self.thermal(k + 1) for k in range(self.thermals))
        for group in range(1, self.groups + 1):
            yield f"HYDRO {group} H{group} 1 1 0"
            yield f"PROJECT {group} 1 {self.step * 4} 0 0 50"
            yield f"PROJECT {group} 2 {self.step * 4} 500 0 50"
        yield from self.waters()
        pairs = ["0 2"] * self.thermals + ["0 1"] * self.groups
        yield from ("TUNNEL 1 1 " + " ".join(pairs), "MARGIN 1 1 0 100000", "LOLP 1 1 1000000000 1000000000")

    def edit(self):
        return self.draw.choice(
            (
                lambda: f"RULE {self.draw.choice(('MERIT', 'BASE'))}",
                self.shape,
                lambda: self.load(1),
                lambda: self.existing(self.draw.randint(1, self.plants)),
                lambda: self.thermal(self.draw.randint(1, self.thermals)),
                lambda: f"CONDITIONS {self.weights()}",
                lambda: f"FUEL 1 {self.draw.randint(0, 900)} 0",
                lambda: next(self.waters(), "RULE MERIT"),
            )
        )()

    def text(self):
        lines = list(self.lines()) + ["PLAN"]
        for _ in range(7):
            lines += [self.edit() for _ in range(self.draw.randint(1, 3))] + ["PLAN"]
        return ("\n".join(lines + ["END"]) + "\n").encode()


def run(program, text):
    return subprocess.run([program, "plan"], input=text, capture_output=True, timeout=300)


def compare(plain, fast, count, seed):
    keys = plans = 0
    for number in range(count):
        text = Script(random.Random(f"{seed} {number}")).text()
        one, other = run(plain, text), run(fast, text)
        if (one.returncode, one.stdout) != (other.returncode, other.stdout):
            with open("engines_differ.script", "wb") as file:
                file.write(text)
            print(f"script {number} of seed {seed}: they differ; it stands in engines_differ.script")
            return False
        plans += one.stdout.count(b"\nTOTAL") + one.stdout.count(b"\nINFEASIBLE")
        keys += int(one.stdout.split()[-1])
    print(f"{count} scripts are equal: {plans} plans over {keys} keys")
    return True


def seconds(program, deck):
    with open(deck, "rb") as file:
        text = file.read()
    times = []
    for _ in range(3):
        before = resource.getrusage(resource.RUSAGE_CHILDREN)
        run(program, text)
        after = resource.getrusage(resource.RUSAGE_CHILDREN)
        times.append(after.ru_utime + after.ru_stime - before.ru_utime - before.ru_stime)
    return min(times)


def main():
    plain, fast, count, seed = sys.argv[1], sys.argv[2], int(sys.argv[3]), sys.argv[4]
    same = compare(plain, fast, count, seed)
    for deck in sys.argv[5:]:
        slow, quick = seconds(plain, deck), seconds(fast, deck)
        print(f"{os.path.basename(deck)}: {slow:.2f} s and {quick:.2f} s, {slow / quick:.1f} times")
    sys.exit(not same)


main()
