#!/usr/bin/env python3
"""Writes the deck of a trial as a script of `plan`: trial_deck.py SEED YEARS CANDIDATES.

It is made from the description of trial decks in docs/FORMATS.md and knows nothing of the program, so that what
`plan` says of it is another way to what `trial` says.
"""
import sys


def deck(seed, years, candidates):
    state = seed % 2**32

    def draw(count):
        nonlocal state
        state = (1664525 * state + 1013904223) % 2**32
        return state // 65536 % count

    def unit(smallest):
        full = smallest + draw(40)
        heat = 2400 + draw(400)
        fuel = 1 + draw(2)
        outage = 300 + draw(700)
        repair = 400 + draw(400)
        return [full // 2, full, heat, heat - 200, fuel, 100, 200, outage, repair]

    yield ["YEARS", years]
    yield ["PERIODS", 2]
    yield ["RATE", 1000, 800]
    yield ["ENS", 100000]
    yield ["CONDITIONS", 6000, 4000]
    yield ["SHAPE", 1, 0, 10000, 5000, 8000, 10000, 500]
    yield ["FUEL", 1, 300 + draw(200), 0]
    yield ["FUEL", 2, 0, 500 + draw(300)]
    for p in range(1, 7):
        yield ["PLANT", p, f"P{p}", 1] + unit(30)
    for k in range(1, candidates + 1):
        fields = unit(40)
        price = 600 + draw(900)
        yield ["THERMAL", k, f"T{k}", 4] + fields + [price, price, 10, 25]
    yield ["HYDRO", 1, "HYD", 1, 0, 50]
    yield ["PROJECT", 1, 1, 40, 0, 0, 50]
    for m in (1, 2):
        wet = 20000 + draw(20000)
        dry = 10000 + draw(10000)
        yield ["WATER", 1, 1, m, 10, 20, wet, 8, 20, dry]
    for t in range(1, years + 1):
        first = 200 + 15 * (t - 1) + draw(20)
        second = 200 + 15 * (t - 1) + draw(20)
        yield ["LOAD", t, first, 1, second, 1]
    yield ["MARGIN", 1, 1, 0, 100000]
    yield ["LOLP", 1, 1, 1000000000, 1000000000]
    for t in range(1, years + 1):
        yield ["TUNNEL", 1, t] + [(t - 1) // 8, 1] * candidates + [0, 0]


if __name__ == "__main__":
    for line in deck(*map(int, sys.argv[1:4])):
        print(*line)
    print("PLAN")
    print("END")
