#!/usr/bin/env python3
"""The link sheet, computed a second time: rounding takes the nearest of all values of a class, and ties are counted by comparing the two
neighbours. Prints what crates/sheet prints; takes about a minute.

    python3 reference/sheet.py | diff - crates/sheet/stdout
"""
from bisect import bisect_right

from definitions import COINS, RECONCILERS, SETS, reconcile, recover


def rounding(q, p, step):
    """The least and the largest distance, and the number of ties."""
    classes = []
    for c in range(step):
        classes.append([recover(y, q, p, step) for y in range(c, p + 1, step)])
        assert classes[c] == sorted(set(classes[c]))
    least, largest, ties = None, None, 0
    for x in range(q):
        values = classes[x % step]
        above = bisect_right(values, x)
        near = values[max(above - 1, 0) : above + 1]
        distances = [t - x for t in near]
        best = min(abs(d) for d in distances)
        chosen = next(d for d in distances if abs(d) == best)
        ties += sum(abs(d) == best for d in distances) == 2
        least = chosen if least is None else min(least, chosen)
        largest = chosen if largest is None else max(largest, chosen)
    return least, largest, ties


def packed(many, width):
    return (many * width + 7) // 8


def sheet(numbers, name):
    byte, n, q, p, w, e, l = SETS[numbers]
    own, step, bits, bounds = RECONCILERS[name]
    r, tau = bounds[numbers]
    print(f"{numbers} {name}")
    values, signals = packed(n, w), packed(n, bits)
    rows = [
        ("numbers byte", byte), ("reconciler byte", own), ("n", n), ("q", q), ("p", p), ("w", w), ("E", e), ("L", l),
        ("step", step), ("R", r), ("tau", tau), ("coins", COINS), ("signal bits", bits),
        ("offer bytes", 2 + 7 + 2 + 16 + 2 + values), ("answer bytes", 2 + 7 + 2 + values + 2 + signals),
        ("confirmation bytes", 2 + 7), ("key bytes", packed(n, 1)),
    ]
    rows += zip(("least distance", "largest distance", "ties"), rounding(q, p, step))
    for label, value in rows:
        print(f"  {label:20}{value}")
    for coin in range(COINS):
        counts = {}
        for x in range(q):
            outcome = reconcile(name, x, coin, q)
            counts[outcome] = counts.get(outcome, 0) + 1
        for signal in range(2**bits):
            print(f"  coin {coin} signal {signal}     key 0: {counts.get((signal, 0), 0)}, key 1: {counts.get((signal, 1), 0)}")
    print()


for numbers in SETS:
    for name in RECONCILERS:
        sheet(numbers, name)
