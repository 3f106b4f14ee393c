#!/usr/bin/env python3
"""What the program `speed` prints, worked out another way: one arrival after another, a queue of stamps for each size.

    python3 tools/speed.py

takes a few minutes.
"""
from collections import deque

LINES = 100000


def run(k, window, cap, weight):
    half = k // 2
    levels = []
    for tick in range(LINES):
        while levels and levels[-1][-1] + window <= tick:
            levels[-1].pop()
            if not levels[-1]:
                levels.pop()
        for _ in range(weight):
            stamp, exponent = tick, 0
            while True:
                if exponent == len(levels):
                    levels.append(deque())
                level = levels[exponent]
                level.appendleft(stamp)
                if len(level) < half + 2:
                    break
                level.pop()
                stamp = level.pop()
                exponent += 1
    buckets = sum(len(level) for level in levels)
    print(f"k {k}, N {window}, R {cap}, weight {weight}: {buckets} buckets, 0 lines refused")


run(8, 45000, 64, 1)
run(8, 45000, 64, 25)
run(8, 8000, 1024, 240)
run(8, 2000, 1024, 960)
