#!/usr/bin/env python3
"""What the program `buckets` prints, worked out another way: each arrival is inserted by itself, as published in 2002.

    python3 tools/buckets.py < crates/buckets/stdin

Buckets are kept oldest first here, as a plain list of sizes; ticks are not needed, since nothing expires.
"""
import sys

LAST_TICK = 1048575


def spelled(line, most):
    """The number that the line spells, or None."""
    for number in range(most + 1):
        if line == str(number).encode():
            return number
    return None


def insert(sizes, half):
    """One arrival: a bucket of size 1; where a size has half + 2 buckets, its two oldest become one of twice the size."""
    sizes.append(1)
    size = 1
    while sizes.count(size) == half + 2:
        at = sizes.index(size)
        sizes[at : at + 2] = [2 * size]
        size *= 2


def main():
    lines = sys.stdin.buffer.read().split(b"\n")
    if lines[-1] == b"":
        lines.pop()
    half, sizes, arrivals, ticks = None, [], 0, 0
    for number, line in enumerate(lines, 1):
        if half is None:
            k = spelled(line, 32)
            if k is None or k % 2 == 1 or k < 2:
                print(f"line {number}: refused, k is an even number from 2 to 32")
            else:
                half = k // 2
            continue
        count = spelled(line, 960)
        if count is None:
            print(f"line {number}: refused, a count is a number from 0 to 960")
        elif ticks == LAST_TICK:
            print(f"line {number}: refused, no more ticks are left")
        else:
            ticks += 1
            arrivals += count
            for _ in range(count):
                insert(sizes, half)
            print(" ".join(str(size) for size in sizes))
    print(f"{arrivals} arrivals stand in {len(sizes)} buckets")


main()
