#!/usr/bin/env python3
"""What `weigh` must print, worked out with Python's own decoder: reads standard input, writes standard output.

The expected output of crates/weigh was made with it, and it serves to compare on other input:
    tools/weigh.py < FILE | diff - <(crates/weigh/out/weigh < FILE)
"""
import sys

MOST_BYTES = 240
BLANKS = " \u00a0\t"


def weigh(line):
    """(with blanks, without) or the refusal's (number, place)."""
    if len(line) > MOST_BYTES:
        return None, (14, 0)
    try:
        text = line.decode("utf-8")
    except UnicodeDecodeError as fault:
        return None, (15, fault.start)
    return (len(text), sum(c not in BLANKS for c in text)), None


def main():
    lines = sys.stdin.buffer.read().split(b"\n")
    if not lines[-1]:
        lines.pop()
    weighed = counting = free = refused = 0
    out = []
    for number, line in enumerate(lines, 1):
        weights, refusal = weigh(line)
        if weights:
            weighed += 1
            counting += weights[0]
            free += weights[1]
            out.append(f"{number}: {weights[0]} with blanks, {weights[1]} without")
        else:
            refused += 1
            out.append(f"{number}: refused {refusal[0]} at {refusal[1]}")
    out.append(f"weighed {weighed} lines: {counting} with blanks, {free} without; {refused} refused")
    sys.stdout.write("\n".join(out) + "\n")


main()
