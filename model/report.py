#!/usr/bin/env python3
"""The report of calls of Q-10, small and slow: it reads runs from its input and prints their counts.

The machine of each run is check.py's, made from document 01; what is counted is made from the request alone."""

import sys
from collections import Counter

from check import Machine, Refusal

MOST = 1_000_000


class Watched(Machine):
    """A machine that tells each accepted call: who made it, and what was written in x0 for it."""

    def __init__(self, tell):
        super().__init__()
        self.tell = tell

    def judge(self, core, caller, x):
        try:
            results = super().judge(core, caller, x)
        except Refusal as refused:
            results = [refused.args[0]]
        first = results[0] if results else 0
        self.tell(caller, first % 2 ** (64 if x[0] >> 30 & 1 else 32) if first < 0 else first)
        return results


def report(data, most=MOST):
    counts, seen = Counter(), 0

    def tell(caller, answer):
        nonlocal seen
        seen += 1
        if seen <= most:
            counts[caller, answer] += 1

    lines = data.split(b"\n")
    if lines[-1] == b"":
        lines.pop()
    machine = Watched(tell)
    for line in lines:
        if line == b"00":
            machine = Watched(tell)
        else:
            machine.answer(line)
    printed = ["a08e"] if seen > most else []
    printed += ["b0%02x%016x%016x" % (world, answer, counts[world, answer]) for world, answer in sorted(counts)]
    return "".join(line + "\n" for line in printed).encode()


if __name__ == "__main__":
    sys.stdout.buffer.write(report(sys.stdin.buffer.read()))
