#!/usr/bin/env python3
"""ends.py SEED COUNT [LINES]: random runs through `explain`, `explain ADDRESS` and `explain map`, against the machine of check.py.

The machine keeps for each page the line that named its owner, for each mapping its place, and which lines are about a page. What
`explain` tells after the last line, the history of some pages and the picture have to be what is worked out from that, sign for sign.
EXPLAIN is a whole command (crates/explain/out/explain where it is not set). The first difference is printed and ends it with status 1."""

import os
import random
import shlex
import subprocess
import sys
from pathlib import Path

sys.dont_write_bytecode = True
TOP = Path(__file__).resolve().parent.parent.parent
sys.path.insert(0, str(TOP / "model"))
from check import Machine, OFF, ON, PAGE, PENDING, without_hint  # noqa: E402
from runs import run  # noqa: E402

OWNERS = ["Root", "Secure", "Normal", "Realm"]
ATTRIBUTES = ["read only", "writable", "executable"]
SINGLE, SEVERAL = (0xC40001B0, 0xC40001B1), (0xC2000010, 0xC2000011)


def address(x):
    return "%0*x" % (8 if x < 2**32 else 12 if x < 2**48 else 16, x)


def many(n):
    return "page" if n == 1 else "pages"


class Traced(Machine):
    """The machine, with what somebody wants to be told of it."""

    def __init__(self):
        super().__init__()
        self.line = 0
        self.origins = {}
        self.places = {world: [None] * 16 for world in range(4)}
        self.about = []

    def answer(self, line):
        self.line += 1
        self.pages = set()
        said = super().answer(line)
        self.about.append(self.pages)
        return said

    def name(self, span):
        for page in span:
            self.origins[page] = self.line

    def name_pages(self, first, count, owner):
        super().name_pages(first, count, owner)
        self.name(range(first, first + count))
        self.pages = set(range(first, first + count))

    def call(self, number, *x):
        caller = self.cores[number].world if number < len(self.cores) else None
        said = super().call(number, *x)
        key = without_hint(x[0] % 2**32)
        if key in SINGLE + SEVERAL and self.cores[number].world == caller:
            end = x[1] + PAGE * (1 if key in SINGLE else x[2])
            starts = (self.base + page * PAGE for page in range(len(self.owners)))
            self.pages |= {page for page, start in enumerate(starts) if max(start, x[1]) < min(start + PAGE, end)}
        return said

    def move(self, start, count, giver, taker):
        super().move(start, count, giver, taker)
        self.name(self.span(start, count * PAGE))
        return [0]

    def map(self, core, caller, physical, virtual, size, attributes, *_):
        super().map(core, caller, physical, virtual, size, attributes)
        if size:
            places = self.places[caller]
            behind = max((i + 1 for i, held in enumerate(places) if held), default=0)
            places[behind if behind < 16 else places.index(None)] = (virtual, size, physical, attributes)
            self.pages |= set(self.span(physical, size))
        return [0]

    def unmap(self, core, caller, virtual, size, *_):
        super().unmap(core, caller, virtual, size)
        places = self.places[caller]
        at = next(i for i, held in enumerate(places) if held and held[:2] == (virtual, size))
        self.pages |= set(self.span(places[at][2], size))
        places[at] = None
        return [0]

    # What is told in the end.

    def range_told(self, first, end):
        wide = self.base + len(self.owners) * PAGE > 2**32
        columns = (38, 50, 58) if wide else (22, 34, 42)
        text = address(self.base + first * PAGE) + " to " + address(self.base + end * PAGE - 1)
        for column, part in zip(columns, ("%4d %s" % (end - first, many(end - first)), OWNERS[self.owners[first]], "")):
            text = text.ljust(column) + part
        line = self.origins.get(first)
        return text + (f"line {line}" if line else "unnamed")

    def ranges(self):
        first = 0
        for page in range(1, len(self.owners) + 1):
            kind = lambda p: (self.owners[p], self.origins.get(p))
            if page == len(self.owners) or kind(page) != kind(first):
                yield self.range_told(first, page)
                first = page

    def core_told(self, number):
        core = self.cores[number]
        state = {ON: f"ON, {OWNERS[core.world]} runs now", OFF: "OFF", PENDING: None}[core.power]
        return f"core {number}: " + (state or f"pending, to start at {address(core.start[0])}")

    def mappings(self):
        for world in range(4):
            for held in filter(None, self.places[world]):
                virtual, size, physical, attributes = held
                pages = size // PAGE
                yield OWNERS[world].ljust(8) + f"maps {pages} {many(pages)} from {address(physical)} at {address(virtual)}, {ATTRIBUTES[attributes]}"

    def end(self):
        yield f"how things stand after line {self.line}"
        if self.base is None:
            yield "no window"
            return
        yield from map(self.core_told, range(len(self.cores)))
        yield from self.ranges()
        yield from list(self.mappings()) or ["no mappings"]

    def history(self, words, x):
        page = None if self.base is None else self.page(x)
        yield from (text for text, pages in zip(words, self.about) if page in pages)
        if self.base is None:
            yield "no window"
        elif page is None:
            yield f"{address(x)} lies outside the window"
        else:
            yield self.range_told(page, page + 1)

    def picture(self):
        if self.base is None:
            yield "no window"
            return
        yield ". Root, s Secure, n Normal, r Realm; what is mapped in capitals"
        wide = self.base + len(self.owners) * PAGE > 2**32
        letters = ["?SNR"[o] if p in self.mapped(o) else ".snr"[o] for p, o in enumerate(self.owners)]
        for first in range(0, len(letters), 64):
            yield address(self.base + first * PAGE).ljust(18 if wide else 10) + "".join(letters[first:first + 64])


def told(command, data):
    return subprocess.run(command, input=data, stdout=subprocess.PIPE, cwd=TOP, check=True).stdout.decode().splitlines()


def same(number, what, ours, theirs):
    for at, (a, b) in enumerate(zip(ours + [None], theirs + [None])):
        if a != b:
            sys.exit(f"seed {number}, {what}, line {at + 1}\nmachine {a!r}\nexplain {b!r}")


def main():
    seed, count = int(sys.argv[1]), int(sys.argv[2])
    length = int(sys.argv[3]) if len(sys.argv) > 3 else 500
    explain = shlex.split(os.environ.get("EXPLAIN", "crates/explain/out/explain"))
    shown = 0
    for number in range(seed, seed + count):
        data = run(number, length)
        machine = Traced()
        machine.run(data)
        words = told(explain, data)
        same(number, "the end", list(machine.end()), words[machine.line:])
        same(number, "the picture", list(machine.picture()), told(explain + ["map"], data))
        chance = random.Random(number)
        base, pages = machine.base or 0, len(machine.owners)
        for x in [base + chance.randrange(PAGE * (pages + 2)) for _ in range(3)] + [max(base - 1, 0)]:
            history = list(machine.history(words, x))
            same(number, f"the history of {x:x}", history, told(explain + [chance.choice(["%x", "0x%x"]) % x], data))
            shown += len(history) - 1
    print(f"{count} runs of {length} lines, {shown} lines of histories, no difference")


if __name__ == "__main__":
    main()
