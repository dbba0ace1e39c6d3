#!/usr/bin/env python3
"""vet.py WORLD TABLES < RUN: the tables of a file judged by request Q-9 against the list that WORLD holds after a run.

Two things are sought apart: the first entry that may not stand (8A to 8C), in the order of the request, and the first
page that is answered differently (8D). What comes first by address decides, and an entry before the address it stands for."""

import sys

sys.dont_write_bytecode = True

from walk import walk

PAGE = 4096
SIZE = {1: 1 << 30, 2: 1 << 21, 3: PAGE}
ADDRESS = 2**48 - PAGE
ACCEPTED = 0, 0


def answers(mappings):
    """What the list answers for each page that it maps: physical address, writable, executable."""
    said = {}
    for virtual, size, physical, attributes in sorted(mappings, key=lambda held: held[1], reverse=True):
        for at in range(0, size, PAGE):
            said[virtual + at] = physical + at, attributes == 1, attributes == 2
    return said


class Flaw(Exception):
    """An entry that may not stand: status and first address."""


def entries(numbers):
    """First address and size of every page and block, in ascending order; a Flaw at the first entry that may not stand."""
    if len(numbers) < 512:
        raise Flaw(0x8A, 0)
    reached = {0}

    def of(table, level, first):
        for place in range(4 if level == 1 else 512):
            entry, address = numbers[table // 8 + place], first + place * SIZE[level]
            if entry % 2 == 0:
                continue
            if level == 3 or entry % 4 == 1:
                if level == 1 or entry % 4 == 1 and level == 3 or leaf_reserved(entry, level):
                    raise Flaw(0x8B, address)
                yield address, SIZE[level]
                continue
            below = entry & ADDRESS
            if below + PAGE > 8 * len(numbers):
                raise Flaw(0x8A, address)
            if entry != below + 3:
                raise Flaw(0x8B, address)
            if below in reached:
                raise Flaw(0x8C, address)
            reached.add(below)
            yield from of(below, level + 1, address)

    yield from of(0, 1, 0)


def leaf_reserved(entry, level):
    """Bit 10 clear, or a bit set that has no meaning; those of the address begin with the size of what it leads to."""
    either_way = 1 << 0 | 1 << 1 | 1 << 7 | 1 << 54 | 2**48 - SIZE[level]
    return entry & ~either_way != 1 << 10


def vet(numbers, mappings):
    """Status and address, both 0 where the tables are accepted."""
    said, pages, flaw = answers(mappings), set(), None
    try:
        for first, size in entries(numbers):
            pages.update(range(first, first + size, PAGE))
    except Flaw as found:
        flaw = found.args
    for page in sorted(pages.union(said)):
        if flaw and page >= flaw[1]:
            break
        if walk(numbers, page) != said.get(page):
            return 0x8D, page
    return flaw or ACCEPTED


def from_bytes(data):
    return [int.from_bytes(data[at:at + 8], "little") for at in range(0, len(data) - 7, 8)]


def main():
    from lists import list_after
    with open(sys.argv[2], "rb") as file:
        numbers = from_bytes(file.read())
    status, address = vet(numbers, list_after(sys.stdin.buffer.read(), sys.argv[1]))
    if status:
        sys.exit(f"{status:x} {address:x}: not as the list has it")
    print("accepted")


if __name__ == "__main__":
    main()
