#!/usr/bin/env python3
"""build.py WORLD [NUMBERS] < RUN: the tables of request Q-7 for the list that WORLD holds after a run of frames.

They go to standard output, each number as 8 bytes, lowest first. NUMBERS are lent, 22528 where it is not said.
A mapping is (virtual start, size, physical start, attributes), as the machine of check.py holds it."""

import sys

sys.dont_write_bytecode = True

PAGE, SLOT, GIB = 1 << 12, 1 << 21, 1 << 30
ENTRIES = 512
MOST = 44 * ENTRIES
TABLE_OR_PAGE, BLOCK = 3, 1


def deciders(mappings):
    """For each mapped page its physical address and the mapping that decides: smaller ones are laid over larger ones."""
    pages = {}
    for mapping in sorted(mappings, key=lambda held: -held[1]):
        virtual, size, physical, _ = mapping
        for at in range(0, size, PAGE):
            pages[virtual + at] = physical + at, mapping
    return pages


def leaf(way, kind):
    """A page or block that leads to a physical address with the attributes of its mapping."""
    physical, (_, _, _, attributes) = way
    entry = physical | kind | 1 << 10
    if attributes != 1:
        entry |= 1 << 7
    if attributes != 2:
        entry |= 1 << 54
    return entry


def is_block(ways):
    """One mapping decides throughout the slot, and the slot's physical address is a multiple of its size."""
    if None in ways or any(mapping != ways[0][1] for _, mapping in ways):
        return False
    return ways[0][0] % SLOT == 0


def tables(mappings):
    """All tables one behind the other, as numbers."""
    pages = deciders(mappings)
    laid = [[0] * ENTRIES]

    def lay(upper, place, entries):
        upper[place] = PAGE * len(laid) | TABLE_OR_PAGE
        laid.append(entries)
        return entries

    for gib in sorted({page // GIB for page in pages}):
        second = lay(laid[0], gib, [0] * ENTRIES)
        for slot in sorted({page // SLOT for page in pages if page // GIB == gib}):
            ways = [pages.get(slot * SLOT + at) for at in range(0, SLOT, PAGE)]
            if is_block(ways):
                second[slot % ENTRIES] = leaf(ways[0], BLOCK)
            else:
                lay(second, slot % ENTRIES, [leaf(way, TABLE_OR_PAGE) if way else 0 for way in ways])
    return [entry for table in laid for entry in table]


def build(mappings, lent):
    """The status, and what is written from the first number on."""
    numbers = tables(mappings)
    return (0x88, []) if len(numbers) > lent else (0, numbers)


def as_bytes(numbers):
    return b"".join(number.to_bytes(8, "little") for number in numbers)


def main():
    from lists import list_after
    status, numbers = build(list_after(sys.stdin.buffer.read(), sys.argv[1]), int((sys.argv + [MOST])[2]))
    if status:
        sys.exit(f"{status:x} the tables do not fit")
    sys.stdout.buffer.write(as_bytes(numbers))


if __name__ == "__main__":
    main()
