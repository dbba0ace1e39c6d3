"""Tables and what request Q-9 says of them, worked out by hand: right ones of a vendor's, each status from both sides, and
two at once in either order.

A case: name, mappings (virtual, size, physical, attributes) as they are made, the numbers lent, and status and address."""

P, SLOT, GIB = 0x1000, 0x200000, 0x40000000
BASE, PAGES = 0x80000000, 4096
ACCEPTED = 0, 0
TABLE = 3
READ_ONLY, WRITABLE, EXECUTABLE = 0x0040000000000480, 0x0040000000000400, 0x0000000000000480
PAGE, BLOCK = 3, 1


def numbers(tables, entries):
    """So many tables, of which these entries are not 0: table, place, entry."""
    laid = [0] * (512 * tables)
    for table, place, entry in entries:
        laid[512 * table + place] = entry
    return laid


def to(table):
    return table * P + TABLE


# One page at the start of each of two slots, and one at the start of the second GiB.
LIST = [(0, P, BASE, 1), (SLOT, P, BASE + P, 0), (GIB, P, BASE + 2 * P, 2)]
GOOD = [(0, 0, to(1)), (0, 1, to(4)), (1, 0, to(2)), (1, 1, to(3)), (4, 0, to(5)),
        (2, 0, BASE + WRITABLE + PAGE), (3, 0, BASE + P + READ_ONLY + PAGE), (5, 0, BASE + 2 * P + EXECUTABLE + PAGE)]
# Two halves of a slot, and an inner page with the same attributes: one block is right.
HALVES = [(0x200000, SLOT // 2, 0x80200000, 1), (0x300000, SLOT // 2, 0x80300000, 1), (0x201000, P, 0x80201000, 1)]
ONE_BLOCK = [(0, 0, to(1)), (1, 1, 0x80200000 + WRITABLE + BLOCK)]


def with_entries(*changes, tables=6):
    """GOOD with some entries replaced or added."""
    return numbers(tables, GOOD + list(changes))


def accepted():
    yield "as built", LIST, numbers(6, GOOD)
    yield "a vendor's block where two mappings and an inner one are alike", HALVES, numbers(2, ONE_BLOCK)
    yield "other order", LIST, numbers(6, [(0, 0, to(5)), (0, 1, to(2)), (5, 0, to(4)), (5, 1, to(1)), (2, 0, to(3)),
                                           (4, 0, BASE + WRITABLE + PAGE), (1, 0, BASE + P + READ_ONLY + PAGE),
                                           (3, 0, BASE + 2 * P + EXECUTABLE + PAGE)])
    gap = [2**64 - 1] * 512
    moved = numbers(3, [(0, 0, to(2)), (2, 1, 0x80200000 + WRITABLE + BLOCK)])
    yield "a gap with rubbish", HALVES, moved[:512] + gap + moved[1024:]
    yield "more numbers than tables", HALVES, numbers(2, ONE_BLOCK) + gap[:1]
    yield "an empty second table", LIST, with_entries((0, 2, to(6)), tables=7)
    yield "an empty third table", LIST, with_entries((1, 511, to(6)), (0, 3, to(7)), (7, 0, to(8)), tables=9)
    yield "anything in level 1 from entry 4 on", LIST, with_entries(*((0, place, 2**64 - 1) for place in range(4, 512)))
    yield "bit 0 clear, all else set", LIST, with_entries(
        (0, 2, 2**64 - 2), (1, 2, 2**64 - 2), (2, 1, 2**64 - 2), (2, 511, 2**64 - 4), (5, 1, 2))
    yield "an empty list", [], [0] * 512
    yield "an empty list, with tables", [], numbers(3, [(0, 0, to(1)), (1, 511, to(2))])
    yield "a block as built", [(SLOT, SLOT, BASE, 0)], numbers(2, [(0, 0, to(1)), (1, 1, BASE + READ_ONLY + BLOCK)])
    yield "a block as pages", [(SLOT, SLOT, BASE, 0)], numbers(
        3, [(0, 0, to(1)), (1, 1, to(2))] + [(2, i, BASE + i * P + READ_ONLY + PAGE) for i in range(512)])


def outside():
    """8A."""
    yield "no number", [], [], 0
    yield "511 numbers", [], [0] * 511, 0
    yield "511 numbers, and reserved at once", [], [1] * 511, 0
    yield "a second table past the end", LIST, with_entries((0, 2, to(6))), 2 * GIB
    yield "a second table that lacks its last number", LIST, with_entries((0, 2, to(6)), tables=7)[:-1], 2 * GIB
    yield "a third table past the end", LIST, with_entries((1, 2, to(6))), 2 * SLOT
    yield "a third table that lacks its last number", LIST, numbers(6, GOOD)[:-1], GIB
    yield "a table as far as can be", LIST, with_entries((0, 3, 0xFFFFFFFFF000 + TABLE)), 3 * GIB


def reserved():
    """8B."""
    yield "a block at level 1", LIST, with_entries((0, 2, WRITABLE + BLOCK)), 2 * GIB
    yield "a block at level 1, at an address past the end", LIST, with_entries((0, 2, 0x80000000 + WRITABLE + BLOCK)), 2 * GIB
    yield "1 at level 3", LIST, with_entries((3, 0, BASE + P + READ_ONLY + BLOCK)), SLOT
    for bit in (*range(2, 12), *range(48, 64)):
        yield f"bit {bit} of a second table's entry", LIST, with_entries((0, 1, to(4) + (1 << bit))), GIB
        yield f"bit {bit} of a third table's entry", LIST, with_entries((1, 1, to(3) + (1 << bit))), SLOT
    for bit in (2, 3, 4, 5, 6, 8, 9, 11, *range(48, 54), *range(55, 64)):
        yield f"bit {bit} of a page", LIST, with_entries((3, 0, BASE + P + READ_ONLY + PAGE + (1 << bit))), SLOT
    for bit in (2, 3, 4, 5, 6, 8, 9, 11, *range(12, 21), *range(48, 54), *range(55, 64)):
        yield f"bit {bit} of a block", HALVES, numbers(2, ONE_BLOCK + [(1, 1, 0x80200000 + WRITABLE + BLOCK + (1 << bit))]), SLOT
    yield "bit 10 clear in a page", LIST, with_entries((3, 0, BASE + P + READ_ONLY + PAGE - 0x400)), SLOT
    yield "bit 10 clear in a block", HALVES, numbers(2, ONE_BLOCK + [(1, 1, 0x80200000 + WRITABLE + BLOCK - 0x400)]), SLOT


def twice():
    """8C."""
    yield "a second table twice", LIST, with_entries((0, 2, to(1))), 2 * GIB
    yield "a third table twice", LIST, with_entries((1, 2, to(2))), 2 * SLOT
    yield "a third table twice, in two GiB", LIST, with_entries((4, 1, to(3))), GIB + SLOT
    yield "an empty third table twice", LIST, with_entries((1, 2, to(6)), (1, 3, to(6)), tables=7), 3 * SLOT
    yield "level 1 as a second table", LIST, with_entries((0, 2, to(0))), 2 * GIB
    yield "level 1 as a third table", LIST, with_entries((1, 2, to(0))), 2 * SLOT
    yield "a second table below itself", LIST, with_entries((1, 2, to(1))), 2 * SLOT
    yield "a third table as a second one", LIST, with_entries((0, 2, to(5))), 2 * GIB


def otherwise():
    """8D."""
    yield "an empty table for a list", LIST, [0] * 512, 0
    yield "a page that is missing", LIST, with_entries((3, 0, 0)), SLOT
    yield "a slot that is missing", LIST, with_entries((1, 1, 0)), SLOT
    yield "a GiB that is missing", [(GIB + 5 * P, P, BASE, 0)], [0] * 512, GIB + 5 * P
    yield "a page too many", LIST, with_entries((5, 511, BASE + READ_ONLY + PAGE)), GIB + SLOT - P
    yield "a block too many", [], numbers(2, [(0, 3, to(1)), (1, 511, READ_ONLY + BLOCK)]), 0xFFE00000
    yield "another address", LIST, with_entries((3, 0, BASE + READ_ONLY + PAGE)), SLOT
    yield "an address that differs in bit 47", LIST, with_entries((3, 0, 2**47 + BASE + P + READ_ONLY + PAGE)), SLOT
    for name, rights in (("writable", WRITABLE), ("executable", EXECUTABLE), ("writable and executable", 0x400)):
        yield f"{name} in place of read-only", LIST, with_entries((3, 0, BASE + P + rights + PAGE)), SLOT
    yield "read-only in place of writable", LIST, with_entries((2, 0, BASE + READ_ONLY + PAGE)), 0
    yield "writable too", LIST, with_entries((5, 0, BASE + 2 * P + 0x400 + PAGE)), GIB
    yield "a block over a slot that lacks its last page", [(SLOT, SLOT - P, BASE, 0)], numbers(
        2, [(0, 0, to(1)), (1, 1, BASE + READ_ONLY + BLOCK)]), 2 * SLOT - P
    yield "a block over an inner page with other rights", [(SLOT, SLOT, BASE, 0), (SLOT + 7 * P, P, BASE + 7 * P, 1)], numbers(
        2, [(0, 0, to(1)), (1, 1, BASE + READ_ONLY + BLOCK)]), SLOT + 7 * P


def first_of_two():
    """Status, then as above."""
    wrong, bad, far, again = BASE + READ_ONLY + PAGE, BASE + P + READ_ONLY + BLOCK, to(99), to(1)
    second = {0x8D: (5, 0, wrong), 0x8B: (5, 0, bad), 0x8A: (0, 1, far), 0x8C: (0, 1, again)}
    first = {0x8D: (3, 0, wrong), 0x8B: (3, 0, bad), 0x8A: (1, 1, far), 0x8C: (1, 1, again)}
    for status, change in first.items():
        for other, later in second.items():
            yield f"{status:x} before {other:x}", LIST, with_entries(change, later), status, SLOT
    yield "at one entry 8a before 8b", LIST, with_entries((1, 1, far + 0x400)), 0x8A, SLOT
    yield "at one entry 8b before 8c", LIST, with_entries((1, 1, again + 0x400)), 0x8B, SLOT
    yield "at one entry 8b before 8d", LIST, with_entries((3, 0, wrong + 4)), 0x8B, SLOT
    yield "an upper entry's 8b before its table's", LIST, with_entries((0, 1, to(4) + 4), (5, 0, bad)), 0x8B, GIB
    yield "an 8c before the next entry's 8b", LIST, with_entries((1, 2, to(1)), (1, 3, 4 + 1)), 0x8C, 2 * SLOT
    yield "a table's 8d before the next entry's 8a", LIST, with_entries((3, 511, wrong), (1, 2, far)), 0x8D, 2 * SLOT - P
    yield "a gap's 8d before the next entry's 8b", [(SLOT - P, P, BASE, 0)], numbers(2, [(0, 0, to(1)), (1, 1, 0x21)]), 0x8D, SLOT - P
    yield "the next entry's 8b before a later gap's 8d", [(2 * SLOT, P, BASE, 0)], numbers(2, [(0, 0, to(1)), (1, 1, 0x21)]), 0x8B, SLOT


def cases():
    for name, mappings, lent in accepted():
        yield name, mappings, lent, ACCEPTED
    for status, group in ((0x8A, outside), (0x8B, reserved), (0x8C, twice), (0x8D, otherwise)):
        for name, mappings, lent, address in group():
            yield f"{status:x}: {name}", mappings, lent, (status, address)
    for name, mappings, lent, status, address in first_of_two():
        yield f"two at once: {name}", mappings, lent, (status, address)
