"""Lists and the tables that request Q-7 asks for, worked out by hand: every entry that is not 0, by its place.

Table T begins at place 512 T and at byte 1000 T (hexadecimal). Pages end in 403 (writable) or 483, blocks in 401 or 481,
and begin with 0040 unless they are executable.
A case: name, world, window (start and pages), mappings (virtual, size, physical, attributes) as they are made, numbers
lent, and what comes of it: status, how many tables, and the entries."""

P, SLOT, GIB = 0x1000, 0x200000, 0x40000000
MOST = 22528
B = 0x80000000
SECURE, NORMAL, REALM = 1, 2, 3


def row(first_place, first_entry, count):
    """Entries one behind the other, each a page further."""
    return {first_place + i: first_entry + i * P for i in range(count)}


def widest():
    """Fifteen pairs of pages, each on both sides of a slot's start, four in each GiB but the last, and 3586 pages that
    begin with the last page of a slot and are a page off their physical slots, so that nine slots are touched."""
    pairs = [(gib * GIB + (4 * k + 2) * SLOT - P, 2 * P) for gib in range(4) for k in range(4)][:15]
    large = 3 * GIB + 256 * SLOT - P, 3586 * P
    mappings = [(*large, B, 2)] + [(*pair, B + (3586 + 2 * i) * P, 1) for i, pair in enumerate(pairs)]
    entries = {0: 0x1003, 1: 0xA003, 2: 0x13003, 3: 0x1C003}
    for gib, second in enumerate((1, 10, 19, 28)):
        for k in range(4 if gib < 3 else 3):
            third = second + 1 + 2 * k
            page = B + (3586 + 2 * (4 * gib + k)) * P
            entries[512 * second + 4 * k + 1] = third * P + 3
            entries[512 * second + 4 * k + 2] = (third + 1) * P + 3
            entries[512 * third + 511] = page + 0x0040000000000403
            entries[512 * (third + 1)] = page + P + 0x0040000000000403
    entries.update(row(512 * 28 + 255, 0x23003, 9))
    entries.update(row(512 * 35 + 511, B + 0x483, 3586))
    return mappings, entries


WIDEST, WIDEST_ENTRIES = widest()
AREA = (0x80000000, 2 * SLOT, 0x400000, 1)  # two slots, writable, in a window at 0
FIRST_AS_PAGES = {2: 0x1003, 512: 0x2003, 513: 0x0040000000600401, **row(1024, 0x0040000000400403, 512)}

CASES = [
    ("empty list", SECURE, (B, 1), [], MOST, (0, 1, {})),
    ("empty list, just enough", NORMAL, (B, 1), [], 512, (0, 1, {})),
    ("empty list, one number too few", NORMAL, (B, 1), [], 511, (0x88, 0, {})),
    ("empty list, no number", REALM, (B, 1), [], 0, (0x88, 0, {})),
    ("one page", SECURE, (B, 4), [(0x10005000, P, 0x80003000, 1)], MOST,
     (0, 3, {0: 0x1003, 512 + 128: 0x2003, 1024 + 5: 0x0040000080003403})),
    ("one page, read-only", NORMAL, (B, 4), [(0x10005000, P, 0x80003000, 0)], 1536,
     (0, 3, {0: 0x1003, 512 + 128: 0x2003, 1024 + 5: 0x0040000080003483})),
    ("one page, executable, the last below 2^32", REALM, (B, 4), [(0xFFFFF000, P, 0x80003000, 2)], MOST,
     (0, 3, {3: 0x1003, 512 + 511: 0x2003, 1024 + 511: 0x0000000080003483})),
    ("one page, one number too few", SECURE, (B, 4), [(0x10005000, P, 0x80003000, 1)], 1535, (0x88, 0, {})),
    ("last page below 2^48", SECURE, (2**48 - P, 1), [(0, P, 2**48 - P, 0)], MOST,
     (0, 3, {0: 0x1003, 512: 0x2003, 1024: 0x0040FFFFFFFFF483})),
    ("one block", SECURE, (B, 1024), [(0x40400000, SLOT, 0x80200000, 2)], 1024,
     (0, 2, {1: 0x1003, 512 + 2: 0x0000000080200481})),
    ("one block, one number too few", SECURE, (B, 1024), [(0x40400000, SLOT, 0x80200000, 2)], 1023, (0x88, 0, {})),
    ("one page short of a block", SECURE, (B, 1024), [(0x40400000, SLOT - P, 0x80200000, 2)], MOST,
     (0, 3, {1: 0x1003, 512 + 2: 0x2003, **row(1024, 0x0000000080200483, 511)})),
    ("a block and its neighbours", SECURE, (B, 1025), [(0x405FF000, SLOT + 2 * P, 0x801FF000, 1)], MOST,
     (0, 4, {1: 0x1003, 512 + 2: 0x2003, 512 + 3: 0x0040000080200401, 512 + 4: 0x3003,
             1024 + 511: 0x00400000801FF403, 1536: 0x0040000080400403})),
    ("physical a page off its slot", NORMAL, (B, 1025), [(0x40400000, 2 * SLOT, 0x80001000, 0)], MOST,
     (0, 4, {1: 0x1003, 512 + 2: 0x2003, 512 + 3: 0x3003, **row(1024, 0x0040000080001483, 1024)})),
    ("two that fill a slot", SECURE, (B, 1024), [(0x200000, SLOT // 2, 0x80200000, 0), (0x300000, SLOT // 2, 0x80300000, 0)], MOST,
     (0, 3, {0: 0x1003, 513: 0x2003, **row(1024, 0x0040000080200483, 512)})),
    ("two that fill two slots, the border inside the second", SECURE, (B, 1024),
     [(0x200000, SLOT + P, 0x80000000, 1), (0x401000, SLOT - P, 0x80201000, 1)], MOST,
     (0, 3, {0: 0x1003, 513: 0x0040000080000401, 514: 0x2003, **row(1024, 0x0040000080200403, 512)})),
    ("a window at physical 0", NORMAL, (0, 512), [(0xFFE00000, SLOT, 0, 1)], MOST, (0, 2, {3: 0x1003, 512 + 511: 0x0040000000000401})),
    ("a window at physical 0, mapped at virtual 0", REALM, (0, 512), [(0, SLOT, 0, 2)], MOST, (0, 2, {0: 0x1003, 512: 0x481})),
    ("physical 0 at a slot's second page", NORMAL, (0, 512), [(0x1000, SLOT, 0, 2)], MOST,
     (0, 4, {0: 0x1003, 512: 0x2003, 513: 0x3003, **row(1025, 0x483, 512)})),
    ("each GiB", SECURE, (B, 4), [(gib * GIB, P, B + gib * P, 0) for gib in (3, 1, 0, 2)], MOST,
     (0, 9, {0: 0x1003, 1: 0x3003, 2: 0x5003, 3: 0x7003, 512: 0x2003, 1536: 0x4003, 2560: 0x6003, 3584: 0x8003,
             1024: 0x0040000080000483, 2048: 0x0040000080001483, 3072: 0x0040000080002483, 4096: 0x0040000080003483})),
    ("across a GiB", SECURE, (B, 2), [(GIB - P, 2 * P, B, 1)], MOST,
     (0, 5, {0: 0x1003, 1: 0x3003, 512 + 511: 0x2003, 1024 + 511: 0x0040000080000403, 1536: 0x4003, 2048: 0x0040000080001403})),
    ("two slots", SECURE, (0, 2048), [AREA], MOST, (0, 2, {2: 0x1003, 512: 0x0040000000400401, 513: 0x0040000000600401})),
    ("an inner one covers a slot whole", SECURE, (0, 2048), [AREA, (0x80200000, SLOT, 0x600000, 0)], MOST,
     (0, 2, {2: 0x1003, 512: 0x0040000000400401, 513: 0x0040000000600481})),
    ("an inner one covers a slot whole, with the same attributes", SECURE, (0, 2048), [AREA, (0x80200000, SLOT, 0x600000, 1)], MOST,
     (0, 2, {2: 0x1003, 512: 0x0040000000400401, 513: 0x0040000000600401})),
    ("an inner page", SECURE, (0, 2048), [AREA, (0x80005000, P, 0x405000, 0)], MOST,
     (0, 3, {**FIRST_AS_PAGES, 1024 + 5: 0x0040000000405483})),
    ("an inner page with the same attributes", SECURE, (0, 2048), [AREA, (0x80005000, P, 0x405000, 1)], MOST,
     (0, 3, FIRST_AS_PAGES)),
    ("an inner one made first", SECURE, (0, 2048), [(0x80005000, P, 0x405000, 2), AREA], MOST,
     (0, 3, {**FIRST_AS_PAGES, 1024 + 5: 0x0000000000405483})),
    ("an inner one over a slot's border", SECURE, (0, 2048), [AREA, (0x801FF000, 2 * P, 0x5FF000, 0)], MOST,
     (0, 4, {2: 0x1003, 512: 0x2003, 513: 0x3003, **row(1024, 0x0040000000400403, 1024),
             1024 + 511: 0x00400000005FF483, 1536: 0x0040000000600483})),
    ("an inner one of a slot and a half", SECURE, (0, 2048), [AREA, (0x80100000, SLOT + SLOT // 2, 0x500000, 1)], MOST,
     (0, 3, {2: 0x1003, 512: 0x2003, 513: 0x0040000000600401, **row(1024, 0x0040000000400403, 512)})),
    ("three deep: a page in a slot in two slots", SECURE, (0, 2048),
     [AREA, (0x80200000, SLOT, 0x600000, 0), (0x803FF000, P, 0x7FF000, 2)], MOST,
     (0, 3, {2: 0x1003, 512: 0x0040000000400401, 513: 0x2003, **row(1024, 0x0040000000600483, 511), 1024 + 511: 0x00000000007FF483})),
    ("the widest list", SECURE, (B, 4096), WIDEST, MOST, (0, 44, WIDEST_ENTRIES)),
    ("the widest list, one number too few", SECURE, (B, 4096), WIDEST, MOST - 1, (0x88, 0, {})),
]
