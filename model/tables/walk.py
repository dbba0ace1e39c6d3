"""The walk of request Q-7, one level at a time: where an address leads by some tables, whatever they hold.

It leads nowhere from 2^32 on, at an entry that lies outside the numbers, that has bit 0 clear, or that Q-9 calls reserved."""

SHIFTS = {1: 30, 2: 21, 3: 12}
ADDRESS = range(12, 48)


def bits(places):
    return sum(1 << place for place in places)


# The bits that may be set: in tables, and in what ends a walk at each level.
IN_TABLE = bits([0, 1, *ADDRESS])
IN_LEAF = {2: bits([0, 7, 10, 54, *range(21, 48)]), 3: bits([0, 1, 7, 10, 54, *ADDRESS])}


def walk(numbers, address):
    """Physical address, whether it is writable and whether executable; None where it leads nowhere."""
    return descend(numbers, address, 0, 1) if address < 2**32 else None


def descend(numbers, address, table, level):
    place = table // 8 + (address >> SHIFTS[level]) % 512
    if place >= len(numbers):
        return None
    entry = numbers[place]
    kind = entry & 3
    if level < 3 and kind == 3:
        return descend(numbers, address, entry & bits(ADDRESS), level + 1) if entry | IN_TABLE == IN_TABLE else None
    if kind != (1 if level == 2 else 3) or level == 1:
        return None
    if entry | IN_LEAF[level] != IN_LEAF[level] or not entry >> 10 & 1:
        return None
    rest = address % (1 << SHIFTS[level])
    return (entry & bits(ADDRESS)) + rest, not entry >> 7 & 1, not entry >> 54 & 1
