"""Right tables as another tool may make them: as small as the answers allow, in any order, with gaps and rubbish.

A slot is a block wherever its pages lead to one aligned stretch with the same attributes, whichever mappings they are of.
Entries with bit 0 clear, level 1 entries from 4 on and numbers between tables may hold anything."""

from vet import PAGE, answers

SLOT, GIB = 1 << 21, 1 << 30


def leaf(way, kind):
    physical, writable, executable = way
    return physical + kind + (1 << 10) + (0 if writable else 1 << 7) + (0 if executable else 1 << 54)


class Vendor:
    def __init__(self, mappings, dice):
        self.dice, self.said = dice, answers(mappings)
        self.rubbish = dice.choice((0, 0, 0.01, 0.3))
        self.idle = dice.choice((0, 0, 0.01))  # tables that lead nowhere
        self.tables = []

    def blank(self):
        return self.dice.getrandbits(63) * 2 if self.dice.random() < self.rubbish else 0

    def new_table(self, count=512):
        table = [self.blank() for _ in range(count)]
        self.tables.append(table)
        return table, len(self.tables) - 1

    def touched(self, first, size, step):
        """The parts of a stretch that lead anywhere, and now and then one that does not."""
        parts = {page // step * step for page in self.said if first <= page < first + size}
        idle = {part for part in range(first, first + size, step) if self.dice.random() < self.idle}
        return sorted(parts | idle)

    def second(self, gib):
        table, number = self.new_table()
        for slot in self.touched(gib, GIB, SLOT):
            ways = [self.said.get(slot + at) for at in range(0, SLOT, PAGE)]
            table[(slot - gib) // SLOT] = self.block(ways) or ("table", self.third(ways))
        return number

    def block(self, ways):
        if None in ways or ways[0][0] % SLOT:
            return None
        physical, *attributes = ways[0]
        alike = all(way == (physical + at * PAGE, *attributes) for at, way in enumerate(ways))
        return leaf(ways[0], 1) if alike else None

    def third(self, ways):
        table, number = self.new_table()
        for at, way in enumerate(ways):
            if way:
                table[at] = leaf(way, 3)
        return number

    def numbers(self):
        """All tables at places of their own, the first at 0."""
        dice = self.dice
        first, _ = self.new_table()
        for gib in self.touched(0, 4 * GIB, GIB):
            first[gib // GIB] = "table", self.second(gib)
        if self.rubbish:
            first[4:] = [dice.getrandbits(64) for _ in first[4:]]
        count = len(self.tables) + dice.choice((0, 0, 1, 3))
        places = [0] + dice.sample(range(1, count), len(self.tables) - 1)
        laid = [dice.getrandbits(64) if self.rubbish else 0 for _ in range(512 * count + dice.choice((0, 0, 1, 511)))]
        for table, place in zip(self.tables, places):
            laid[512 * place:512 * place + 512] = [
                entry if isinstance(entry, int) else places[entry[1]] * PAGE + 3 for entry in table]
        return laid


def vendor(mappings, dice):
    return Vendor(mappings, dice).numbers()
