#!/usr/bin/env python3
"""The run that is timed: mixed calls in a window of 4096 pages with 8 cores. mix.py LINES prints it.

It keeps just enough of the state to make most calls succeed, and is the same each time."""

import random
import sys

BASE, PAGES, CORES, PAGE = 0x80000000, 4096, 8, 4096
SECURE, NORMAL, REALM = 1, 2, 3
ON, OFF, PENDING = range(3)


class Mix:
    def __init__(self, seed=1):
        self.rng = random.Random(seed)
        self.owners = bytearray([NORMAL] * 2048 + [SECURE] * 1024 + [REALM] * 1024)
        self.maps = {world: {} for world in (SECURE, NORMAL, REALM)}
        self.world = [NORMAL] * CORES
        self.power = [ON] + [OFF] * (CORES - 1)

    def set_up(self):
        yield "11%016x%04x%02x" % (BASE, PAGES, CORES)
        for first, last, handler in ((0, 0, 0), (2, 2, 1), (4, 4, 2), (48, 63, 3)):
            yield "10%02x%02x01%02x" % (first, last, handler)
        yield "10323f0003"
        for first, count, owner in ((0, 2048, NORMAL), (2048, 1024, SECURE), (3072, 1024, REALM)):
            yield "12%04x%04x%02x" % (first, count, owner)

    def lines(self):
        yield from self.set_up()
        while True:
            waiting = [core for core in range(CORES) if self.power[core] == PENDING]
            if waiting and self.rng.random() < 0.3:
                self.power[waiting[0]], self.world[waiting[0]] = ON, NORMAL
                yield "21%02x" % waiting[0]
            else:
                yield self.call()

    def call(self):
        rng = self.rng
        core = rng.choice([core for core in range(CORES) if self.power[core] == ON])
        world = self.world[core]
        x = self.both(world) if rng.random() < 0.5 else self.normal(core) if world == NORMAL else self.other(core, world)
        x += [rng.getrandbits(64) for _ in range(8 - len(x))]
        return "20%02x%016x%016x%016x%016x%016x%016x%016x%016x" % (core, *x)

    def span(self, world):
        """Some pages of one owner from a random place: most often one, now and then many."""
        rng, first = self.rng, self.rng.randrange(PAGES)
        found = self.owners.find(world, first)
        first = found if found >= 0 else max(0, self.owners.find(world))
        wanted, count = rng.choice((1, 1, 1, 2, 4, 16, 64)), 1
        while count < wanted and first + count < PAGES and self.owners[first + count] == world:
            count += 1
        return first, count

    def mapped(self, world, first, count):
        return any(f < first + count and first < f + c for f, c in self.maps[world].values())

    # Calls of any world: mappings and questions.

    def both(self, world):
        rng, held = self.rng, self.maps[world]
        kind = rng.randrange(8)
        if kind < 3 and len(held) < 16:
            return self.map(world, held)
        if kind < 4 and held:
            virtual = rng.choice(list(held))
            return [0xC2000021, virtual, held.pop(virtual)[1] * PAGE]
        if kind < 6 and held:
            return [0xC2000022, rng.choice(list(held)) + rng.randrange(PAGE)]
        if kind == 6:
            return [0xC2000012, BASE + rng.randrange(PAGES * PAGE)]
        return [rng.choice((0xC2000030, 0x80000000, 0x80000001, 0xC20000FF)), 0x80000001]

    def map(self, world, held):
        first, count = self.span(world)
        virtual = self.rng.randrange(1 << 13) * 64 * PAGE
        if virtual not in held and not self.mapped(world, first, count) and self.owners[first] == world:
            held[virtual] = (first, count)
        return [0xC2000020, BASE + first * PAGE, virtual, count * PAGE, self.rng.randrange(3)]

    # Calls of Normal: cores and hand-overs.

    def normal(self, core):
        rng = self.rng
        kind, target = rng.randrange(8), rng.randrange(CORES)
        if kind < 2:
            self.world[core] = REALM
            return [0xC4000150 + rng.randrange(63)]
        if kind < 4:
            self.world[core] = SECURE
            return [rng.choice((0xF2000001, 0xB2000000, 0x72000000))]
        if kind == 4:
            first = self.owners.find(NORMAL)
            if self.power[target] == OFF and first >= 0:
                self.power[target] = PENDING
            return [rng.choice((0x84000003, 0xC4000003)), target, BASE + max(0, first) * PAGE + 4 * target]
        if kind == 5 and rng.random() < 0.1 and self.power.count(ON) > 4:
            self.power[core] = OFF
            return [0x84000002]
        if kind == 6:
            return [rng.choice((0x84000000, 0x8400000A)), 0x84000003]
        return [rng.choice((0x84000004, 0xC4000004)), target, 0]

    # Calls of Secure and Realm: transfers and the finish.

    def other(self, core, world):
        rng = self.rng
        kind = rng.randrange(8)
        if kind == 0:
            self.world[core] = NORMAL
            return [0xF2000000 if world == SECURE else 0xC400018F]
        gives = self.owners.count(world) > 700 + rng.randrange(700)
        giver, taker = (world, NORMAL) if gives else (NORMAL, world)
        first, count = self.span(giver)
        one = world == REALM and kind < 4
        count = 1 if one else count
        if self.owners[first] == giver and not self.mapped(giver, first, count):
            self.owners[first:first + count] = bytes([taker]) * count
        if one:
            return [0xC40001B1 if gives else 0xC40001B0, BASE + first * PAGE]
        return [0xC2000011 if gives else 0xC2000010, BASE + first * PAGE, count]


if __name__ == "__main__":
    stream = Mix().lines()
    for _ in range(int(sys.argv[1])):
        print(next(stream))
