"""Mapping lists, each as a run of frames that leads to it: random ones that seek the edges of slots, GiB and window.

`check.py` beside this folder judges each frame, so a list is what a world holds after the run, whatever was refused."""

import random
import sys
from pathlib import Path

sys.dont_write_bytecode = True
sys.path.append(str(Path(__file__).resolve().parent.parent))

from check import Machine  # noqa: E402

PAGE, SLOT, GIB, TOP = 1 << 12, 1 << 21, 1 << 30, 1 << 32
SECURE, NORMAL, REALM = 1, 2, 3
NAME = {SECURE: "secure", NORMAL: "normal", REALM: "realm"}
HAND_OVER = {SECURE: 0xF2000001, REALM: 0xC4000150}
MAP, UNMAP = 0xC2000020, 0xC2000021


def list_after(run, name):
    """What the world of this name holds after a run."""
    machine = Machine()
    machine.run(run)
    return next(machine.maps[world] for world in NAME if NAME[world] == name)


class Run:
    """A run under way: a window that is one world's, and that world's calls. A page of Normal's may follow, which it has mapped."""

    def __init__(self, world, base, pages, another=False):
        self.world, self.base, self.end = world, base, base + pages * PAGE
        self.machine, self.lines = Machine(), []
        self.say("11%016x%04x01" % (base, pages + another))
        for owner, handler in ((2, 1), (4, 2), (50, 3)):
            self.say("10%02x%02x01%02x" % (owner, owner, handler))
        self.say("120000%04x%02x" % (pages, world))
        if another:
            self.say("12%04x000102" % pages)
            self.call(MAP, self.end, GIB - PAGE, PAGE, 1)
        if world in HAND_OVER:
            self.call(HAND_OVER[world])

    def say(self, line):
        self.lines.append(line)
        return self.machine.answer(line.encode())

    def call(self, *given):
        """x0 as it is answered."""
        x = list(given) + [0] * (8 - len(given))
        return int(self.say("2000" + "".join("%016x" % (number % 2**64) for number in x))[6:22], 16)

    def map(self, virtual, size, physical, attributes):
        return self.call(MAP, physical, virtual, size, attributes) == 0

    @property
    def mappings(self):
        return self.machine.maps[self.world]

    def text(self):
        return "".join(line + "\n" for line in self.lines).encode()


def run_of(world, base, pages, mappings):
    """The run that makes these very mappings in this order."""
    run = Run(world, base, pages)
    for mapping in mappings:
        if not run.map(*mapping):
            raise ValueError(f"refused: {mapping}")
    return run


class Random(Run):
    """A random list by its seed. Where `ram` is given, the window lies in the 32 MiB from there on, and one page of it, its home,
    is mapped at its own address and executable, first and for good."""

    def __init__(self, seed, ram=None):
        self.dice = dice = random.Random(seed)
        pages = dice.choice((1, 512, 513, 1024, 1025, 2048, 2048, 4095, 4096, 4096, 4096, 4096, dice.randint(1, 4096)))
        base = dice.choice((0, 0, 0x80000000, dice.randrange(2**27) * SLOT, dice.randrange(2**36) * PAGE, 2**48 - pages * PAGE))
        if ram is not None:
            base = ram + dice.choice((0, SLOT, dice.randrange(4096) * PAGE))
        another = pages < 4096 and base + pages * PAGE < 2**48 and dice.random() < 0.5
        super().__init__(dice.choice((SECURE, NORMAL, REALM)), min(base, 2**48 - pages * PAGE), pages, another)
        self.home = None if ram is None else self.base + dice.randrange(pages) * PAGE
        if self.home is not None:
            self.map(self.home, PAGE, self.home, 2)
        self.aligned = dice.choice((0.5, 0.95, 1))  # mappings whose slots may be blocks
        shapes = dice.choice(((self.fresh,), (self.fresh, self.beside, self.inside), (self.fresh, self.inside, self.inside),
                              (self.straddling,), (self.straddling, self.fresh)))
        for _ in range(dice.choice((0, 1, 3, 6, 12, 20, 30))):
            self.map(*dice.choice(shapes)(), dice.randrange(3))
            if dice.random() < 0.05 and self.mappings and self.home is None:
                self.call(UNMAP, *dice.choice(self.mappings)[:2])

    def at(self, physical, size):
        """A virtual place for a physical part: at an edge of a GiB, of all or of a slot, as far into its slot or a page off."""
        dice = self.dice
        near = dice.choice((0, GIB, 2 * GIB, 3 * GIB, TOP - size, dice.randrange(4) * GIB - size, dice.randrange(2048) * SLOT))
        virtual = near // SLOT * SLOT + physical % SLOT
        if dice.random() > self.aligned:
            virtual = dice.choice((near // PAGE * PAGE, virtual + PAGE, virtual - PAGE))
        return min(max(virtual, 0), TOP - PAGE)

    def fresh(self):
        """Any part of the window, often by whole slots or a page more or less."""
        dice = self.dice
        start = dice.choice((self.base, min(-(-self.base // SLOT) * SLOT, self.end - PAGE), dice.randrange(self.base, self.end, PAGE), self.free()))
        size = dice.choice((1, 2, 510, 511, 512, 513, 514, 1024, 1025, 1536, dice.randint(1, 2048))) * PAGE
        size = max(PAGE, min(size, self.end - start))
        return self.at(start, size), size, start

    def free(self):
        """The first physical address behind all mappings."""
        return min(max((to + size for _, size, to, _ in self.mappings), default=self.base), self.end - PAGE)

    def beside(self):
        """Right behind a mapping that is held, with the same difference, often to the end of its slot."""
        if not self.mappings:
            return self.fresh()
        virtual, size, physical, _ = self.dice.choice(self.mappings)
        to_end = -(virtual + size) % SLOT or SLOT
        return virtual + size, self.dice.choice((PAGE, to_end, to_end, to_end + PAGE, SLOT)), physical + size

    def inside(self):
        """Inside one that is held: a page, a slot of it, to the end of a slot, flush with an end, or any part."""
        if not self.mappings:
            return self.fresh()
        dice = self.dice
        virtual, size, physical, _ = max(dice.choices(self.mappings, k=2), key=lambda held: held[1])
        slot = -(-virtual // SLOT) * SLOT + dice.randrange(4) * SLOT
        start = dice.choice((virtual, slot, slot, slot - PAGE, slot + PAGE, dice.randrange(virtual, virtual + size, PAGE)))
        start = min(max(start, virtual), virtual + size - PAGE)
        length = dice.choice((PAGE, 2 * PAGE, SLOT, SLOT, SLOT - PAGE, SLOT + PAGE, SLOT // 2, 2 * SLOT, size))
        return start, min(length, virtual + size - start), physical + start - virtual

    def straddling(self):
        """Two pages on both sides of a slot's start, behind many more with as little aligned: what takes most tables."""
        dice = self.dice
        start = min(self.free(), self.end - 2 * PAGE)
        size = dice.choice((2, 2, 2, 2, 2, 2, 2, 514) if self.mappings else (2, 514, 3586, 3586)) * PAGE
        return dice.randrange(1, 2048) * SLOT - PAGE, max(PAGE, min(size, self.end - start)), start
