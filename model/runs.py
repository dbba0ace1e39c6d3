#!/usr/bin/env python3
"""Random runs that seek the edges of document 01: runs.py SEED LINES prints one run.

Each line is also given to the slow machine of check.py, whose state steers the next choice."""

import random
import sys

from check import NORMAL, OFF, ON, PAGE, PENDING, REALM, SECURE, Machine

TOP = 2**64
KNOWN = [
    0x80000000, 0x80000001, 0x84000000, 0x84000002, 0x84000003, 0xC4000003, 0x84000004,
    0xC4000004, 0x8400000A, 0xC40001B0, 0xC40001B1, 0xC2000010, 0xC2000011, 0xC2000012,
    0xC2000020, 0xC2000021, 0xC2000022, 0xC2000030, 0xC4000150, 0xC400018E, 0xC400018F,
    0xF2000000, 0xF2000001, 0x72000000, 0xC400014F, 0xC4000002, 0xC400000A, 0xC4000000,
    0xC0000000, 0x84000001, 0xC2000013, 0xC2000023, 0x840001B0, 0x82000012, 0xC40001AF,
    0xC40001B2, 0x84000150, 0xB2000000, 0x80000002,
]
WORDS = [0, 1, 2, 3, 4, 4095, PAGE, 2**31, 2**32 - 1, 2**32, 2**48, 2**63, TOP - PAGE, TOP - 1]


class Run:
    def __init__(self, seed):
        self.rng = random.Random(seed)
        self.machine = Machine()
        self.lines = []
        rng = self.rng
        self.noise = rng.choice([0.01, 0.03, 0.08])  # lines that are no good frames
        self.slip = rng.choice([0.1, 0.25, 0.5])  # arguments pushed over an edge
        self.stay = rng.choice([2, 8, 30])  # calls between a hand-over and its finish
        self.keep = rng.choice([1, 4, 15])  # mappings made for each one removed
        self.haste = rng.choice([0.03, 0.1, 0.3])  # how soon a pending core arrives
        self.nest = rng.choice([0.1, 0.5, 0.9])  # mappings drawn from the place of one that is held

    # Small choices.

    def chance(self, share):
        return self.rng.random() < share

    def weighted(self, pairs):
        things, weights = zip(*pairs)
        return self.rng.choices(things, weights)[0]

    def word(self):
        rng = self.rng
        return rng.choice([rng.choice(WORDS), rng.getrandbits(64), rng.getrandbits(16), self.address()])

    def address(self):
        """An address at, just below or just above an edge of the window or of the numbers."""
        rng, base, end = self.rng, self.base, self.base + self.pages * PAGE
        edge = rng.choice([base, end, end - PAGE, base + rng.randrange(self.pages) * PAGE,
                           0, 2**32, 2**48, TOP, base + 2**32, base + 2**48])
        return (edge + rng.choice([0, 0, 0, 1, -1, 2, 4, -4, PAGE - 1, PAGE, -PAGE, PAGE // 2])) % TOP

    @property
    def base(self):
        return self.machine.base or 0

    @property
    def pages(self):
        return max(1, len(self.machine.owners))

    def slipped(self, number, others):
        """The number itself, or now and then one from the other side of an edge."""
        return self.rng.choice(others) % TOP if self.chance(self.slip) else number

    # Lines.

    def say(self, line):
        self.lines.append(line)
        return self.machine.answer(line)

    def frame(self, kind, *fields):
        return self.say(self.text(kind, *fields))

    def text(self, kind, *fields):
        return bytes([kind] + [b for width, n in fields for b in n.to_bytes(width, "big")]).hex().encode()

    def call_text(self, core, x):
        return self.text(0x20, (1, core), *((8, number % TOP) for number in x))

    # Set-up.

    def window(self, good=True):
        rng = self.rng
        pages = self.weighted([(1, 1), (2, 1), (3, 1), (8, 2), (17, 3), (20, 4), (34, 4), (48, 5), (64, 5),
                               (100, 3), (300, 2), (4095, 1), (4096, 2)])
        cores = rng.choice([1, 2, 3, 4, 5, 8, 8, 8])
        base = rng.choice([0, PAGE, 2**31, 2**32 - PAGE * rng.randrange(1, pages + 1), 2**32 - pages * PAGE,
                           2**48 - pages * PAGE, rng.getrandbits(35) * PAGE]) % 2**48
        base = min(base, 2**48 - pages * PAGE)
        if not good:
            flaw = rng.randrange(5)
            if flaw == 0:
                pages = rng.choice([0, 4097, 65535])
            elif flaw == 1:
                cores = rng.choice([0, 9, 255])
            elif flaw == 2:
                base += rng.choice([1, 2048, 4095])
            elif flaw == 3:
                base = 2**48 - pages * PAGE + PAGE
            else:
                base = rng.choice([2**48, 2**63, TOP - PAGE, TOP - pages * PAGE])
        return self.text(0x11, (8, base % TOP), (2, pages), (1, cores))

    def ledger_entries(self):
        """What a run needs to get far, in one of several layouts, and some of the rest."""
        rng = self.rng
        if self.chance(0.12):
            entries = [(o, o, 1, rng.randrange(4)) for o in (0, 2, 4, 50)]
        else:
            trusted = rng.choice([(50, 50), (48, 63), (5, 63)])
            entries = [(0, 0, 1, 0), (2, 2, 1, 1), (4, 4, 1, 2), (*trusted, 1, 3)]
        for _ in range(rng.randrange(4)):
            first = rng.randrange(64)
            entries.append((first, rng.randrange(first, 64), rng.choice([0, 0, 1]), rng.randrange(4)))
        if self.chance(0.3):
            entries.append((0, 63, 0, rng.randrange(4)))
        if self.chance(0.8):
            return entries
        return rng.sample(entries, len(entries))

    def page_spans(self):
        rng, at, spans = self.rng, 0, []
        longest = rng.choice([2 if self.nest < 0.5 else 20, 8, 40, self.pages])
        while at < self.pages and len(spans) < 40:
            count = min(self.pages - at, rng.randint(1, longest))
            owner = self.weighted([(NORMAL, 10), (SECURE, 4), (REALM, 4), (0, 1), (None, 1)])
            if owner is not None:
                spans.append((at, count, owner))
            at += count
        return spans

    def bad_set_up(self):
        """A set-up frame out of its range, or one that clashes with what is there."""
        rng, pages = self.rng, self.pages
        kind = rng.randrange(5)
        if kind == 0:
            self.frame(0x10, *((1, n) for n in rng.choice(
                [(5, 4, 1, 0), (0, 64, 1, 0), (64, 64, 0, 1), (255, 255, 1, 1), (0, 0, 2, 0), (0, 0, 255, 0),
                 (1, 1, 0, 4), (63, 63, 1, 255), (63, 62, 0, 0)])))
        elif kind == 1:
            first = rng.randrange(64)
            self.frame(0x10, (1, first), (1, rng.randrange(first, 64)), (1, rng.randrange(2)), (1, rng.randrange(4)))
        elif kind == 2:
            first, count, owner = rng.choice(
                [(0, 0, 2), (pages, 1, 2), (pages - 1, 2, 2), (0, pages + 1, 2), (65535, 65535, 1), (0, 1, 4),
                 (0, 65535, 3), (65535, 1, 2), (0, 1, 255), (pages, 0, 1)])
            self.frame(0x12, (2, first % 65536), (2, count), (1, owner))
        elif kind == 3:
            first = rng.randrange(pages)
            self.frame(0x12, (2, first), (2, rng.randint(1, pages - first)), (1, rng.randrange(4)))
        else:
            self.say(self.window(self.chance(0.5)))

    def early(self):
        """A frame that may come before calls but does not end set-up."""
        count, rng = len(self.machine.cores), self.rng
        if self.chance(0.5):
            self.frame(0x21, (1, rng.choice([0, 1, count - 1 if count else 0, count, 255])))
        else:
            core = rng.choice([1, count, 255])
            if count < 2 or core != 1 or self.machine.cores[1].power != ON:
                self.say(self.call_text(core, [rng.choice(KNOWN)] + [self.word() for _ in range(7)]))

    def set_up(self):
        while self.chance(0.3):
            self.weighted([(self.early, 2), (self.bad_set_up, 3), (self.malformed, 2),
                           (lambda: self.say(self.window(False)), 4)])()
        if self.chance(0.01):
            return
        self.say(self.window())
        frames = [(0x10, [(1, n) for n in entry]) for entry in self.ledger_entries()]
        frames += [(0x12, [(2, first), (2, count), (1, owner)]) for first, count, owner in self.page_spans()]
        for kind, fields in frames:
            if self.chance(0.15):
                self.weighted([(self.early, 1), (self.bad_set_up, 4), (self.malformed, 1)])()
            self.frame(kind, *fields)

    # Lines that are no good frames.

    def malformed(self):
        rng = self.rng
        good = rng.choice([self.call_text(0, [rng.choice(KNOWN)] + [self.word() for _ in range(7)]),
                           self.text(0x21, (1, 0)), self.window()])
        at = rng.randrange(len(good))
        kind = rng.randrange(12)
        if kind == 0:
            line = b""
        elif kind == 1:
            line = good[:at] + good[at + 1:]
        elif kind == 2:
            line = good.upper() if good.upper() != good else good + b"AB"
        elif kind == 3:
            sign = rng.choice([b"\0", b"\r", b" ", b"g", b"/", b":", b"`", b"A", b"F", b"\x80", b"\xff", b"\t", b"x"])
            line = good[:at] + sign + good[at + 1:]
        elif kind == 4:
            line = good + b"\r"
        elif kind == 5:
            line = rng.choice([b" " + good, good + b" ", b"  " + good, good + b"  ", b"0x" + good])
        elif kind == 6:
            line = b"0" * rng.choice([131, 133, 134, 136, 266, 1000])
        elif kind == 7 and self.chance(0.1):
            line = b"2" * rng.choice([65535, 65536, 65537, 65536 + 133, 131072, 140001])
        elif kind == 8:
            line = bytes(rng.choice(range(11, 256)) for _ in range(rng.randint(1, 140)))
        elif kind == 9:
            line = bytes([rng.choice([0x00, 0x0F, 0x13, 0x1F, 0x22, 0x30, 0xA0, 0xA1, 0xFF])]).hex().encode() + good[2:]
        elif kind == 10:
            line = good[:2 * rng.randrange(1, len(good) // 2)]
        else:
            line = (good + b"00" * rng.randint(1, 54))[:132]
        self.say(line)

    # Arguments.

    def span(self, world, free_of=None):
        """A run of pages of one owner, where there is one: first page and length."""
        rng, owners = self.rng, self.machine.owners
        busy = self.machine.mapped(free_of) if free_of is not None else ()
        fit = [p for p, owner in enumerate(owners) if owner == world and p not in busy]
        if not fit:
            return rng.randrange(self.pages), 1
        first = rng.choice(fit)
        longest = 1
        while first + longest < len(owners) and owners[first + longest] == world and first + longest not in busy:
            longest += 1
        some = rng.randint(1, longest)
        return first, min(longest, self.weighted([(1, 6), (2, 3), (3, 1), (some, 1 + 20 * self.nest), (longest, 1 + 5 * self.nest)]))

    def mapping(self, world):
        """A mapping of this world, or of another one now and then, or an invented one."""
        worlds = [world] * 8 + [SECURE, NORMAL, REALM]
        held = self.machine.maps[self.rng.choice(worlds)]
        return self.rng.choice(held) if held else (PAGE * self.rng.randrange(64), PAGE, self.base, 0)

    def nested_arguments(self, held):
        """Inside, around, flush with, equal to, across or beside a mapping that is held, and now and then shifted against it."""
        rng = self.rng
        virtual, size, physical, _ = held
        pages = size // PAGE
        first = rng.choice([0, rng.randrange(pages)])
        end = rng.choice([pages, rng.randint(first + 1, pages)])
        more, less = rng.randrange(3), rng.randrange(3)
        first, end = self.weighted([((first, end), min(pages, 6)), ((-less, pages + more), 3), ((first, pages + more), 1), ((-less, end), 1),
                                    ((pages, pages + 1 + more), 1), ((-1 - less, 0), 1)])
        shift = self.weighted([(0, 10), (1, 1), (-1, 1), (pages, 1), (rng.randrange(self.pages), 1)]) * PAGE
        to, at = rng.choice([(shift, 0), (0, shift), (shift, -shift)])
        return [(physical + first * PAGE + to) % TOP, (virtual + first * PAGE + at) % TOP, (end - first) * PAGE, rng.randrange(3)]

    def map_arguments(self, world):
        rng = self.rng
        if self.machine.maps[world] and self.chance(self.nest):
            held = rng.choices(self.machine.maps[world], k=3)
            return self.nested_arguments(max(held, key=lambda mapping: mapping[1]))
        first, count = self.span(world, world if self.chance(0.85) else None)
        size = count * PAGE
        physical = self.base + first * PAGE
        near = rng.randrange(64) * PAGE
        virtual = rng.choice([near, near, near, 2**32 - size, 2**32 - size - near, rng.randrange(2**20) * PAGE])
        attributes = rng.randrange(3)
        end = self.base + self.pages * PAGE
        if not self.chance(self.slip):
            return [physical, virtual % TOP, size, attributes]
        kind = rng.randrange(8)
        if kind == 0:
            size = rng.choice([0, 1, PAGE - 1, PAGE + 1, size + 1, TOP - PAGE, TOP - 1, 2**32, 2**33, 2**63,
                               TOP - physical, TOP - physical + PAGE, TOP - virtual, TOP - virtual + PAGE,
                               end - physical, end - physical + PAGE])
        elif kind == 1:
            physical += rng.choice([1, -1, PAGE // 2, 4])
        elif kind == 2:
            virtual += rng.choice([1, -1, PAGE // 2, 4])
        elif kind == 3:
            attributes = rng.choice([3, 4, 2**32, 2**32 + 1, 2**63, 2**63 + 2, TOP - 1])
        elif kind == 4:
            physical = rng.choice([self.base - PAGE, end - PAGE, end, end + PAGE, 0, TOP - PAGE, TOP - size,
                                   self.address(), physical + 2**48, physical + 2**63, end - size, end - size + PAGE])
        elif kind == 5:
            virtual = rng.choice([2**32 - size, 2**32 - size + PAGE, 2**32, 2**32 + PAGE, TOP - size, TOP - PAGE,
                                  2**48, 2**63])
        elif kind == 6:
            start, held, to, _ = self.mapping(world)
            virtual = rng.choice([start, start + held, start + held - PAGE, start - size, start - size + PAGE])
        else:
            start, held, to, _ = self.mapping(world)
            physical = rng.choice([to, to + held, to + held - PAGE, to - size, to - size + PAGE])
        if self.chance(0.05):
            size, physical = 0, physical + 1
        return [physical, virtual, size, attributes]

    def unmap_arguments(self, world):
        start, size, _, _ = self.mapping(world)
        start = self.slipped(start, [start + PAGE, start - PAGE, start + 1, start + size, start + 2**32])
        return [start, self.slipped(size, [0, size // 2, size + PAGE, size - PAGE, size + 1, 2 * size, size + 2**32])]

    def where_arguments(self, world):
        start, size, _, _ = self.mapping(world)
        return [self.rng.choice([start, start + size - 1, start + self.rng.randrange(size), start - 1, start + size,
                                 start + 2**32, self.address()])]

    def transfer_arguments(self, giver):
        rng = self.rng
        if self.chance(0.15) and self.machine.maps[giver]:
            _, size, to, _ = rng.choice(self.machine.maps[giver])
            lead = rng.randrange(3)
            first, count = (to - self.base) // PAGE - lead, size // PAGE + lead + rng.randrange(3)
        else:
            first, count = self.span(giver, giver if self.chance(0.7) else None)
        start = (self.base + first * PAGE) % TOP
        room = self.pages - first
        start, count = self.weighted([
            ((start, count), 12),
            ((start, self.slipped(count, [0, 0, room, room + 1, count + 1, TOP // PAGE, TOP // PAGE + 1, TOP - 1, 2**63,
                                          TOP // PAGE - start // PAGE, 2**52 + count])), 4),
            ((self.slipped(start, [start + 1, start + PAGE // 2, start - PAGE, start + 4, self.address()]), count), 4),
        ])
        return [start, count]

    def start_arguments(self):
        rng, count = self.rng, len(self.machine.cores)
        wanted = PENDING if self.chance(0.2) else OFF
        fit = [n for n, core in enumerate(self.machine.cores) if core.power == wanted]
        target = rng.choice(fit) if fit and self.chance(0.8) else rng.randrange(count)
        first, length = self.span(NORMAL)
        good = self.base + first * PAGE
        good += rng.choice([0, 4, PAGE - 4, length * PAGE - 4])
        return [self.slipped(target, [count, count - 1, target + 2**32, 255, 2**31, TOP - 1]),
                self.slipped(good, [good + 1, good + 2, good + 3, good + PAGE, good + 2**32, self.address(),
                                    self.address()]),
                self.word()]

    def state_arguments(self):
        count = len(self.machine.cores)
        return [self.slipped(self.rng.randrange(count), [count, 255, 2**32, 2**32 + count, TOP - 1]),
                self.slipped(0, [1, 2, 2**32, 2**63, TOP - 1])]

    # Calls.

    def ledger_identifier(self, handler):
        """Any identifier that the ledger sends to this handler."""
        rng = self.rng
        pairs = [pair for pair, entry in self.machine.ledger.items() if entry == handler]
        fast, owner = rng.choice(pairs) if pairs else (1, 50)
        middle = rng.choice([0, 1]) if fast and not self.chance(0.05) else rng.choice([0, 1, 2, 0x80, 0xFF])
        number = rng.choice([0, 1, 0x150, 0x18E, 0x18F, rng.getrandbits(16)])
        return fast << 31 | rng.getrandbits(1) << 30 | owner << 24 | middle << 16 | number

    def odd_identifier(self):
        """A known identifier with a bit or two turned, or any number."""
        rng, known = self.rng, self.rng.choice(KNOWN)
        return rng.choice([known ^ 1 << rng.choice([31, 30, 29, 24, 23, 17, 16, 4, 0]), known | 0xFF0000, known & 2**31 - 1,
                           rng.getrandbits(32), self.ledger_identifier(rng.randrange(4))])

    def hinted(self, identifier):
        """The identifier, often with bit 16 turned, and now and then bit 17."""
        return identifier ^ self.weighted([(0, 60), (1 << 16, 37), (1 << 17, 3)])

    def choose(self, world, last):
        """An identifier and its arguments, by the world that runs."""
        rng = self.rng
        both = [
            (lambda: (0xC2000020, self.map_arguments(world)), 10),
            (lambda: (0xC2000021, self.unmap_arguments(world)), 10 / self.keep),
            (lambda: (0xC2000022, self.where_arguments(world)), 3),
            (lambda: (0xC2000012, [self.address()]), 3),
            (lambda: (0xC2000030, []), 1),
            (lambda: (0x80000000, []), 0.5),
            (lambda: (0x80000001, [self.hinted(rng.choice(KNOWN[:3]))]), 1),
            (lambda: (self.odd_identifier(), [self.word() for _ in range(7)]), 2),
            (lambda: (rng.choice(KNOWN), [self.word() for _ in range(7)]), 2),
            (lambda: (rng.choice([0xC2000010, 0xC2000011, 0xC40001B0, 0xC40001B1]),
                      self.transfer_arguments(rng.choice([NORMAL, world]))), 1),
        ]
        normal = [
            (lambda: (rng.choice([0x84000003, 0xC4000003]), self.start_arguments()), 4),
            (lambda: (rng.choice([0x84000004, 0xC4000004]), self.state_arguments()), 3),
            (lambda: (0x84000002, []), 0.6),
            (lambda: (0x84000000, []), 0.5),
            (lambda: (0x8400000A, [self.hinted(rng.choice(KNOWN[:10] + KNOWN))]), 2),
            (lambda: (rng.choice([0xC4000150, 0xC400018E, rng.randint(0xC4000150, 0xC400018E)]), []), 4),
            (lambda: (rng.choice([0xF2000001, self.ledger_identifier(3), self.ledger_identifier(3)]), []), 4),
            (lambda: (rng.choice([0xF2000000, 0xC400018F, 0xC400014F]), []), 0.7),
        ]
        other = [
            (lambda: (0xC2000010, self.transfer_arguments(NORMAL)), 8),
            (lambda: (0xC2000011, self.transfer_arguments(world)), 5),
            (lambda: (0xF2000000 if world == SECURE else 0xC400018F, []), 30 / self.stay),
            (lambda: (rng.choice([0xF2000000, 0xC400018F, 0xC4000150, 0xF2000001]), []), 0.7),
        ]
        realm = [
            (lambda: (0xC40001B0, self.transfer_arguments(NORMAL)), 5),
            (lambda: (0xC40001B1, self.transfer_arguments(REALM)), 4),
        ]
        choices = both + (normal if world == NORMAL else other) + (realm if world == REALM else [])
        identifier, arguments = self.weighted(choices)()
        if identifier == 0x84000002 and last and not self.chance(0.03):
            identifier = 0x84000000  # a run with every core OFF has nothing left to say
        return self.hinted(identifier), arguments

    def call(self):
        rng, cores = self.rng, self.machine.cores
        on = [n for n, core in enumerate(cores) if core.power == ON]
        if not on or self.chance(0.02):
            number = rng.choice([0, len(cores) - 1, rng.randrange(len(cores)), len(cores), 255])
        else:
            number = rng.choice(on)
        world = cores[number].world if number < len(cores) else NORMAL
        identifier, arguments = self.choose(world, len(on) < 2)
        x = [identifier] + [number % TOP for number in arguments]
        x += [self.word() for _ in range(8 - len(x))]
        if not identifier & 1 << 30 and self.chance(0.5):
            x[1:4] = [n % 2**32 | rng.getrandbits(32) << 32 for n in x[1:4]]
        if self.chance(0.2):
            x[0] |= rng.getrandbits(32) << 32
        self.say(self.call_text(number, x))

    def arrival(self):
        count = len(self.machine.cores)
        pending = [n for n, core in enumerate(self.machine.cores) if core.power == PENDING]
        if pending and self.chance(0.8):
            self.frame(0x21, (1, self.rng.choice(pending)))
        else:
            self.frame(0x21, (1, self.rng.choice([0, self.rng.randrange(count), count, 255])))

    def step(self):
        if self.chance(self.noise) or not self.machine.cores:
            self.weighted([(self.malformed, 5), (self.bad_set_up, 2), (self.early, 1)])()
            return
        waits = any(core.power == PENDING for core in self.machine.cores)
        if self.chance(self.haste if waits else 0.01):
            self.arrival()
        else:
            self.call()


def run(seed, lines):
    """The bytes of one run; its last line may lack the newline."""
    made = Run(seed)
    made.set_up()
    while len(made.lines) < lines:
        made.step()
    text = made.lines[:lines]
    end = b"\n" if not text or text[-1] == b"" or made.chance(0.5) else b""
    return b"\n".join(text) + (end if text else b"")


if __name__ == "__main__":
    sys.stdout.buffer.write(run(int(sys.argv[1]), int(sys.argv[2])))
