#!/usr/bin/env python3
"""The machine of document 01, small and slow: a second opinion on monitor.c."""

import os
import string

PAGE = 4096
ROOT, SECURE, NORMAL, REALM = range(4)
OFF, ON, PENDING = "OFF", "ON", "pending"
ANY = {SECURE, NORMAL, REALM}
DIGITS = set(string.digits.encode() + b"abcdef")


class Status(Exception):
    """A frame that is not accepted, with its status byte."""


class Refusal(Exception):
    """A call that is refused, with its negative answer."""


def without_hint(identifier):
    """An identifier as it is compared: in a fast one bit 16 is a hint."""
    return identifier & ~(1 << 16) if identifier >> 31 else identifier


def expect(holds, refusal):
    """One rule in an ordered list of rules."""
    if not holds:
        raise refusal


class Core:
    """One core: its power, the world that runs on it and nine numbers for each world."""

    def __init__(self, power):
        self.power = power
        self.world = NORMAL
        self.start = None
        self.numbers = {world: [0] * 9 for world in range(4)}

    def now(self):
        return self.numbers[self.world]


class Machine:
    def __init__(self):
        self.base = None
        self.cores = []
        self.ledger = {}
        self.owners = []
        self.named = set()
        self.maps = {world: [] for world in range(4)}
        self.setting_up = True

    # Lines and frames.

    def run(self, data):
        lines = data.split(b"\n")
        if lines[-1] == b"":
            lines.pop()
        return [self.answer(line) for line in lines]

    def answer(self, line):
        try:
            return self.frame(line)
        except Status as refused:
            return "a0%02x" % refused.args[0]

    def frame(self, line):
        expect(line and len(line) % 2 == 0 and len(line) <= 132, Status(0x71))
        expect(DIGITS.issuperset(line), Status(0x71))
        data = bytes.fromhex(line.decode())
        shapes = {
            0x10: ([1, 1, 1, 1], self.enter),
            0x11: ([8, 2, 1], self.open_window),
            0x12: ([2, 2, 1], self.name_pages),
            0x20: ([1] + [8] * 8, self.call),
            0x21: ([1], self.arrive),
        }
        kind, rest = data[0], data[1:]
        expect(kind in shapes, Status(0x72))
        widths, step = shapes[kind]
        expect(len(rest) == sum(widths), Status(0x72))
        numbers = []
        for width in widths:
            numbers.append(int.from_bytes(rest[:width], "big"))
            rest = rest[width:]
        expect((kind == 0x11) == (self.base is None), Status(0x73))
        expect(kind not in (0x10, 0x12) or self.setting_up, Status(0x73))
        return step(*numbers) or "a000"

    def open_window(self, base, pages, cores):
        expect(1 <= pages <= 4096 and 1 <= cores <= 8, Status(0x74))
        expect(base % PAGE == 0 and base + pages * PAGE <= 2**48, Status(0x74))
        self.base = base
        self.owners = [ROOT] * pages
        self.cores = [Core(ON if n == 0 else OFF) for n in range(cores)]

    def enter(self, first, last, kind, handler):
        expect(first <= last <= 63 and kind <= 1 and handler <= 3, Status(0x74))
        pairs = [(kind, owner) for owner in range(first, last + 1)]
        expect(not any(pair in self.ledger for pair in pairs), Status(0x75))
        for pair in pairs:
            self.ledger[pair] = handler

    def name_pages(self, first, count, owner):
        expect(count > 0 and first + count <= len(self.owners) and owner <= 3, Status(0x74))
        span = set(range(first, first + count))
        expect(not span & self.named, Status(0x75))
        self.named |= span
        for page in span:
            self.owners[page] = owner

    def arrive(self, number):
        expect(number < len(self.cores), Status(0x74))
        core = self.cores[number]
        expect(core.power == PENDING, Status(0x75))
        address, context = core.start
        core.power, core.world, core.start = ON, NORMAL, None
        core.numbers[NORMAL] = [context, 0, 0, 0, 0, 0, 0, 0, address]

    def call(self, number, *x):
        expect(number < len(self.cores), Status(0x74))
        core = self.cores[number]
        expect(core.power == ON, Status(0x75))
        self.setting_up = False
        core.now()[:8] = x
        caller = core.world
        try:
            results = self.judge(core, caller, x)
        except Refusal as refused:
            results = [refused.args[0]]
        width = 64 if x[0] >> 30 & 1 else 32
        for place, value in enumerate(results):
            core.numbers[caller][place] = value if value >= 0 else 2**width + value
        world = core.world if core.power == ON else 0xFF
        return "a1%02x%02x" % (number, world) + "".join("%016x" % v for v in core.now()[:4])

    # A call, judged in the order of the document. Results are the numbers written from x0 on.

    def judge(self, core, caller, x):
        identifier = x[0] % 2**32
        fast, wide = identifier >> 31, identifier >> 30 & 1
        owner, reserved = identifier >> 24 & 63, identifier >> 17 & 127
        expect(not (fast and reserved), Refusal(-1))
        identifier = without_hint(identifier)
        handler = self.ledger.get((fast, owner))
        expect(handler is not None, Refusal(-1))
        if handler == 3:
            return self.trusted(core, caller, identifier)
        worlds, step = self.known(handler, identifier)
        expect(caller in worlds, Refusal(-1))
        arguments = [number if wide else number % 2**32 for number in x[1:]]
        return step(core, caller, *arguments)

    def known(self, handler, identifier):
        """Who may make the call and what it does, if the handler knows it."""
        architecture = {
            0x80000000: (ANY, lambda *_: [0x10003]),
            0x80000001: (ANY, self.architecture_features),
        }
        board = {
            0xC2000010: ({SECURE, REALM}, self.take),
            0xC2000011: ({SECURE, REALM}, self.give),
            0xC2000012: (ANY, self.ask_owner),
            0xC2000020: (ANY, self.map),
            0xC2000021: (ANY, self.unmap),
            0xC2000022: (ANY, self.where),
            0xC2000030: (ANY, lambda *_: [sum(c.power == ON for c in self.cores)]),
        }
        standard = {
            0x84000000: ({NORMAL}, lambda *_: [0x10001]),
            0x84000002: ({NORMAL}, self.off),
            0x84000003: ({NORMAL}, self.start),
            0xC4000003: ({NORMAL}, self.start),
            0x84000004: ({NORMAL}, self.state),
            0xC4000004: ({NORMAL}, self.state),
            0x8400000A: ({NORMAL}, self.power_features),
            0xC400018F: ({REALM}, self.finish),
            0xC40001B0: ({REALM}, lambda _, caller, x1, *__: self.move(x1, 1, NORMAL, REALM)),
            0xC40001B1: ({REALM}, lambda _, caller, x1, *__: self.move(x1, 1, REALM, NORMAL)),
        }
        for granted in range(0xC4000150, 0xC400018F):
            standard[granted] = ({NORMAL}, lambda core, *_: self.hand_over(core, REALM))
        table = [architecture, board, standard][handler]
        expect(identifier in table, Refusal(-1))
        return table[identifier]

    def trusted(self, core, caller, identifier):
        if caller == NORMAL and identifier != 0xF2000000:
            return self.hand_over(core, SECURE)
        expect(caller == SECURE and identifier == 0xF2000000, Refusal(-1))
        return self.finish(core)

    def hand_over(self, core, receiver):
        core.numbers[receiver][:8] = core.now()[:8]
        core.world = receiver
        return []

    def finish(self, core, *_):
        returned = {SECURE: 4, REALM: 5}[core.world]
        core.numbers[NORMAL][:returned] = core.now()[1 : 1 + returned]
        core.world = NORMAL
        return []

    # Feature questions.

    def architecture_features(self, core, caller, x1, *_):
        return [0 if without_hint(x1 % 2**32) in (0x80000000, 0x80000001) else -1]

    def power_features(self, core, caller, x1, *_):
        power = (0x84000000, 0x84000002, 0x84000003, 0xC4000003, 0x84000004, 0xC4000004, 0x8400000A)
        asked = without_hint(x1 % 2**32)
        return [0 if asked in power or asked == 0x80000000 else -1]

    # Cores.

    def off(self, core, *_):
        core.power = OFF
        return []

    def start(self, core, caller, target, address, context, *_):
        expect(target < len(self.cores), Refusal(-2))
        page = self.page(address)
        expect(address % 4 == 0 and page is not None, Refusal(-9))
        expect(self.owners[page] == NORMAL, Refusal(-9))
        expect(self.cores[target].power != ON, Refusal(-4))
        expect(self.cores[target].power != PENDING, Refusal(-5))
        self.cores[target].power = PENDING
        self.cores[target].start = (address, context)
        return [0]

    def state(self, core, caller, target, level, *_):
        expect(target < len(self.cores) and level == 0, Refusal(-2))
        return [{ON: 0, OFF: 1, PENDING: 2}[self.cores[target].power]]

    # Pages.

    def page(self, address):
        """The number of the window page that holds an address, or None."""
        number = address // PAGE - self.base // PAGE
        return number if 0 <= number < len(self.owners) else None

    def within(self, start, size):
        return self.base <= start and start + size <= self.base + len(self.owners) * PAGE

    def span(self, start, size):
        return range(self.page(start), self.page(start) + size // PAGE)

    def mapped(self, world):
        """Every window page that some mapping of this world covers."""
        return {page for _, size, to, _ in self.maps[world] for page in self.span(to, size)}

    def take(self, core, caller, x1, x2, *_):
        return self.move(x1, x2, NORMAL, caller)

    def give(self, core, caller, x1, x2, *_):
        return self.move(x1, x2, caller, NORMAL)

    def move(self, start, count, giver, taker):
        expect(count != 0, Refusal(-5))
        expect(start % PAGE == 0 and self.within(start, count * PAGE), Refusal(-2))
        span = self.span(start, count * PAGE)
        expect(all(self.owners[page] == giver for page in span), Refusal(-3))
        expect(self.mapped(giver).isdisjoint(span), Refusal(-6))
        for page in span:
            self.owners[page] = taker
        return [0]

    def ask_owner(self, core, caller, x1, *_):
        expect(self.page(x1) is not None, Refusal(-2))
        return [int(self.owners[self.page(x1)] == caller)]

    # Mappings: tuples of virtual start, size, physical start and attributes.

    def map(self, core, caller, physical, virtual, size, attributes, *_):
        if size == 0:
            return [0]
        aligned = all(number % PAGE == 0 for number in (physical, virtual, size))
        expect(aligned and attributes in (0, 1, 2), Refusal(-22))
        expect(self.within(physical, size) and virtual + size <= 2**32, Refusal(-34))
        expect(len(self.maps[caller]) < 16, Refusal(-12))
        wanted = (virtual, size, physical, attributes)
        expect(all(self.fit(wanted, held) for held in self.maps[caller]), Refusal(-1))
        expect(all(self.owners[page] == caller for page in self.span(physical, size)), Refusal(-13))
        self.maps[caller].append(wanted)
        return [0]

    def fit(self, one, other):
        """No page in common, virtual or physical; or every page of one leads where it does in the other, which has more."""
        ways = [{(start + at, to + at) for at in range(0, size, PAGE)} for start, size, to, _ in (one, other)]
        if ways[0] < ways[1] or ways[1] < ways[0]:
            return True
        return all({way[end] for way in ways[0]}.isdisjoint(way[end] for way in ways[1]) for end in (0, 1))

    def unmap(self, core, caller, virtual, size, *_):
        keep = [m for m in self.maps[caller] if m[:2] != (virtual, size)]
        expect(len(keep) < len(self.maps[caller]), Refusal(-22))
        self.maps[caller] = keep
        return [0]

    def where(self, core, caller, x1, *_):
        for start, size, to, attributes in sorted(self.maps[caller], key=lambda held: held[1]):
            if start <= x1 < start + size:
                return [0, to + x1 - start, attributes]
        raise Refusal(-14)


if __name__ == "__main__":
    pieces = iter(lambda: os.read(0, 1 << 16), b"")  # each as it was written: a shorter read of it would lose the rest
    for answer in Machine().run(b"".join(pieces)):
        print(answer)
