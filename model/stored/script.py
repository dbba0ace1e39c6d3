"""A stored run under way: frames, the answer that document 01 asks for, and what each part shows.

Every answer is written by hand beside its frame; nothing here knows the rules of the machine."""

P = 4096
TOP = 2**64
WORLD = {"S": 1, "N": 2, "R": 3}
JUNK = 0xABCDEF01 << 32  # a high half that a 32-bit call must not read


class Script:
    def __init__(self):
        self.lines = []
        self.answers = []
        self.parts = []

    def part(self, text):
        """A row of the table: everything up to the next part shows this."""
        self.parts.append((len(self.lines) + 1, text))

    def table(self):
        ends = [first - 1 for first, _ in self.parts[1:]] + [len(self.lines)]
        rows = ["| lines | what they show |", "|---|---|"]
        for (first, text), last in zip(self.parts, ends):
            rows.append(f"| {first if first == last else f'{first} to {last}'} | {text} |")
        return "\n".join(rows)

    # Lines answered by a status.

    def raw(self, status, line):
        self.lines.append(line)
        self.answers.append("a0%02x" % status)

    def frame(self, status, kind, *fields):
        digits = "%02x" % kind + "".join(f"{number:0{2 * width}x}" for width, number in fields)
        self.raw(status, digits.encode())

    def window(self, status, base, pages, cores):
        self.frame(status, 0x11, (8, base), (2, pages), (1, cores))

    def ledger(self, status, first, last, kind, handler):
        self.frame(status, 0x10, (1, first), (1, last), (1, kind), (1, handler))

    def pages(self, status, first, count, owner):
        self.frame(status, 0x12, (2, first), (2, count), (1, owner))

    def arrive(self, status, core):
        self.frame(status, 0x21, (1, core))

    # Calls: who ("N0" is Normal on core 0), the answer, the identifier and its arguments. Numbers
    # that are not given are 11..1 for x1, 22..2 for x2 and so on, so that a cleared one is seen.

    def numbers(self, given):
        return [n % TOP for n in given] + [0x1111111111111111 * i for i in range(len(given), 8)]

    def refused(self, status, core, *given):
        self.frame(status, 0x20, (1, core), *((8, n) for n in self.numbers(given)))

    def call(self, who, answer, *given):
        """The answer: x0, or a tuple of results from x0 on, or 'S' or 'R' for a hand-over, 'N' for a finish, 'off'."""
        world, core, x = WORLD[who[0]], int(who[1:]), self.numbers(given)
        self.refused(0, core, *given)
        if answer == "off":
            world = 0xFF
        elif answer == "N":
            world, x = WORLD["N"], x[1:5]
        elif isinstance(answer, str):
            world = WORLD[answer]
        else:
            results = answer if isinstance(answer, tuple) else (answer,)
            end = TOP if x[0] >> 30 & 1 else 1 << 32  # a refusal has the width of the calling identifier
            x = [n if n >= 0 else end + n for n in results] + x[len(results):]
        self.answers[-1] = "a1%02x%02x" % (core, world) + "".join("%016x" % n for n in x[:4])
