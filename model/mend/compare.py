"""compare.py COUNT SEED COMMAND..: the program that COMMAND runs against mend.py on random set-up files.

File I has the seed SEED + I, so `compare.py 1 THAT_SEED COMMAND..` repeats it. Every fourth reaches the program in random
pieces. The kept lines of each are mended again, by both. The first difference ends the comparison with status 1.
"""

import collections
import os
import random
import subprocess
import sys
import tempfile

sys.dont_write_bytecode = True

from mend import Machine, mend

COUNTS = (0, 0, 1, 2, 511, 512, 513, 514, 600)
SPOILS = (lambda line: line + b"\r", lambda line: line[:-1], lambda line: line + b"00", lambda line: line.upper(),
          lambda line: b" " + line[1:], lambda line: b"\0" + line, lambda line: line * 30)


class Files:
    """Set-up files in which pairs and pages clash, windows come twice or late, and some lines are no good."""

    def __init__(self, seed):
        self.dice = random.Random(seed)
        self.pages = self.dice.choice((1, 8, 16, 300, 4096))
        self.noise = self.dice.choice((0, 0.02, 0.2))
        self.slip = self.dice.choice((0, 0.1, 0.4))
        self.wide = self.dice.choice((1, 2, 20))

    def some(self, good, *bad):
        return self.dice.choice(bad) if self.dice.random() < self.slip else good

    def window(self):
        base = self.some(0x80000000, 0x80000800, 2**48 - self.pages * 4096, 2**48, 2**64 - 4096)
        return b"11%016x%04x%02x" % (base, self.some(self.pages, 0, 4097), self.some(2, 0, 1, 8, 9))

    def entry(self):
        first = self.dice.randrange(64)
        last = min(63, first + self.dice.randrange(self.wide))
        return b"10%02x%02x%02x%02x" % (first, self.some(last, 64, max(first - 1, 0)), self.some(self.dice.randrange(2), 2), self.some(self.dice.randrange(4), 4))

    def name(self):
        first = self.dice.randrange(self.pages)
        count = min(self.pages - first, 1 + self.dice.randrange(self.wide))
        return b"12%04x%04x%02x" % (first, self.some(count, 0, self.pages - first + 1), self.some(self.dice.randrange(4), 4))

    def later(self):
        core = self.dice.choice((0, 0, 1, 2, 255))
        if self.dice.randrange(2):
            return b"21%02x" % core
        return b"20%02x" % core + b"%016x" % self.dice.choice((0x80000000, 0xC2000012, 0)) + b"%016x" % self.dice.getrandbits(64) * 7

    def rubbish(self):
        return self.dice.choice((b"", b"1", b"13", b"00", b"# remark", b"0" * 132, b"1" * 133, b"20" * 5000, b"\r", b"a08f", b"c0000173"))

    def line(self):
        make = self.dice.choices((self.entry, self.name, self.window, self.later, self.rubbish), (8, 8, 0.3, 0.3, self.noise * 10))[0]
        line = make()
        return self.dice.choice(SPOILS)(line) if self.dice.random() < self.noise else line

    def file(self):
        count = self.dice.choice(COUNTS) if self.dice.randrange(4) == 0 else self.dice.randrange(120)
        early = self.dice.choice((0, 0, 1, 3))
        lines = [self.line() for _ in range(min(early, count))]
        lines += [self.window()] if len(lines) < count else []
        lines += [self.line() for _ in range(count - len(lines))]
        if self.dice.randrange(6) == 0:
            lines = [line + b"\r" if self.dice.randrange(2) else line for line in lines]
        return b"\n".join(lines) + (b"" if self.dice.randrange(3) == 0 or not lines else b"\n")


def said(command, data):
    done = subprocess.run(command, input=data, stdout=subprocess.PIPE)
    return done.stdout, done.returncode


def said_in_pieces(command, data, seed):
    """The same, through a pipe that keeps its writes apart."""
    dice = random.Random(seed)
    most = dice.choice((3, 150, 4096))
    reader, writer = os.pipe2(os.O_DIRECT)
    with tempfile.TemporaryFile() as out:
        program = subprocess.Popen(command, stdin=reader, stdout=out)
        os.close(reader)
        at = 0
        while at < len(data):
            at += os.write(writer, data[at:at + dice.randint(1, most)])
        os.close(writer)
        program.wait()
        out.seek(0)
        return out.read(), program.returncode


def main():
    count, seed, command = int(sys.argv[1]), int(sys.argv[2]), sys.argv[3:]
    tally = collections.Counter()
    for number in range(seed, seed + count):
        data = Files(number).file()
        ours, kept, notices = mend(data)
        theirs, status = said_in_pieces(command, data, number) if number % 4 == 0 else said(command, data)
        again = b"".join(line + b"\n" for line in kept)
        if (theirs, status) != (ours, 0) or said(command, again)[0] != again or mend(again)[0] != again:
            print(f"seed {number}: a difference, or the program ended with status {status}")
            sys.exit(1)
        if set(Machine().run(again)) - {"a000"}:
            print(f"seed {number}: a kept line is not accepted")
            sys.exit(1)
        tally["kept"] += len(kept)
        tally["a08f"] += ours == b"a08f\n"
        tally.update(notice[-2:].decode() for notice in notices)
    print(f"{count} files, no difference;", ", ".join(f"{key}: {tally[key]}" for key in sorted(tally)))


if __name__ == "__main__":
    main()
