"""compare.py COUNT SEED COMMAND..: the program that COMMAND runs against convert.py on random conversions.

Conversion I of a comparison has the seed SEED + I, which is its name in the lines too, so
`compare.py 1 THAT_SEED COMMAND..` repeats it. Each accepted one is followed by the way back.
"""

import collections
import random
import subprocess
import sys

sys.dont_write_bytecode = True

import convert
import lines

# What the program reads at once, and how many places are tried.
READ = 65536
BYTES = lines.ROOM
NUMBERS = 272

EDGES = (1, 2, 15, 16, 17, 31, 32, 33, 4079, 4080, 4081, 4095, 4096)
NO_COUNTS = (0, 4097, 4098, 4112, 65536, 2 ** 32, 2 ** 32 + 1, 2 ** 63, 2 ** 64 - 16, 2 ** 64 - 15, 2 ** 64 - 1)
NO_OWNERS = (4, 5, 8, 9, 10, 11, 12, 127, 128, 254, 255)
NO_MARKS = (0, 1, 2, 3, 4, 5, 6, 7, 12, 13, 14, 15)


def page_count(dice):
    kind = dice.randrange(20)
    if kind < 1:
        return dice.choice(NO_COUNTS)
    if kind < 3:
        return dice.choice(EDGES)
    if kind < 4:
        return dice.randint(1, 4096)
    return dice.randint(1, 80)


def room(dice, needed, most):
    """How many places a space has: just enough, some more, one short, or any."""
    size = needed + dice.choice((0, 0, 0, 0, 1, 2, 17))
    if dice.randrange(24) == 0:
        size = needed - 1
    elif dice.randrange(48) == 0:
        size = dice.randint(0, most)
    return min(max(size, 0), most)


def place(dice, count):
    """The first, the last or any of some places."""
    return dice.choice((0, count - 1, dice.randrange(count)))


def rubbish(dice, size, most):
    """What a space happened to hold: anything, or one value throughout."""
    if dice.randrange(2):
        return [dice.randrange(most)] * size
    return [dice.choice((0, 2, most - 1, dice.randrange(most))) for _ in range(size)]


def owners(dice, pages):
    if dice.randrange(2):
        return [dice.randrange(4) for _ in range(pages)]
    row = []
    while len(row) < pages:
        row += [dice.randrange(4)] * dice.choice((1, 3, 15, 16, 17, 200))
    return row[:pages]


def make(seed):
    """A random conversion: kind, page count and both spaces."""
    dice = random.Random(seed)
    kind = dice.choice("pu")
    pages = page_count(dice)
    owned = min(pages, 4097)
    needed = convert.numbers_for(owned)
    old = rubbish(dice, room(dice, owned, BYTES), 256)
    new = rubbish(dice, room(dice, needed, NUMBERS), 2 ** 64)
    worlds = owners(dice, owned)
    if kind == "p":
        if worlds and dice.randrange(6) == 0:
            worlds[place(dice, owned)] = dice.choice(NO_OWNERS)
        old[:owned] = worlds[:len(old)]
        return kind, pages, old, new
    marks = [convert.MARK_OF[world] for world in worlds]
    if marks and dice.randrange(6) == 0:
        marks[place(dice, owned)] = dice.choice(NO_MARKS)
    padding = [0] * (16 * needed - owned)
    if padding and dice.randrange(6) == 0:
        padding[place(dice, len(padding))] = dice.randint(1, 15)
    marks += padding
    packed = [convert.number_of(marks[first:first + 16]) for first in range(0, len(marks), 16)]
    new[:needed] = packed[:len(new)]
    return kind, pages, old, new


def both_ways(seed):
    """A conversion, and where it is accepted the one that leads back, into a space that held other things."""
    kind, pages, old, new = make(seed)
    yield lines.line_of(kind, pages, old, new, seed)
    status, old, new = lines.DONE_BY[kind](pages, old, new)
    if status != 0:
        return
    dice = random.Random(-1 - seed)
    if kind == "p":
        yield lines.line_of("u", pages, rubbish(dice, len(old), 256), new, f"{seed} back")
    else:
        yield lines.line_of("p", pages, old, rubbish(dice, len(new), 2 ** 64), f"{seed} back")


def batches(first, count):
    """The lines of all conversions, cut into what the program reads at once."""
    batch, size = [], 0
    for seed in range(first, first + count):
        for line in both_ways(seed):
            if size + len(line) > READ:
                yield batch
                batch, size = [], 0
            batch.append(line)
            size += len(line)
    yield batch


def main():
    if len(sys.argv) < 4:
        sys.exit("usage: compare.py COUNT SEED COMMAND..")
    count, first, command = int(sys.argv[1]), int(sys.argv[2]), sys.argv[3:]
    told, wrong = collections.Counter(), 0
    for batch in batches(first, count):
        done = subprocess.run(command, input="".join(batch), capture_output=True, text=True)
        answers = done.stdout.splitlines(keepends=True)
        answers += [""] * (len(batch) - len(answers))
        if len(answers) > len(batch) or done.stderr:
            wrong += 1
            print("DIFFERENCE more answers than lines, or a word on standard error", done.stderr[:200])
        for line, answer in zip(batch, answers):
            expected = lines.answer_to(line)
            told[line.split(": ")[1][0], expected.split(": ")[1][:2]] += 1
            if answer != expected:
                wrong += 1
                print(f"DIFFERENCE {line[:300]!r}: expected {expected[:300]!r}, got {answer[:300]!r}", flush=True)
    for (kind, status), times in sorted(told.items()):
        print({"p": "bytes to numbers", "u": "numbers to bytes"}[kind], status, times)
    print(f"compared {sum(told.values())} conversions, seeds {first} to {first + count - 1}: {wrong} differences")
    sys.exit(1 if wrong else 0)


if __name__ == "__main__":
    main()
