"""lines.py < LINES: the answers of convert.py, a line each, in the notation of the program.

A line is a conversion: a name and a colon, p (bytes to numbers) or u (numbers to bytes) with the page
count, the bytes, and the numbers. All numbers are hexadecimal; a space is written as its values from
the first place on with commas between them, so many equal ones in a row as COUNT*VALUE, an empty one
as 0*0. A space of the program has up to 4352 places; a line that holds more is no conversion.
"""

import itertools
import re
import sys

sys.dont_write_bytecode = True

import convert

WORDS = {0: "00 converted",
         0x88: "88 not 1 to 4096 pages, or a space that is too small",
         0x89: "89 a byte or mark that is no owner, or padding that is not 0"}
LINE = re.compile("([^:]*): (.)([0-9a-f]+) ([0-9a-f*,]+) ([0-9a-f*,]+)")
ROOM = 4352
DONE_BY = {"p": convert.pack, "u": convert.unpack}


def space_of(text):
    """The values that a text stands for."""
    values = []
    for part in text.split(","):
        count, star, value = part.rpartition("*")
        values += [int(value, 16)] * (int(count, 16) if star else 1)
    return values


def text_of(values):
    """The text of some values, each row of equal ones as one part."""
    rows = [(len(list(row)), value) for value, row in itertools.groupby(values)]
    return ",".join(f"{value:x}" if count == 1 else f"{count:x}*{value:x}" for count, value in rows) or "0*0"


def line_of(kind, pages, old, new, name):
    return f"{name}: {kind}{pages:x} {text_of(old)} {text_of(new)}\n"


def answer_to(line):
    """What has to be printed for a line."""
    name, kind, pages, old, new = LINE.fullmatch(line.rstrip("\n")).groups()
    old, new = space_of(old), space_of(new)
    if kind not in DONE_BY or len(old) > ROOM or len(new) > ROOM:
        return f"{name}: no conversion\n"
    status, old, new = DONE_BY[kind](int(pages, 16), old, new)
    return f"{name}: {WORDS[status]}; {text_of(old)}; {text_of(new)}\n"


if __name__ == "__main__":
    for line in sys.stdin:
        sys.stdout.write(answer_to(line))
