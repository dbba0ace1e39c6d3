"""mend.py < FILE: a set-up file mended, from the text of request Q-13 and the machine of check.py."""

import pathlib
import sys

sys.dont_write_bytecode = True
sys.path.insert(0, str(pathlib.Path(__file__).resolve().parent.parent))

from check import DIGITS, Machine  # noqa: E402

MOST = 512
LATER = {b"20": 132, b"21": 4}  # the digits of a frame that set-up has no use for


def lines_of(data):
    lines = data.split(b"\n")
    return lines[:-1] if lines[-1] == b"" else lines


def is_later(line):
    """A call or an arrival that passes 71 and 72."""
    return LATER.get(line[:2]) == len(line) and DIGITS.issuperset(line)


def mend(data):
    """What is printed for a file, the kept lines, and the notices."""
    lines = lines_of(data)
    if len(lines) > MOST:
        return b"a08f\n", [], []
    machine, kept, notices = Machine(), [], []
    for number, line in enumerate(lines, 1):
        answer = "a073" if is_later(line) else machine.answer(line)
        if answer == "a000":
            kept.append(line)
        else:
            notices.append(b"c0%04x" % number + answer[2:].encode())
    return b"".join(line + b"\n" for line in kept + notices), kept, notices


if __name__ == "__main__":
    sys.stdout.buffer.write(mend(sys.stdin.buffer.read())[0])
