"""edges.py COMMAND..: files at the edges of mending, with answers by hand: no line, 512 and 513 lines, a last line with no newline."""

import subprocess
import sys

SITE = b"110000000080000000100002"  # 4,096 pages at 80000000
NAMES = [b"12%04x000102" % page for page in range(511)]
WHOLE = b"".join(line + b"\n" for line in [SITE] + NAMES)
TWICE = SITE + b"\n" + b"".join(b"c0%04x73\n" % number for number in range(2, 513))
EMPTY = b"".join(b"c0%04x71\n" % number for number in range(1, 513))
CASES = (
    ("no input", b"", b""),
    ("one newline", b"\n", b"c0000171\n"),
    ("one line with no newline", SITE, SITE + b"\n"),
    ("a carriage return", SITE + b"\r\n", b"c0000171\n"),
    ("512 lines, all kept", WHOLE, WHOLE),
    ("the same with no last newline", WHOLE[:-1], WHOLE),
    ("512 lines, all but one dropped", (SITE + b"\n") * 512, TWICE),
    ("512 empty lines", b"\n" * 512, EMPTY),
    ("512 lines and one byte", WHOLE + b"1", b"a08f\n"),
    ("513 lines", (SITE + b"\n") * 513, b"a08f\n"),
    ("513 empty lines", b"\n" * 513, b"a08f\n"),
    ("100,000 lines", b"00\n" * 100000, b"a08f\n"),
    ("one line of 200,000 digits", b"1" * 200000, b"c0000171\n"),
)


def main():
    wrong = [name for name, data, answer in CASES if subprocess.run(sys.argv[1:], input=data, stdout=subprocess.PIPE).stdout != answer]
    print(f"{len(CASES)} files, " + (f"wrong: {'; '.join(wrong)}" if wrong else "no difference"))
    sys.exit(1 if wrong else 0)


if __name__ == "__main__":
    main()
