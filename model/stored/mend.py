"""A set-up file to be mended, and the status of each line: 0 where it is kept."""

from script import P, Script

B = 0x80000000
HELLO = (0x80000000, 1, 2, 3)


def mend():
    s = Script()
    too_early(s)
    pairs(s)
    pages(s)
    later(s)
    unread(s)
    s.part("the last line has no newline, and is kept")
    s.pages(0, 9, 1, 1)
    return s


def mended(s):
    """What has to be printed: the kept lines, then a notice for each other."""
    judged = [(number, line, answer[2:].encode()) for number, (line, answer) in enumerate(zip(s.lines, s.answers), 1)]
    kept = [line for _, line, status in judged if status == b"00"]
    notices = [b"c0%04x" % number + status for number, _, status in judged if status != b"00"]
    return b"".join(line + b"\n" for line in kept + notices)


def too_early(s):
    s.part("before the 11: a 10, a 12, a 20 and a 21 are dropped with 73, and a 11 with an unaligned window with 74")
    s.ledger(0x73, 4, 4, 1, 2)
    s.pages(0x73, 0, 8, 2)
    s.refused(0x73, 0, *HELLO)
    s.arrive(0x73, 0)
    s.window(0x74, B + 8, 16, 2)
    s.part("the 11 is kept; a second one, the same or another, is dropped with 73")
    s.window(0, B, 16, 2)
    s.window(0x73, B, 16, 2)
    s.window(0x73, B + 16 * P, 16, 2)


def pairs(s):
    s.part("a pair that a kept line gave is dropped with 75; the rest of that line's pairs is free, and so is the other type")
    s.ledger(0, 0, 3, 1, 2)
    s.ledger(0x75, 3, 5, 1, 3)
    s.ledger(0, 4, 5, 1, 3)
    s.ledger(0, 3, 3, 0, 2)
    s.part("74: first above last, type 2")
    s.ledger(0x74, 5, 4, 1, 0)
    s.ledger(0x74, 6, 6, 2, 2)


def pages(s):
    s.part("the same of pages: 75 for one that a kept line named; its neighbour is free; 74 for one outside the window")
    s.pages(0, 0, 8, 2)
    s.pages(0x75, 7, 2, 3)
    s.pages(0, 8, 1, 3)
    s.pages(0x74, 16, 1, 2)


def later(s):
    s.part("a 20 that the monitor would accept, a 21, and a 20 of a core that is not there: 73 each, and set-up goes on")
    s.refused(0x73, 0, *HELLO)
    s.arrive(0x73, 0)
    s.refused(0x73, 255, *HELLO)
    s.ledger(0, 50, 50, 0, 3)


def unread(s):
    s.part("71: empty, half a byte, carriage returns, a capital; what they would have given is free")
    for line in (b"", b"1", b"1007070101\r", b"100707010\r", b"100707010A"):
        s.raw(0x71, line)
    s.ledger(0, 7, 7, 1, 1)
    s.part("72: an unknown first byte, a byte too many, a 20 and a 21 that are too short, 132 zeros; an answer or a notice is no line of set-up")
    for line in (b"13", b"100808010100", b"20", b"21", b"0" * 132, b"a000", b"c0000173"):
        s.raw(0x72, line)
    s.part("71: 21 and half a byte, more than 132 digits, a remark")
    for line in (b"21000", b"0" * 134, b"10" * 150, b"# remark"):
        s.raw(0x71, line)
