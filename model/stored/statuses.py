"""Every status on both sides of its rule, in the order in which a line is judged."""

from script import P, Script

PAGES = 4096
B = 2**48 - PAGES * P
GOOD = b"11%016x100008" % B  # the window that is accepted later: its largest sizes
HELLO = (0x80000000, 1, 2, 3)


def statuses():
    s = Script()
    signs(s)
    shapes(s)
    too_early(s)
    windows(s)
    ledger(s)
    owners(s)
    cores_in_set_up(s)
    after_set_up(s)
    return s


def signs(s):
    s.part("71: empty line; odd counts of 1, 3, 23 and 131 digits")
    for line in (b"", b"1", b"211", GOOD[:-1], b"2" * 131):
        s.raw(0x71, line)
    s.part("71: signs that are no digits: upper case, carriage return, blanks, NUL, bytes above 127, the neighbours of the digits")
    for line in (GOOD.replace(b"ff", b"FF"), GOOD + b"\r", GOOD[:-1] + b"\r", b" " + GOOD[1:], GOOD[:-1] + b" ",
                 GOOD + b"\0\0", GOOD[:-1] + b"\0", GOOD[:-1] + b"\x80", GOOD[:-1] + b"\xff", b"0x" + GOOD[2:],
                 b"1/", b"1:", b"1`", b"1g", b"1@", b"1G", b"\t1"):
        s.raw(0x71, line)
    s.part("71: over 132 digits, at 133, 134, 264 and 70,000; a sign that is no digit as the last of 132")
    for line in (b"0" * 133, b"0" * 134, b"20" * 132, b"2" * 70000, b"0" * 131 + b"g"):
        s.raw(0x71, line)


def shapes(s):
    s.part("72: 132 digits are no longer 71; unknown first bytes")
    for line in (b"0" * 132, b"00", b"0f", b"13", b"1f", b"22", b"a0", b"ff"):
        s.raw(0x72, line)
    s.part("72: each frame one byte short and one byte long (a 20 one byte long is over 132 digits), and its first byte alone")
    for kind, length in ((b"10", 5), (b"11", 12), (b"12", 6), (b"20", 66), (b"21", 2)):
        s.raw(0x72, kind + b"00" * (length - 2))
        s.raw(0x71 if kind == b"20" else 0x72, kind + b"00" * length)
        if length > 2:
            s.raw(0x72, kind)


def too_early(s):
    s.part("73: good 10, 12, 20 and 21 before an accepted 11, and the same out of their ranges")
    s.ledger(0x73, 0, 0, 1, 0)
    s.pages(0x73, 0, 1, 2)
    s.refused(0x73, 0, *HELLO)
    s.arrive(0x73, 0)
    s.ledger(0x73, 9, 8, 7, 6)
    s.pages(0x73, 0, 0, 9)
    s.refused(0x73, 255, *HELLO)
    s.arrive(0x73, 255)


def windows(s):
    s.part("74 of a 11: no page, 4097 pages, no core, 9 cores, B unaligned, end one page above 2^48, B at 2^48, an end that wraps")
    s.window(0x74, B, 0, 8)
    s.window(0x74, 0, 4097, 8)
    s.window(0x74, B, PAGES, 0)
    s.window(0x74, B, PAGES, 9)
    s.window(0x74, 1, 1, 1)
    s.window(0x74, P // 2, 1, 1)
    s.window(0x74, B + P, PAGES, 8)
    s.window(0x74, 2**48, 1, 1)
    s.window(0x74, 2**64 - P, 1, 1)
    s.window(0x74, 2**64 - P, 2, 1)
    s.part("a 10 is still 73 after refused 11s; then 4096 pages that end at exactly 2^48 and 8 cores are accepted")
    s.ledger(0x73, 0, 0, 1, 0)
    s.raw(0, GOOD)
    s.part("73: another 11, the same one or one out of its range")
    s.raw(0x73, GOOD)
    s.window(0x73, 1, 0, 0)


def ledger(s):
    s.part("74 of a 10: first above last, last 64, type 2, handler 4; each accepted one step lower")
    s.ledger(0x74, 8, 7, 1, 0)
    s.ledger(0, 8, 8, 1, 0)
    s.ledger(0x74, 63, 64, 1, 0)
    s.ledger(0, 63, 63, 1, 0)
    s.ledger(0x74, 9, 9, 2, 0)
    s.ledger(0, 9, 9, 0, 0)
    s.ledger(0x74, 10, 10, 1, 4)
    s.ledger(0, 10, 10, 1, 3)
    s.part("75 of a 10: a pair that is there, with the same handler or another, alone or inside a range; 74 comes first")
    s.ledger(0x75, 8, 8, 1, 0)
    s.ledger(0x75, 8, 8, 1, 1)
    s.ledger(0x75, 7, 9, 1, 0)
    s.ledger(0x75, 0, 63, 1, 2)
    s.ledger(0x74, 8, 8, 1, 4)
    s.part("the free pairs of the refused ranges were left; the other type of a pair is free")
    s.ledger(0, 0, 0, 1, 0)
    s.ledger(0, 1, 7, 1, 2)
    s.ledger(0, 9, 9, 1, 1)
    s.ledger(0, 8, 8, 0, 3)


def owners(s):
    s.part("74 of a 12: count 0, first page past the end, one page past the end, owner 4; each accepted one step lower")
    s.pages(0x74, 0, 0, 2)
    s.pages(0, 0, 1, 2)
    s.pages(0x74, 4096, 1, 2)
    s.pages(0x74, 4095, 2, 2)
    s.pages(0x74, 65535, 65535, 2)
    s.pages(0, 4095, 1, 2)
    s.pages(0x74, 1, 1, 4)
    s.pages(0, 1, 1, 3)
    s.part("75 of a 12: a page named before, also one named Root's; 74 comes first; the refused rest and the neighbours of named pages can be named")
    s.pages(0x75, 0, 1, 2)
    s.pages(0, 2, 1, 0)
    s.pages(0x75, 2, 1, 2)
    s.pages(0x75, 2, 3, 2)
    s.pages(0x75, 0, 4096, 1)
    s.pages(0x74, 0, 4097, 1)
    s.pages(0, 4094, 1, 2)
    s.pages(0, 3, 2, 2)


def cores_in_set_up(s):
    s.part("20 and 21 in set-up: no such core 74, 20 for a core that is OFF 75, 21 for one that is ON or OFF 75")
    s.refused(0x74, 8, *HELLO)
    s.refused(0x74, 255, *HELLO)
    s.refused(0x75, 7, *HELLO)
    s.arrive(0x74, 8)
    s.arrive(0x75, 0)
    s.arrive(0x75, 7)
    s.part("set-up has not ended: 10 and 12 are accepted")
    s.ledger(0, 11, 11, 1, 0)
    s.pages(0, 5, 1, 1)


def after_set_up(s):
    s.part("an accepted 20 ends set-up, though its call is refused; then 10, 12 and 11 are 73, good or out of range")
    s.call("N0", -1, 0x86000000)
    s.ledger(0x73, 12, 12, 1, 0)
    s.ledger(0x73, 9, 8, 7, 6)
    s.pages(0x73, 6, 1, 1)
    s.pages(0x73, 0, 0, 9)
    s.raw(0x73, GOOD)
    s.part("71 and 72 go on as before")
    s.raw(0x71, b"")
    s.raw(0x71, b"2")
    s.raw(0x72, b"1000")
    s.part("20 and 21 after set-up: 74 for no such core, 75 for a core that is OFF, and 75 for a 20 while it is pending")
    s.refused(0x74, 8, *HELLO)
    s.arrive(0x74, 8)
    s.refused(0x75, 7, *HELLO)
    s.arrive(0x75, 7)
    s.call("N0", 0, 0xC4000003, 7, B, 0)
    s.refused(0x75, 7, *HELLO)
    s.part("the 21 of the pending core is accepted once; it answers calls until it goes OFF, then 20 and 21 are 75 again")
    s.arrive(0, 7)
    s.arrive(0x75, 7)
    s.arrive(0x75, 0)
    s.call("N7", 0x10003, *HELLO)
    s.call("N7", "off", 0x84000002)
    s.refused(0x75, 7, *HELLO)
    s.arrive(0x75, 7)
    s.part("the last line has no newline")
    s.call("N0", 0x10003, *HELLO)


def least():
    """The smallest machine, whose sizes cannot stand in the same run as the largest."""
    s = Script()
    s.part("B of 0, one page and one core are accepted; page 1 and core 1 are not there")
    s.window(0, 0, 1, 1)
    s.pages(0x74, 1, 1, 2)
    s.pages(0x74, 0, 2, 2)
    s.pages(0, 0, 1, 2)
    s.ledger(0, 0, 63, 1, 2)
    s.refused(0x74, 1, *HELLO)
    s.arrive(0x74, 1)
    s.part("core 1 cannot be started; core 0 is ON already, and the address is judged before that: last word of the page, then its end")
    s.call("N0", -2, 0xC4000003, 1, 0, 0)
    s.call("N0", -4, 0xC4000003, 0, P - 4, 0)
    s.call("N0", -9, 0xC4000003, 0, P, 0)
    s.part("the whole ledger leads to handler 2, which knows no identifier that begins with 80, C2 or F2")
    for identifier in (0x80000000, 0xC2000030, 0xF2000001):
        s.call("N0", -1, identifier)
    return s
