"""Runs beside each other, each call with its answer, and behind them all what the report of Q-10 has to count, added up by hand."""

from script import P, TOP, Script

B = 0x80000000
SECURE, NORMAL, REALM = 1, 2, 3
SHORT = 1 << 32

# World, answer, count; in brackets where the calls stand: run 1 by its letters below, the other runs by number.
COUNTS = [
    (SECURE, 0, 1),            # finish (g)
    (SECURE, 2, 1),            # cores ON (g)
    (SECURE, SHORT - 1, 1),    # 84000000 (g)
    (SECURE, TOP - 6, 1),      # a mapped page (g)
    (SECURE, TOP - 5, 1),      # no pages (g)
    (SECURE, TOP - 3, 1),      # its own page (g)
    (NORMAL, 0, 32),           # state, start (a); 16 maps, unmap, where (e); ownership (f); hand-overs (g, h); OFF (i); hand-over (run 5); 7 starts (run 7)
    (NORMAL, 1, 2),            # state (a), ownership (f)
    (NORMAL, 2, 3),            # state (a), cores ON (b, run 7)
    (NORMAL, 3, 1),            # cores ON (run 7), and so to 8
    (NORMAL, 4, 1),
    (NORMAL, 5, 1),
    (NORMAL, 6, 1),
    (NORMAL, 7, 1),
    (NORMAL, 8, 1),
    (NORMAL, 0x10001, 1),      # (a)
    (NORMAL, 0x10003, 3),      # (a), twice in run 6
    (NORMAL, SHORT - 9, 1),    # (c)
    (NORMAL, SHORT - 5, 1),    # (a)
    (NORMAL, SHORT - 4, 1),    # (b)
    (NORMAL, SHORT - 2, 1),    # (c)
    (NORMAL, SHORT - 1, 2),    # (c), run 4
    (NORMAL, TOP - 34, 1),     # (d)
    (NORMAL, TOP - 22, 2),     # (d), (e)
    (NORMAL, TOP - 14, 1),     # (e)
    (NORMAL, TOP - 13, 1),     # (d)
    (NORMAL, TOP - 12, 1),     # (e)
    (NORMAL, TOP - 9, 1),      # (c)
    (NORMAL, TOP - 5, 1),      # (a)
    (NORMAL, TOP - 4, 1),      # (b)
    (NORMAL, TOP - 2, 1),      # (c)
    (NORMAL, TOP - 1, 3),      # (c), (e), run 4
    (REALM, 0, 3),             # page taken, given back, finish (h)
    (REALM, 1, 1),             # ownership (h)
    (REALM, TOP - 2, 1),       # a page outside (h)
    (REALM, TOP - 1, 1),       # F2000000 (h)
]


def report():
    s = Script()
    s.part("run 1: set-up: 20 pages at 80000000, 2 cores; pages 0 to 17 Normal's, 18 Secure's, 19 Realm's. No set-up line counts")
    set_up(s, 20, 2)
    s.pages(0, 0, 18, 2)
    s.pages(0, 18, 1, 1)
    s.pages(0, 19, 1, 3)
    cores(s)
    mappings(s)
    others(s)
    apart(s)
    s.part("run 2: no set-up, so no call is accepted; 0000, 00 with a carriage return and an empty line are lines like others")
    s.refused(0x73, 0, 0x80000000)
    s.raw(0x72, b"0000")
    s.raw(0x71, b"00\r")
    s.raw(0x71, b"")
    s.refused(0x73, 0, 0x80000000)
    apart(s)
    s.part("run 3 has no line at all")
    apart(s)
    later(s)
    return s


def apart(s):
    """A line between two runs: it has no answer."""
    s.lines.append(b"00")
    s.answers.append(None)


def set_up(s, pages, count):
    s.window(0, B, pages, count)
    for owner, handler in ((0, 0), (2, 1), (4, 2), (50, 3)):
        s.ledger(0, owner, owner, 1, handler)


def cores(s):
    s.part("a: versions; state ON, OFF and pending, answered 0, 1 and 2; a start, and -5 for a second one in both widths")
    s.call("N0", 0x10003, 0x80000000)
    s.call("N0", 0x10001, 0x84000000)
    s.call("N0", 0, 0x84000004, 0, 0)
    s.call("N0", 1, 0x84000004, 1, 0)
    s.call("N0", 0, 0xC4000003, 1, B, 7)
    s.call("N0", 2, 0x84000004, 1, 0)
    s.call("N0", -5, 0xC4000003, 1, B, 7)
    s.call("N0", -5, 0x84000003, 1, B, 7)
    s.part("b: an arrival counts nothing; two cores are ON, asked on the other core; -4 in both widths")
    s.arrive(0, 1)
    s.call("N1", 2, 0xC2000030)
    s.call("N0", -4, 0xC4000003, 1, B, 7)
    s.call("N0", -4, 0x84000003, 1, B, 7)
    s.part("c: -2, -9 and -1 in both widths")
    s.call("N0", -2, 0xC4000004, 9, 0)
    s.call("N0", -2, 0x84000004, 9, 0)
    s.call("N0", -9, 0xC4000003, 1, 0, 7)
    s.call("N0", -9, 0x84000003, 1, 0, 7)
    s.call("N0", -1, 0x80000002)
    s.call("N0", -1, 0xC0000000)


def mappings(s):
    s.part("d: -22, -34 and -13 of a map")
    s.call("N0", -22, 0xC2000020, B + 1, 0, P, 0)
    s.call("N0", -34, 0xC2000020, B + 20 * P, 0, P, 0)
    s.call("N0", -13, 0xC2000020, B + 18 * P, 0, P, 0)
    s.part("e: sixteen mappings, and -12; one unmapped, and -1 for an overlap; where, found and -14; -22 of an unmap")
    for page in range(16):
        s.call("N0", 0, 0xC2000020, B + page * P, page * P, P, 0)
    s.call("N0", -12, 0xC2000020, B + 16 * P, 16 * P, P, 0)
    s.call("N0", 0, 0xC2000021, 15 * P, P)
    s.call("N0", -1, 0xC2000020, B, 32 * P, P, 0)
    s.call("N0", (0, B + 5, 0), 0xC2000022, 5)
    s.call("N0", -14, 0xC2000022, 15 * P)
    s.call("N0", -22, 0xC2000021, 15 * P, P)
    s.part("f: ownership of a page of one's own and of another's")
    s.call("N0", 1, 0xC2000012, B)
    s.call("N0", 0, 0xC2000012, B + 18 * P)


def others(s):
    s.part("g: a hand-over counts for Normal; Secure's calls, -3, -6 and -5 among them, and -1 in the short width; its finish counts for Secure as 0, whatever it returns")
    s.call("N0", "S", 0xF2000001)
    s.call("S0", 2, 0xC2000030)
    s.call("S0", -3, 0xC2000010, B + 18 * P, 1)
    s.call("S0", -6, 0xC2000010, B, 1)
    s.call("S0", -5, 0xC2000010, B, 0)
    s.call("S0", -1, 0x84000000)
    s.call("S0", "N", 0xF2000000, TOP - 2)
    s.part("h: the same for Realm: a page taken, asked for and given back, -2 and -1, and a finish that returns 1")
    s.call("N0", "R", 0xC4000150)
    s.call("R0", 0, 0xC40001B0, B + 16 * P)
    s.call("R0", 1, 0xC2000012, B + 16 * P)
    s.call("R0", 0, 0xC40001B1, B + 16 * P)
    s.call("R0", -2, 0xC40001B0, B + 20 * P)
    s.call("R0", -1, 0xF2000000)
    s.call("R0", "N", 0xC400018F, 1)
    s.part("i: OFF counts as 0; a call on a core that is OFF and one on no core are refused, and count nothing")
    s.call("N1", "off", 0x84000002)
    s.refused(0x75, 1, 0x80000000)
    s.refused(0x74, 2, 0x80000000)


def later(s):
    s.part("run 4: no ledger of another run is left, so these are -1, in either width")
    s.window(0, B, 1, 1)
    s.call("N0", -1, 0x80000000)
    s.call("N0", -1, 0xC2000012, B)
    apart(s)
    s.part("run 5 ends while Secure runs")
    set_up(s, 1, 1)
    s.call("N0", "S", 0xF2000001)
    apart(s)
    s.part("run 6 has Normal as its caller again; 0000 and 00 with a carriage return do not end it")
    set_up(s, 1, 1)
    s.call("N0", 0x10003, 0x80000000)
    s.raw(0x72, b"0000")
    s.raw(0x71, b"00\r")
    s.call("N0", 0x10003, 0x80000000)
    apart(s)
    s.part("run 7: eight cores, started one by one; with 2 to 8 of them ON they are counted. The last line, 00, has no newline")
    set_up(s, 1, 8)
    s.pages(0, 0, 1, 2)
    for core in range(1, 8):
        s.call("N0", 0, 0xC4000003, core, B, 7)
        s.arrive(0, core)
        s.call(f"N{core}", core + 1, 0xC2000030)
    apart(s)
