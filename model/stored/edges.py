"""The cases without a mark under 'Either side of each rule', then each of the easy errors, then those of Q-2 and Q-3."""

from script import JUNK, P, TOP, Script

B = 0x80000000
E = B + 20 * P


def edges():
    s = Script()
    s.part("set-up: 20 pages at 80000000, 2 cores; all pages Normal's but page 18, which is Secure's")
    s.window(0, B, 20, 2)
    for entry in ((0, 0, 1, 0), (2, 2, 1, 1), (4, 4, 1, 2), (50, 50, 1, 3), (2, 2, 0, 3)):
        s.ledger(0, *entry)
    s.pages(0, 0, 18, 2)
    s.pages(0, 18, 1, 1)
    s.pages(0, 19, 1, 2)
    last_page(s)
    seventeenth(s)
    virtual_end(s)
    moves_at_once(s)
    second_start(s)
    type_and_owner(s)
    kept_results(s)
    every_page(s)
    sums(s)
    mappings_at_transfer(s)
    one_operation(s)
    finishes(s)
    hints(s)
    last_core(s)
    return s


def last_page(s):
    s.part("the last page of the window moves both ways, alone and by the call for several; one page further is -2")
    s.call("N0", "R", 0xC4000150)
    s.call("R0", 0, 0xC40001B0, E - P)
    s.call("R0", 1, 0xC2000012, E - 1)
    s.call("R0", 0, 0xC40001B1, E - P)
    s.call("R0", 0, 0xC2000012, E - P)
    s.call("R0", -2, 0xC40001B0, E)
    s.call("R0", 0, 0xC2000010, E - P, 1)
    s.call("R0", 0, 0xC2000011, E - P, 1)
    s.call("R0", -2, 0xC2000010, E - P, 2)
    s.call("R0", "N", 0xC400018F)


def seventeenth(s):
    s.part("sixteen mappings are held; a seventeenth is -12, also where it overlaps; with fifteen held that overlap is -1")
    for i in range(16):
        s.call("N0", 0, 0xC2000020, B + i * P, i * P, P, i % 3)
    s.call("N0", -12, 0xC2000020, B + 16 * P, 16 * P, P, 0)
    s.call("N0", -12, 0xC2000020, B, 0, P, 0)
    s.call("N0", 0, 0xC2000021, 15 * P, P)
    s.call("N0", -1, 0xC2000020, B, 0, P, 0)
    s.call("N0", 0, 0xC2000020, B + 15 * P, 15 * P, P, 0)
    s.call("N0", 0, 0xC2000021, 15 * P, P)


def virtual_end(s):
    s.part("a virtual end of exactly 2^32 is taken; one page further is -34")
    s.call("N0", -34, 0xC2000020, B + 15 * P, 2**32 - P, 2 * P, 2)
    s.call("N0", -34, 0xC2000020, B + 15 * P, 2**32, P, 2)
    s.call("N0", 0, 0xC2000020, B + 15 * P, 2**32 - P, P, 2)
    s.call("N0", (0, B + 16 * P - 1, 2), 0xC2000022, 2**32 - 1)
    s.call("N0", -14, 0xC2000022, 2**32)
    s.call("N0", 0, 0xC2000021, 2**32 - P, P)


def moves_at_once(s):
    s.part("a page that Normal has mapped is -6 for Realm, and moves as soon as it is unmapped")
    s.call("N0", "R", 0xC4000150)
    s.call("R0", -6, 0xC40001B0, B)
    s.call("R0", -6, 0xC2000010, B, 1)
    s.call("R0", "N", 0xC400018F)
    s.call("N0", 0, 0xC2000021, 0, P)
    s.call("N0", "R", 0xC400018E)
    s.call("R0", 0, 0xC40001B0, B)
    s.call("R0", 0, 0xC40001B1, B)
    s.call("R0", "N", 0xC400018F)


def second_start(s):
    s.part("a second start before the arrival is -5, one after it -4")
    s.call("N0", 0, 0xC4000003, 1, B + P, 7)
    s.call("N0", -5, 0xC4000003, 1, B + P, 7)
    s.call("N0", -5, 0x84000003, 1, B, 7)
    s.call("N0", 2, 0xC4000004, 1, 0)
    s.arrive(0, 1)
    s.call("N0", -4, 0xC4000003, 1, B + P, 7)
    s.call("N0", 0, 0xC4000004, 1, 0)
    s.call("N0", 2, 0xC2000030)


def type_and_owner(s):
    s.part("easy error 1: fast calls of owner 2 reach handler 1, yielding ones handler 3; owner 4 has no yielding entry")
    s.call("N1", 2, 0xC2000030)
    s.call("N1", "S", 0x42000030)
    s.call("S1", -1, 0x42000030)
    s.call("S1", 2, 0xC2000030)
    s.call("S1", "N", 0xF2000000)
    s.call("N1", 0x10001, 0x84000000)
    s.call("N1", -1, 0x04000000)


def kept_results(s):
    s.part("easy error 2: x1 to x3 keep the caller's values on a call of one result and on a refusal, whatever went before")
    s.call("N0", 0x10003, 0x80000000, 5, 6, 7)
    s.call("N0", (0, B + P + 9, 1), 0xC2000022, P + 9, 6, 7)
    s.call("N0", 0x10003, 0x80000000, 8, 9, 10)
    s.call("N0", -14, 0xC2000022, 17 * P, 6, 7)
    s.call("N0", -1, 0x84000001, TOP - 1, JUNK, 7)
    s.call("N1", 0x10001, 0x84000000)


def every_page(s):
    s.part("easy error 3: a third page of Secure's is -3, a mapped second page -6, both in one run of pages -3; no page has moved")
    s.call("N0", "R", 0xC4000151)
    s.call("R0", -3, 0xC2000010, B + 16 * P, 3)
    s.call("R0", -6, 0xC2000010, B, 2)
    s.call("R0", -3, 0xC2000010, B + 13 * P, 6)
    for i in (0, 13, 16, 17):
        s.call("R0", 0, 0xC2000012, B + i * P)
    s.call("R0", 0, 0xC2000010, B + 15 * P, 3)
    for i in (15, 16, 17):
        s.call("R0", 1, 0xC2000012, B + i * P)
    s.call("R0", -3, 0xC2000011, B + 15 * P, 4)
    s.call("R0", 0, 0xC2000011, B + 15 * P, 3)


def sums(s):
    s.part("easy error 4: ends that would wrap below the limit in 64 bits are outside: map by size, by virtual start, transfer by count")
    s.call("R0", 0, 0xC2000010, B + 16 * P, 1)
    own = B + 16 * P
    s.call("R0", -34, 0xC2000020, own, 0, TOP - own, 0)
    s.call("R0", -34, 0xC2000020, own, 0, TOP - P, 0)
    s.call("R0", -34, 0xC2000020, own, TOP - P, P, 0)
    s.call("R0", -34, 0xC2000020, own, TOP - P, 2 * P, 0)
    s.call("R0", -34, 0xC2000020, TOP - P, 0, 2 * P, 0)
    s.call("R0", -2, 0xC2000011, own, 2**52)
    s.call("R0", -2, 0xC2000011, own, 2**52 + 1)
    s.call("R0", -2, 0xC2000011, own, TOP - 1)


def mappings_at_transfer(s):
    s.part("easy error 5: a page that its owner maps does not move, whether the owner gives it or another world takes it")
    own = B + 16 * P
    s.call("R0", 0, 0xC2000020, own, 0, P, 1)
    s.call("R0", -6, 0xC40001B1, own)
    s.call("R0", -6, 0xC2000011, own, 1)
    s.call("R0", 0, 0xC2000021, 0, P)
    s.call("R0", 0, 0xC40001B1, own)
    s.call("R0", "N", 0xC400018F)
    s.call("N0", 0, 0xC2000020, own, 16 * P, P, 1)
    s.call("N0", "R", 0xC4000150)
    s.call("R0", -6, 0xC40001B0, own)
    s.call("R0", "N", 0xC400018F)


def one_operation(s):
    s.part(
        "a granule call moves one page whatever x2 holds, 0 or 5, and the page behind it stays Normal's; from Secure it is -1;"
        " a count of 0 is -5 before an unaligned start is -2; a page of Realm's behind a mapped one is -3 before -6"
    )
    for i in range(11, 15):
        s.call("N0", 0, 0xC2000021, i * P, P)
    s.call("N0", "R", 0xC4000150)
    s.call("R0", 0, 0xC40001B0, B + 12 * P, 0)
    s.call("R0", 1, 0xC2000012, B + 12 * P)
    s.call("R0", 0, 0xC2000012, B + 13 * P)
    s.call("R0", 0, 0xC40001B1, B + 12 * P, 5)
    s.call("R0", 0, 0xC2000012, B + 12 * P)
    s.call("R0", 0, 0xC40001B0, B + 11 * P, 5)
    s.call("R0", 1, 0xC2000012, B + 11 * P)
    s.call("R0", 0, 0xC2000012, B + 12 * P)
    s.call("R0", -5, 0xC2000010, B + 1, 0)
    s.call("R0", "N", 0xC400018F)
    s.call("N0", "S", 0xF2000001)
    s.call("S0", -1, 0xC40001B0, B + 12 * P)
    s.call("S0", -1, 0xC40001B1, B + 12 * P)
    s.call("S0", -5, 0xC2000010, B + 1, 0)
    s.call("S0", -3, 0xC2000010, B + 10 * P, 2)
    s.call("S0", -6, 0xC2000010, B + 10 * P, 1)
    s.call("S0", "N", 0xF2000000)


def finishes(s):
    s.part(
        "hand-overs on two cores interleave, and each finish ends its own core's; a finish after a finish is -1, from Normal;"
        " F2000000 by Realm and C400018F by Secure are -1; a core that went OFF and has arrived again runs Normal, and a finish on it is -1"
    )
    s.call("N0", "S", 0xF2000001, 1, 2, 3)
    s.call("N1", "R", 0xC4000150, 4, 5, 6)
    s.call("R1", -1, 0xF2000000)
    s.call("S0", -1, 0xC400018F)
    s.call("S0", "N", 0xF2000000, 7, 8, 9, 10)
    s.call("N0", -1, 0xF2000000)
    s.call("N0", -1, 0xC400018F)
    s.call("N0", "R", 0xC400018E, 11, 12, 13)
    s.call("R1", "N", 0xC400018F, 14, 15, 16, 17)
    s.call("N1", -1, 0xC400018F)
    s.call("N1", "S", 0x42000030, 18, 19, 20)
    s.call("R0", "N", 0xC400018F, 21, 22, 23, 24)
    s.call("S1", "N", 0xF2000000, 25, 26, 27, 28)
    s.call("N1", -1, 0xF2000000)
    s.call("N1", "off", 0x84000002)
    s.call("N0", 0, 0xC4000003, 1, B + P, 7)
    s.arrive(0, 1)
    s.call("N1", -1, 0xF2000000)
    s.call("N1", -1, 0xC400018F)


def hints(s):
    s.part(
        "the hint, bit 16 of a fast identifier, makes no difference, neither to a call nor to a question about one, and is handed over as written;"
        " bit 17 is -1, and a yielding identifier keeps its bit 16"
    )
    s.call("N0", 0x10001, 0x84010000)
    s.call("N0", -1, 0x84020000)
    s.call("N0", 0x10003, JUNK + 0x80010000)
    for asked, answer in ((0x80010000, 0), (0x80010001, 0), (0x00010000, -1), (0x80020000, -1)):
        s.call("N0", answer, 0x80000001, asked)
    s.call("N0", 0, 0x80010001, 0x80010000)
    for asked, answer in ((0x84010002, 0), (0xC4010003, 0), (0x80010000, 0), (0x84020002, -1), (0x04010002, -1)):
        s.call("N0", answer, 0x8400000A, asked)
    for identifier in (0x04010000, 0xF2010000, 0xC401018F):
        s.call("N0", -1, identifier)
    s.call("N0", "S", 0xF2010001, 1, 2, 3)
    s.call("S0", 0, 0xC2010010, B + 12 * P, 1)
    s.call("S0", 1, 0xC2000012, B + 12 * P)
    s.call("S0", 0, 0xC2010011, B + 12 * P, 1)
    s.call("S0", -1, 0xC401018F)
    s.call("S0", -1, 0xF2020000)
    s.call("S0", "N", 0xF2010000, 4, 5, 6, 7)
    s.call("N0", "R", 0xC4010150, 8, 9, 10)
    s.call("R0", -1, 0xC4010150)
    s.call("R0", "N", 0xC401018F, 11, 12, 13, 14)


def last_core(s):
    s.part("the last core that is ON goes OFF too; its registers are shown as given; nothing more is accepted on it")
    s.call("N1", "off", 0x84000002)
    s.call("N0", 1, 0xC2000030)
    s.call("N0", "off", JUNK + 0x84000002, 1, 2, 3)
    s.refused(0x75, 0, 0x80000000)
    s.refused(0x75, 1, 0x80000000)
    s.arrive(0x75, 1)
