"""Every call's every answer from each world that can run."""

from script import JUNK, P, TOP, Script

# The window lies across 2^32, so that low halves of addresses can be told from whole ones.
B = 2**32 - 32 * P
E = 2**32 + 8 * P
POWER = (0x84000000, 0x84000002, 0x84000003, 0xC4000003, 0x84000004, 0xC4000004, 0x8400000A)
FOR_NORMAL = POWER + (0xC4000150, 0xC400016F, 0xC400018E)
FOR_REALM = (0xC40001B0, 0xC40001B1, 0xC400018F)


def page(number):
    return B + number * P


def calls():
    s = Script()
    s.part("set-up: 40 pages at FFFE0000, 8 cores; Normal 0 to 23, 32 to 35 and 39, Secure 24 to 27, Realm 28 to 31, Root 36 by name, 37 and 38 unnamed")
    s.window(0, B, 40, 8)
    for entry in ((0, 1, 1, 0), (2, 2, 1, 1), (4, 4, 1, 2), (48, 63, 1, 3), (0, 0, 0, 0), (2, 2, 0, 1), (4, 4, 0, 2),
                  (50, 50, 0, 3)):
        s.ledger(0, *entry)
    for span in ((0, 24, 2), (24, 4, 1), (28, 4, 3), (32, 4, 2), (36, 1, 0), (39, 1, 2)):
        s.pages(0, *span)
    before_the_arguments(s, "N0")
    architecture(s, "N0")
    core_power(s)
    starts(s)
    normal_refusals(s)
    board(s, "N0", own=page(0), other=page(24))
    s.part("hand-over to Secure by fast and yielding calls, 32-bit and 64-bit, with all 64 bits; finish with x1 to x4")
    for identifier in (0xF2000001, 0xB0000000, 0x72010203, JUNK + 0xFF00FFFF):
        s.call("N0", "S", identifier, TOP - 1, JUNK, 3)
        s.call("S0", "N", 0xF2000000, 4, JUNK, TOP - 1, 7)
    s.call("N0", "S", 0xF2000001)
    secure(s)
    s.part("hand-over to Realm at both ends of the range; finish with x1 to x5, of which four are shown and may look like a refusal")
    for identifier in (0xC4000150, JUNK + 0xC400016F, 0xC400018E):
        s.call("N0", "R", identifier, TOP - 1, JUNK, 3)
        s.call("R0", "N", 0xC400018F, TOP - 1, 5, JUNK, 7, 9)
    s.call("N0", "R", 0xC4000150)
    realm(s)
    two_cores(s)
    widths(s)
    every_core(s)
    return s


def before_the_arguments(s, who):
    s.part(f"{who}: -1 before the arguments: bits 23 to 17 of a fast call, no entry in the ledger, no such identifier, the other width, a yielding twin")
    for identifier in (0x84020000, 0x80800000, 0xC2FF0030, 0xC4020150, 0xF2020001, 0x86000000, 0xC3000010, 0x40000150 | 5 << 24,
                       0x84000001, 0x80000002, 0x81000000, 0xC2000013, 0xC2000031, 0xC400014F, 0xC40001AF, 0xC40001B2,
                       0xC0000000, 0xC4000000, 0xC4000002, 0xC400000A, 0x82000012, 0x840001B0, 0x84000150, 0x00000000,
                       0x42000030, 0x04000000, 0x44000150, 0x04010000):
        s.call(who, -1, identifier)
    s.part(f"{who}: the high half of x0 does not count")
    s.call(who, 0x10003, JUNK + 0x80000000)
    s.call(who, 0x10001 if who == "N0" else -1, JUNK + 0x84000000)
    s.call(who, -1, TOP - 1)


def architecture(s, who):
    s.part(f"{who}: 80000000 and 80000001, whose question is read in its low half")
    s.call(who, 0x10003, 0x80000000)
    for asked, answer in ((0x80000000, 0), (0x80000001, 0), (JUNK + 0x80000000, 0), (JUNK + 0x80000001, 0), (0x80000002, -1), (0x84000000, -1),
                          (0, -1)):
        s.call(who, answer, 0x80000001, asked)


def core_power(s):
    s.part("84000000, and 8400000A for every identifier that it affirms and for neighbours, read in the low half")
    s.call("N0", 0x10001, 0x84000000)
    for asked in POWER + (0x80000000, JUNK + 0x84000003):
        s.call("N0", 0, 0x8400000A, asked)
    for asked in (0x80000001, 0x84000001, 0x84000005, 0xC4000000, 0xC4000002, 0xC400000A, 0xC40001B0, 0xC4000150, 0xF2000000, 0):
        s.call("N0", -1, 0x8400000A, asked)
    s.part("core state of an ON and an OFF core; -2 for core 8, for level 1, and for high halves in the 64-bit call alone")
    for identifier in (0x84000004, 0xC4000004):
        s.call("N0", 0, identifier, 0, 0)
        s.call("N0", 1, identifier, 2, 0)
        s.call("N0", 1, identifier, 7, 0)
        s.call("N0", -2, identifier, 8, 0)
        s.call("N0", -2, identifier, 0, 1)
        s.call("N0", -2, identifier, 8, 1)
    s.call("N0", 0, 0x84000004, JUNK, JUNK)
    s.call("N0", -2, 0xC4000004, JUNK, 0)
    s.call("N0", -2, 0xC4000004, 0, JUNK)


def starts(s):
    s.part("start: -2 for core 8 before the address; -9 for every bad address, also for a core that is ON; -4 for oneself")
    for identifier in (0x84000003, 0xC4000003):
        s.call("N0", -2, identifier, 8, 1, 0)
        for address in (B + 1, B + 2, B - 4, page(24), page(28)):
            s.call("N0", -9, identifier, 1, address, 0)
        s.call("N0", -9, identifier, 0, B + 3, 0)
        s.call("N0", -4, identifier, 0, B + 4, 0)
    for address in (page(36), page(37), E, TOP - 4, JUNK + B):
        s.call("N0", -9, 0xC4000003, 1, address, 0)
    s.call("N0", -2, 0xC4000003, JUNK + 1, B, 0)
    s.part("start at a page above 2^32: the 32-bit call reads another address; the 64-bit call makes the core pending, so -5, or -9 first")
    s.call("N0", -9, 0x84000003, 1, page(32), 0)
    s.call("N0", 0, 0xC4000003, 1, page(36) - 4, JUNK)
    s.call("N0", -5, 0xC4000003, 1, B, 0)
    s.call("N0", -9, 0xC4000003, 1, B + 2, 0)
    s.call("N0", 2, 0xC4000004, 1, 0)
    s.call("N0", 2, 0x84000004, 1, 0)
    s.call("N0", 1, 0xC2000030)
    s.part("arrival: ON, -4, counted; a 32-bit start with high halves set; OFF and started again")
    s.arrive(0, 1)
    s.call("N0", -4, 0xC4000003, 1, B, 0)
    s.call("N1", 0, 0x84000004, 1, 0)
    s.call("N1", 0, 0x84000003, JUNK + 2, JUNK + B, JUNK)
    s.arrive(0, 2)
    s.call("N2", 3, 0xC2000030)
    s.call("N2", "off", 0x84000002, 1, JUNK, 3)
    s.call("N1", 2, 0xC2000030)
    s.call("N1", 1, 0xC4000004, 2, 0)
    s.call("N1", 0, 0xC4000003, 2, page(23), 0)
    s.part("the start address is not looked at again: its page goes to Realm before the arrival")
    s.call("N0", "R", 0xC4000150)
    s.call("R0", 0, 0xC40001B0, page(23))
    s.arrive(0, 2)
    s.call("N2", -9, 0xC4000003, 2, page(23), 0)
    s.call("R0", 0, 0xC40001B1, page(23))
    s.call("R0", "N", 0xC400018F)


def normal_refusals(s):
    s.part("-1 from Normal: transfers, granule calls, both finishes, whatever the arguments")
    for identifier in (0xC2000010, 0xC2000011) + FOR_REALM + (0xF2000000,):
        s.call("N0", -1, identifier, B, 1)
        s.call("N0", -1, identifier, B + 1, 0)


def board(s, who, own, other):
    """The calls that every world may make; 'own' begins four pages of the caller, 'other' is another world's page."""
    s.part(f"{who}: ownership question: own page at its first and last byte 1, another's and Root's 0, outside on both sides -2")
    for address, answer in ((own, 1), (own + P - 1, 1), (other, 0), (page(36), 0), (page(37) + 5, 0), (B - 1, -2), (E, -2),
                            (own + 2**33, -2), (TOP - 1, -2)):
        s.call(who, answer, 0xC2000012, address)
    map_refusals(s, who, own, other)
    overlaps(s, who, own, other)
    full_list(s, who, own, other)


def map_refusals(s, who, own, other):
    s.part(f"{who}: map of size 0 is 0 and does nothing, whatever the rest")
    s.call(who, 0, 0xC2000020, own, 0, 0, 0)
    s.call(who, 0, 0xC2000020, B + 1, 3, 0, 9)
    s.call(who, -14, 0xC2000022, 0)
    s.part(f"{who}: map -22: each of the three unaligned, attributes 3 and above in any bit, also outside the window")
    for physical, virtual, size, attributes in (
            (own + 1, 0, P, 0), (own, P - 1, P, 0), (own, 0, P + 1, 0), (own, 0, 1, 0), (own, 0, P, 3), (own, 0, P, 4),
            (own, 0, P, JUNK), (own, 0, P, 2**63 + 1), (E + 1, 0, P, 0), (own, 2**32 + 1, P, 0), (E, 0, P, 3)):
        s.call(who, -22, 0xC2000020, physical, virtual, size, attributes)
    s.part(f"{who}: map -34: physical part below, above and across the window's end; virtual end above 2^32; sums past 2^64")
    for physical, virtual, size in (
            (B - P, 0, P), (E, 0, P), (E - P, 0, 2 * P), (own, 0, E), (own, 2**32, P), (own, 2**32 - P, 2 * P),
            (own, TOP - P, P), (own, 0, TOP - P), (own, P, TOP - own), (TOP - P, 0, 2 * P)):
        s.call(who, -34, 0xC2000020, physical, virtual, size, 0)
    s.part(f"{who}: map -13: another's page, Root's, an unnamed one, and a last page that is another's")
    for physical, size in ((other, P), (page(36), P), (page(37), P), (page(36) - P, 2 * P), (page(0), 40 * P)):
        s.call(who, -13, 0xC2000020, physical, 0, size, 0)


def overlaps(s, who, own, other):
    s.part(f"{who}: a mapping of two pages; -1 for an overlap, virtual or physical, also with another's page, and 0 for one that lies around it; where leads to both ends; unmap wants the exact pair")
    s.call(who, 0, 0xC2000020, own + P, 5 * P, 2 * P, 1)
    for physical, virtual, size in (
            (own + P, 9 * P, P), (own, 9 * P, 2 * P), (own + 2 * P, 9 * P, P), (own, 9 * P, 4 * P), (own, 5 * P, P),
            (own, 6 * P, P), (other, 6 * P, P), (own + P, 5 * P, 2 * P)):
        s.call(who, -1, 0xC2000020, physical, virtual, size, 0)
    s.call(who, 0, 0xC2000020, own, 4 * P, 4 * P, 0)
    s.call(who, 0, 0xC2000021, 4 * P, 4 * P)
    s.call(who, (0, own + P, 1), 0xC2000022, 5 * P)
    s.call(who, (0, own + 3 * P - 1, 1), 0xC2000022, 7 * P - 1)
    for address in (5 * P - 1, 7 * P, 5 * P + 2**32, own + P):
        s.call(who, -14, 0xC2000022, address)
    for virtual, size in ((5 * P, P), (5 * P, 3 * P), (6 * P, P), (5 * P, 0), (5 * P + 2**32, 2 * P), (4 * P, 2 * P)):
        s.call(who, -22, 0xC2000021, virtual, size)
    s.part(f"{who}: neighbours that only touch are no overlap; attributes 0 and 2 come back from where; what is unmapped is gone")
    s.call(who, 0, 0xC2000020, own, 7 * P, P, 2)
    s.call(who, 0, 0xC2000020, own + 3 * P, 4 * P, P, 0)
    s.call(who, (0, own + 5, 2), 0xC2000022, 7 * P + 5)
    s.call(who, (0, own + 3 * P, 0), 0xC2000022, 4 * P)
    for virtual, size in ((5 * P, 2 * P), (7 * P, P), (4 * P, P)):
        s.call(who, 0, 0xC2000021, virtual, size)
    for virtual, size in ((5 * P, 2 * P), (7 * P, P), (4 * P, P)):
        s.call(who, -22, 0xC2000021, virtual, size)
        s.call(who, -14, 0xC2000022, virtual)


def full_list(s, who, own, other):
    """Sixteen mappings want sixteen pages: Secure and Realm take them from Normal first."""
    many = own if who == "N0" else page(0)
    s.part(f"{who}: sixteen mappings; then -12 before -1 and -13, after -22 and -34; a slot that is freed is taken again; all are removed")
    if who != "N0":
        s.call(who, 0, 0xC2000010, many, 16)
    for i in range(16):
        s.call(who, 0, 0xC2000020, many + i * P, 2 * i * P, P, i % 3)
    s.call(who, -12, 0xC2000020, many, 0, P, 0)
    s.call(who, -12, 0xC2000020, other, P, P, 0)
    s.call(who, -34, 0xC2000020, E, P, P, 0)
    s.call(who, -22, 0xC2000020, many, 0, P, 3)
    s.call(who, 0, 0xC2000020, many, 0, 0, 0)
    s.call(who, 0, 0xC2000021, 14 * P, P)
    s.call(who, 0, 0xC2000020, many + 7 * P, 2**32 - P, P, 2)
    s.call(who, (0, many + 8 * P - 1, 2), 0xC2000022, 2**32 - 1)
    s.call(who, -12, 0xC2000020, other, P, P, 0)
    s.call(who, 0, 0xC2000021, 2**32 - P, P)
    for i in range(16):
        if i != 7:
            s.call(who, 0, 0xC2000021, 2 * i * P, P)
    if who != "N0":
        s.call(who, 0, 0xC2000011, many, 16)


def several(s, who, own, other):
    s.part(f"{who}: several pages from Normal: -5 first, -2 for a bad start or a page outside, -3 for any wrong owner, -6 for a mapped page, else 0")
    for start, count, answer in (
            (page(0), 0, -5), (page(0) + 1, 0, -5), (E, 0, -5), (page(0) + 1, 1, -2), (page(0) + P // 2, 1, -2), (B - P, 1, -2),
            (E, 1, -2), (page(39), 2, -2), (page(0), 41, -2), (page(0), 2**52 + 1, -2), (page(0), TOP - 1, -2), (TOP - P, 2, -2),
            (own, 1, -3), (other, 1, -3), (page(36), 1, -3), (page(37), 1, -3), (page(23), 2, -3), (page(0), 40, -3),
            (page(10), 2, -6), (page(9), 2, -6), (page(9), 20, -3), (page(11), 2, 0)):
        s.call(who, answer, 0xC2000010, start, count)
    s.part(f"{who}: several pages to Normal, with the same rules; a page of the caller's own mapping is -6 until it is unmapped")
    s.call(who, 0, 0xC2000020, page(12), 0, P, 1)
    for start, count, answer in (
            (page(11), 0, -5), (page(11) + 1, 1, -2), (E, 1, -2), (page(11), 30, -2), (page(10), 2, -3), (page(11), 3, -3),
            (other, 1, -3), (page(36), 1, -3),
            (page(11), 2, -6), (page(12), 1, -6), (page(11), 1, 0)):
        s.call(who, answer, 0xC2000011, start, count)
    s.call(who, 0, 0xC2000021, 0, P)
    s.call(who, 0, 0xC2000011, page(12), 1)
    s.call(who, 0, 0xC2000012, page(12))


def shared(s, who, own, other):
    """What Secure and Realm have in common; core 1 maps page 10 for Normal, and removes it again."""
    s.call("N1", 0, 0xC2000020, page(10), 0, P, 0)
    several(s, who, own, other)
    s.call("N1", 0, 0xC2000021, 0, P)
    before_the_arguments(s, who)
    architecture(s, who)
    s.part(f"{who}: how many cores are ON")
    s.call(who, 3, 0xC2000030)
    board(s, who, own, other)


def secure(s):
    shared(s, "S0", own=page(24), other=page(28))
    s.part("-1 from Secure: everything of Normal's and Realm's, every other call that reaches handler 3; then its finish")
    for identifier in FOR_NORMAL + FOR_REALM + (0xF2000001, 0x72000000, 0xB2000000):
        s.call("S0", -1, identifier, B, 0)
    s.call("S0", "N", 0xF2000000)


def realm(s):
    shared(s, "R0", own=page(28), other=page(24))
    s.part("one page from Normal: -2, -3, -6 in this order, else 0; x2 is no count")
    s.call("N1", 0, 0xC2000020, page(10), 0, P, 0)
    for start, answer in ((page(0) + 1, -2), (B + P - 1, -2), (B - P, -2), (E, -2), (TOP - P, -2), (page(24), -3), (page(28), -3),
                          (page(36), -3), (page(37), -3), (page(10), -6), (page(39), 0), (page(39), -3)):
        s.call("R0", answer, 0xC40001B0, start, 0)
    s.call("N1", 0, 0xC2000021, 0, P)
    s.part("one page to Normal: the same")
    s.call("R0", 0, 0xC2000020, page(28), 0, P, 2)
    for start, answer in ((page(28) + 1, -2), (B - P, -2), (E, -2), (page(0), -3), (page(24), -3), (page(36), -3), (page(28), -6),
                          (page(39), 0), (page(39), -3)):
        s.call("R0", answer, 0xC40001B1, start, 0)
    s.call("R0", 0, 0xC2000021, 0, P)
    s.call("R0", 0, 0xC40001B1, page(28))
    s.call("R0", 0, 0xC40001B0, page(28))
    s.part("-1 from Realm: everything of Normal's, Secure's finish, every call that reaches handler 3; then its finish")
    for identifier in FOR_NORMAL + (0xF2000000, 0xF2000001, 0x72000000):
        s.call("R0", -1, identifier, B, 0)
    s.call("R0", "N", 0xC400018F)


def two_cores(s):
    s.part("worlds run apart on each core, lists are shared: Secure on core 1 and Realm on core 2, each with its own finish")
    s.call("N1", "S", 0xF2000001)
    s.call("N2", "R", 0xC4000150)
    s.call("S1", 0, 0xC2000020, page(24), 0, P, 1)
    s.call("N0", "S", 0x72000000)
    s.call("S0", (0, page(24) + 1, 1), 0xC2000022, 1)
    s.call("R2", -14, 0xC2000022, 1)
    s.call("R2", -1, 0xF2000000)
    s.call("R2", -3, 0xC40001B0, page(24))
    s.call("R2", -3, 0xC2000010, page(24), 1)
    s.call("S0", 0, 0xC2000021, 0, P)
    s.call("S1", -14, 0xC2000022, 1)
    s.call("S1", "N", 0xF2000000)
    s.call("R2", "N", 0xC400018F)
    s.call("S0", "N", 0xF2000000)


def widths(s):
    s.part(
        "a refusal has the width of the calling identifier, by its bit 30: not that of the upper half of x0, nor that of an identifier that is asked about;"
        " what a finisher returns is untouched"
    )
    s.call("N0", -2, 0x84000004, 0, 1)
    s.call("N0", -2, 0xC4000004, 0, 1)
    s.call("N0", -2, JUNK + 0x84000004, 0, 1)
    s.call("N0", -2, TOP - (1 << 32) + 0x84010004, 0, 1)
    s.call("N0", -1, 0)
    s.call("N0", -1, TOP - (1 << 32))
    s.call("N0", -1, 0xF2000000)
    s.call("N0", -1, 0x80000001, 0xC4000003)
    s.call("N0", -1, 0x8400000A, 0xC4000000)
    s.call("N0", -1, 0x84020000)
    s.call("N0", -1, 0xC4020003)
    s.call("N0", -1, 0x86000000)
    s.call("N0", -1, 0xC6000000)
    s.call("N0", -9, 0x84000003, 1, B + 1)
    s.call("N0", -9, 0xC4000003, 1, B + 1)
    s.call("N0", "S", 0x32000000, 1, 2, 3)
    s.call("S0", -1, 0xB2000000)
    s.call("S0", -1, 0xF2000001)
    s.call("S0", -1, 0x32000000)
    s.call("S0", -1, 0x84000000)
    s.call("S0", "N", 0xF2000000, TOP - 1, (1 << 32) - 1, TOP - 2, 0)


def every_core(s):
    s.part("the other cores start one by one; with 8 to 1 of them ON, each world counts them")
    for core in range(3, 8):
        s.call("N0", 0, 0xC4000003, core, B, 0)
        s.call("N0", core, 0xC2000030)
        s.arrive(0, core)
        s.call(f"N{core}", core + 1, 0xC2000030)
    counted(s, 8)
    for core in range(7, 0, -1):
        s.call(f"N{core}", "off", 0x84000002)
        counted(s, core)


def counted(s, cores):
    s.call("N0", cores, 0xC2000030)
    s.call("N0", "S", 0xF2000001)
    s.call("S0", cores, 0xC2000030)
    s.call("S0", "N", 0xF2000000)
    s.call("N0", "R", 0xC4000150)
    s.call("R0", cores, 0xC2000030)
    s.call("R0", "N", 0xC400018F)


def elsewhere():
    s = Script()
    s.part("set-up: owner 0 leads to handler 2, owner 2 to handler 0, owner 4 and owner 50 to handler 3, yielding owner 4 to handler 1")
    s.window(0, B, 40, 1)
    for entry in ((0, 0, 1, 2), (2, 2, 1, 0), (4, 4, 1, 3), (50, 50, 1, 3), (4, 4, 0, 1)):
        s.ledger(0, *entry)
    s.pages(0, 0, 40, 2)
    s.part("a handler knows its own identifiers only")
    for identifier in (0x80000000, 0x80000001, 0xC2000010, 0xC2000012, 0xC2000030, 0x04000000, 0x44000010):
        s.call("N0", -1, identifier, B, 1)
    s.part("handler 3 hands every identifier but F2000000 to Secure; Secure can leave by F2000000 alone")
    for identifier in (0x84000000, 0x84000002, 0xC4000003, 0xC4000150, 0xC400018F, 0xC40001B0, 0xB2000000):
        s.call("N0", "S", identifier, 0, B)
        s.call("S0", -1, identifier, 0, B)
        s.call("S0", -1, 0xC400018F)
        s.call("S0", "N", 0xF2000000)
    s.part("bits 23 to 17 and F2000000 from Normal are -1 here too, with the hint or without; Secure gets the hint as it was written")
    for identifier in (0x84020000, 0x84030000, 0xF2000000, 0xF2010000):
        s.call("N0", -1, identifier)
    for identifier in (0x84010000, 0xC401018F, 0xF2010001):
        s.call("N0", "S", identifier, 0, B)
        s.call("S0", -1, identifier)
        s.call("S0", "N", 0xF2010000)
    return s
