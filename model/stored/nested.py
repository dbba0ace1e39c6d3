"""Q-8: mappings inside and around others of their world, and every overlap that stays refused."""

from script import P, Script

B = 0x80000000
V = 0x10000000  # below B, so virtual less physical is below zero
GIVE_PAGE, TAKE_PAGE = 0xC40001B1, 0xC40001B0
TAKE, GIVE = 0xC2000010, 0xC2000011
MAP, UNMAP, WHERE = 0xC2000020, 0xC2000021, 0xC2000022
TO_SECURE, FROM_SECURE, TO_REALM, FROM_REALM = 0xF2000001, 0xF2000000, 0xC4000150, 0xC400018F


def p(page):
    return B + page * P


def v(page):
    return V + page * P


def nested():
    s = Script()
    s.part("set-up: 64 pages at 80000000, one core; pages 0 to 39 Secure's, 40 to 47 Normal's, 48 to 63 Realm's")
    s.window(0, B, 64, 1)
    for owner, handler in ((2, 1), (4, 2), (50, 3)):
        s.ledger(0, owner, owner, 1, handler)
    for first, count, owner in ((0, 40, 1), (40, 8, 2), (48, 16, 3)):
        s.pages(0, first, count, owner)
    s.call("N0", "S", TO_SECURE)
    read_only_page(s)
    three_deep(s)
    flush(s)
    equal(s)
    crossing(s)
    other_difference(s)
    before_owners(s)
    outer_first(s)
    inner_first(s)
    s.call("S0", "N", FROM_SECURE)
    apart(s)
    near_zero(s)
    seventeenth(s)
    transfers(s)
    return s


def leads(s, who, page, attributes):
    """Both ends of a page of the area at V."""
    for at in (0, P - 1):
        s.call(who, (0, p(page) + at, attributes), WHERE, v(page) + at)


def nowhere(s, who, *pages):
    for page in pages:
        s.call(who, -14, WHERE, v(page))


def read_only_page(s):
    s.part("Secure maps pages 0 to 15 writable and page 5 read-only inside: page 5 leads to where it did, read-only; its neighbours stay writable")
    s.call("S0", 0, MAP, p(0), v(0), 16 * P, 1)
    leads(s, "S0", 5, 1)
    s.call("S0", 0, MAP, p(5), v(5), P, 0)
    for page, attributes in ((4, 1), (5, 0), (6, 1), (0, 1), (15, 1)):
        leads(s, "S0", page, attributes)
    nowhere(s, "S0", -1, 16)


def three_deep(s):
    s.part("three deep: pages 4 to 11 executable, inside the one and around the other")
    s.call("S0", 0, MAP, p(4), v(4), 8 * P, 2)
    for page, attributes in ((3, 1), (4, 2), (5, 0), (6, 2), (11, 2), (12, 1)):
        leads(s, "S0", page, attributes)


def flush(s):
    s.part("flush at either end, inside: page 4 and page 11 of the executable ones, page 0 and page 15 of all; and around: pages 0 to 16, with two that begin where it does")
    for page, attributes in ((4, 1), (11, 0), (0, 2), (15, 0)):
        s.call("S0", 0, MAP, p(page), v(page), P, attributes)
        leads(s, "S0", page, attributes)
    s.call("S0", 0, MAP, p(0), v(0), 17 * P, 2)
    for page, attributes in ((0, 2), (1, 1), (10, 2), (14, 1), (15, 0), (16, 2)):
        leads(s, "S0", page, attributes)
    nowhere(s, "S0", 17)


def equal(s):
    s.part("an equal range is -1 with the same attributes and with others, whatever lies inside or around it; so it is with another difference")
    for first, count in ((0, 17), (0, 16), (4, 8), (5, 1), (15, 1)):
        for attributes in (0, 1, 2):
            s.call("S0", -1, MAP, p(first), v(first), count * P, attributes)
    s.call("S0", -1, MAP, p(20), v(4), 8 * P, 2)
    s.call("S0", -1, MAP, p(4), v(20), 8 * P, 2)


def crossing(s):
    s.part("crossing is -1: over the end and over the start of the executable pages, though all the others would let it; over the end of all")
    for first, count in ((10, 4), (11, 2), (2, 3), (3, 2), (16, 2), (14, 10), (1, 17)):
        s.call("S0", -1, MAP, p(first), v(first), count * P, 1)
    for page, attributes in ((3, 1), (10, 2), (12, 1)):
        leads(s, "S0", page, attributes)


def other_difference(s):
    s.part("another difference is -1: virtual inside and physical elsewhere, the other way round, both inside but a page off, around but a page off; what only touches is none of these")
    s.call("S0", -1, MAP, p(20), v(6), P, 0)
    s.call("S0", -1, MAP, p(6), v(20), P, 0)
    s.call("S0", -1, MAP, p(7), v(6), P, 0)
    s.call("S0", -1, MAP, p(6), v(7), P, 0)
    s.call("S0", -1, MAP, p(0), v(-1), 20 * P, 0)
    s.call("S0", -1, MAP, p(0), v(1), 20 * P, 0)
    s.call("S0", -1, MAP, p(20), v(-1), 20 * P, 0)
    s.call("S0", -1, MAP, p(0), v(30), 20 * P, 0)
    s.call("S0", 0, MAP, p(17), v(17), P, 0)
    s.call("S0", 0, MAP, p(19), v(18), P, 0)
    s.call("S0", 0, MAP, p(18), v(-1), P, 0)
    for virtual in (v(17), v(18), v(-1)):
        s.call("S0", 0, UNMAP, virtual, P)


def before_owners(s):
    s.part("-1 comes before -13: pages 0 to 40, all around but with a page of Normal's, are -13; the same a page off is -1, and so is Normal's page inside")
    s.call("S0", -13, MAP, p(0), v(0), 41 * P, 1)
    s.call("S0", -1, MAP, p(0), v(1), 41 * P, 1)
    s.call("S0", -1, MAP, p(40), v(5), P, 1)
    s.call("S0", 0, MAP, p(0), v(0), 40 * P, 1)
    s.call("S0", 0, UNMAP, v(0), 40 * P)


def outer_first(s):
    s.part("the outer ones are unmapped first: of those that begin at one address only the size that is given; the inner ones stay, and what nothing else holds leads nowhere")
    s.call("S0", -22, UNMAP, v(0), 15 * P)
    s.call("S0", -22, UNMAP, v(5), 2 * P)
    s.call("S0", 0, UNMAP, v(0), 17 * P)
    nowhere(s, "S0", 16)
    leads(s, "S0", 1, 1)
    s.call("S0", 0, UNMAP, v(0), 16 * P)
    nowhere(s, "S0", 1, 3, 12, 14)
    for page, attributes in ((0, 2), (4, 1), (5, 0), (6, 2), (11, 0), (15, 0)):
        leads(s, "S0", page, attributes)
    s.call("S0", 0, UNMAP, v(4), 8 * P)
    nowhere(s, "S0", 6, 10)
    for page, attributes in ((4, 1), (5, 0), (11, 0)):
        leads(s, "S0", page, attributes)


def inner_first(s):
    s.part("around five that are apart pages 0 to 15 are mapped again, and now the inner ones are unmapped first: each page leads by the outer one from then on")
    s.call("S0", 0, MAP, p(0), v(0), 16 * P, 1)
    leads(s, "S0", 5, 0)
    leads(s, "S0", 6, 1)
    for page in (5, 0, 15, 4, 11):
        s.call("S0", 0, UNMAP, v(page), P)
        s.call("S0", -22, UNMAP, v(page), P)
        leads(s, "S0", page, 1)
    s.call("S0", 0, UNMAP, v(0), 16 * P)
    nowhere(s, "S0", 0, 5, 15)
    s.call("S0", 0, MAP, p(0), v(0), 16 * P, 1)


def apart(s):
    s.part("a world's list is its own: where Secure has pages 0 to 15, Normal maps across their end at a difference of its own")
    s.call("N0", 0, MAP, p(40), v(14), 4 * P, 2)
    s.call("N0", (0, p(41) + 7, 2), WHERE, v(15) + 7)
    s.call("N0", -14, WHERE, v(13))
    s.call("N0", 0, UNMAP, v(14), 4 * P)


def near_zero(s):
    s.part("Realm: a difference of a page below zero and one of a page above it are not equal, nor is that of none; inside and around at each of the three")
    s.call("N0", "R", TO_REALM)
    for off in (-1, 0, 1):
        s.call("R0", 0, MAP, p(50), p(50 + off), 4 * P, 1)
        for other in (-1, 0, 1):
            if other != off:
                s.call("R0", -1, MAP, p(51), p(51 + other), P, 0)
                s.call("R0", -1, MAP, p(49), p(49 + other), 6 * P, 0)
        s.call("R0", 0, MAP, p(51), p(51 + off), P, 0)
        s.call("R0", 0, MAP, p(49), p(49 + off), 6 * P, 2)
        for page, attributes in ((49, 2), (50, 1), (51, 0), (52, 1), (54, 2)):
            s.call("R0", (0, p(page) + 1, attributes), WHERE, p(page + off) + 1)
        for first, count in ((50, 4), (49, 6), (51, 1)):
            s.call("R0", 0, UNMAP, p(first + off), count * P)


def seventeenth(s):
    s.part("Realm: sixteen mappings, each inside the one before, and each address led by the smallest; a seventeenth is -12, crossing, equal, inside or apart from all; a place that is freed is taken again")
    for depth in range(16):
        s.call("R0", 0, MAP, p(48 + depth), v(depth), (16 - depth) * P, depth % 3)
    for depth in range(16):
        s.call("R0", (0, p(48 + depth) + 3, depth % 3), WHERE, v(depth) + 3)
    for first, count in ((3, 2), (3, 13), (0, 1)):
        s.call("R0", -12, MAP, p(48 + first), v(first), count * P, 0)
    s.call("R0", -12, MAP, p(40), v(30), P, 0)
    s.call("R0", 0, UNMAP, v(7), 9 * P)
    s.call("R0", (0, p(55), 0), WHERE, v(7))
    s.call("R0", -1, MAP, p(51), v(3), 13 * P, 1)
    s.call("R0", -1, MAP, p(51), v(3), 4 * P, 1)
    s.call("R0", 0, MAP, p(51), v(3), P, 1)
    s.call("R0", (0, p(51), 1), WHERE, v(3))
    s.call("R0", (0, p(52), 1), WHERE, v(4))
    s.call("R0", -12, MAP, p(55), v(7), 9 * P, 1)
    for depth in range(15):
        if depth != 7:
            s.call("R0", 0, UNMAP, v(depth), (16 - depth) * P)


def transfers(s):
    s.part("Realm: page 63, which the innermost alone still holds, is -6, and so is page 51; both move once they are unmapped")
    s.call("R0", -6, GIVE_PAGE, p(63))
    s.call("R0", -6, GIVE, p(62), 2)
    s.call("R0", -6, GIVE_PAGE, p(51))
    s.call("R0", 0, UNMAP, v(15), P)
    s.call("R0", 0, GIVE_PAGE, p(63))
    s.call("R0", 0, UNMAP, v(3), P)
    s.call("R0", 0, GIVE_PAGE, p(51))
    s.call("R0", "N", FROM_REALM)
    s.part("Normal maps pages 40 to 47, 41 to 44 and 42; Realm gets page 41 when the two that hold it are gone, and page 42 when all three are")
    for first, count, attributes in ((40, 8, 1), (42, 1, 0), (41, 4, 2)):
        s.call("N0", 0, MAP, p(first), v(first), count * P, attributes)
    taken(s, -6, -6)
    s.call("N0", 0, UNMAP, v(40), 8 * P)
    taken(s, -6, -6)
    s.call("N0", 0, UNMAP, v(41), 4 * P)
    taken(s, 0, -6)
    s.call("N0", 0, UNMAP, v(42), P)
    taken(s, -3, 0)
    s.part("Secure gives page 5, which pages 0 to 15 and page 5 alone hold: -6 with both, -6 when the inner one is gone, 0 when both are")
    s.call("N0", "S", TO_SECURE)
    s.call("S0", 0, MAP, p(5), v(5), P, 0)
    s.call("S0", -6, GIVE, p(5), 1)
    s.call("S0", 0, UNMAP, v(5), P)
    s.call("S0", -6, GIVE, p(5), 1)
    s.call("S0", 0, UNMAP, v(0), 16 * P)
    s.call("S0", 0, GIVE, p(5), 1)
    s.call("S0", 0, TAKE, p(5), 1)
    s.call("S0", "N", FROM_SECURE)


def taken(s, one, inner):
    """Realm asks for page 41, then for page 42."""
    s.call("N0", "R", TO_REALM)
    s.call("R0", one, TAKE_PAGE, p(41))
    s.call("R0", inner, TAKE_PAGE, p(42))
    s.call("R0", "N", FROM_REALM)
