"""Two runs alike but for Realm's calls on its own mappings, which one of them adds."""

from script import P, Script

B = 0x80000000
HAND_OVER, FINISH = 0xC4000150, 0xC400018F
GIVE_PAGE, OWNS_PAGE = 0xC40001B1, 0xC2000012
MAP, UNMAP, WHERE, COUNT_ON = 0xC2000020, 0xC2000021, 0xC2000022, 0xC2000030
START, STATE = 0xC4000003, 0xC4000004


def unseen(adds):
    """The common lines, and with `adds` the added ones among them."""
    s = Script()

    def added(answer, *given):
        if adds:
            s.call("R0", answer, *given)

    s.part("set-up: 4 pages at 80000000, 3 cores; pages 0 and 1 are Realm's, 2 and 3 Normal's")
    s.window(0, B, 4, 3)
    s.pages(0, 0, 2, 3)
    s.pages(0, 2, 2, 2)
    s.ledger(0, 2, 2, 1, 1)
    s.ledger(0, 4, 4, 1, 2)
    if adds:
        s.part("Realm runs; added: it maps page 0, asks where an address leads, maps a page of Normal's in vain, and unmaps page 0; then it gives page 0 back, which is granted")
    else:
        s.part("Realm runs, and gives page 0 back, which is granted")
    s.call("N0", "R", HAND_OVER)
    added(0, MAP, B, 0x10000, P, 1)
    added((0, B + 8, 1), WHERE, 0x10008)
    added(-13, MAP, B + 2 * P, 0x20000, P, 0)
    added(0, UNMAP, 0x10000, P)
    s.call("R0", 0, GIVE_PAGE, B)
    s.call("R0", 0, OWNS_PAGE, B)
    s.call("R0", "N", FINISH, 1, 2, 3, 4, 5)
    s.part("Normal owns page 0, starts core 1 there and counts two cores" + (", as without the added calls" if adds else ""))
    s.call("N0", 1, OWNS_PAGE, B)
    s.call("N0", 0, START, 1, B, 7)
    s.arrive(0, 1)
    s.call("N1", 2, COUNT_ON)
    if adds:
        s.part("Realm runs again; added: it maps page 1, and does not unmap it; so the page that it gives back is -6")
    else:
        s.part("Realm runs again, and gives page 1 back, which is granted")
    s.call("N0", "R", HAND_OVER)
    added(0, MAP, B + P, 0x10000, P, 1)
    s.call("R0", -6 if adds else 0, GIVE_PAGE, B + P)
    s.call("R0", "N", FINISH, 1, 2, 3, 4, 5)
    if adds:
        s.part("a common transfer had another answer, so all may differ: Normal does not own page 1, and a start there is -9; core 2 is OFF")
    else:
        s.part("Normal owns page 1, and starts core 2 there, which is then pending")
    s.call("N0", 0 if adds else 1, OWNS_PAGE, B + P)
    s.call("N0", -9 if adds else 0, START, 2, B + P, 7)
    s.call("N0", 1 if adds else 2, STATE, 2, 0)
    return s
