"""A full ledger: an entry for each of the 128 pairs, made out of order, and a call of each pair."""

from script import P, Script

B = 0x80000000
# The pairs whose own handler answers a call that says which it is: identifier, its argument, and the answer.
TOLD = {(1, 0): (0, 0x80000001, 0x80000000, 0), (1, 2): (1, 0xC2000012, B, 1), (1, 4): (2, 0x84000000, 0, 0x10001)}
FINISH = 0xF2000000


def handler(kind, owner):
    """Three pairs in four go to handler 3, which hands every call over; the rest to handlers 0 to 2 by turns."""
    if (kind, owner) in TOLD:
        return TOLD[kind, owner][0]
    return 3 if (owner + kind) % 4 else owner // 4 % 3


def full():
    s = Script()
    s.part("set-up: one page at 80000000, Normal's; the first 50 entries, each of one owner, in the order 5, 42, 79, .. (37 further each time, modulo 128; types 0 and 1 are 0 to 63 and 64 to 127)")
    s.window(0, B, 1, 1)
    s.pages(0, 0, 1, 2)
    order = [divmod((5 + 37 * i) % 128, 64) for i in range(128)]
    enter(s, order[:50])
    s.part("75: 0 to 63 of either type, and a range that ends at an owner that is there; their free pairs stay free")
    s.ledger(0x75, 0, 63, 1, 3)
    s.ledger(0x75, 0, 63, 0, 3)
    kind, owner = order[60]
    s.ledger(0x75, owner, next(o for o in range(owner, 64) if (kind, o) in order[:50]), kind, 3)
    s.part("the other 78, with those pairs among them")
    enter(s, order[50:])
    s.part("75: no pair is free for a 129th entry, whatever its handler; 74 comes first")
    for entry in ((0, 0, 0, 0), (63, 63, 0, 3), (0, 0, 1, 0), (63, 63, 1, 3), (0, 63, 0, 1), (0, 63, 1, 2)):
        s.ledger(0x75, *entry)
    s.ledger(0x74, 64, 64, 1, 3)
    s.part("a call of each pair, yielding ones first: handed over to Secure and finished where handler 3 has it, else -1, or what handlers 0, 1 and 2 answer to 80000001, C2000012 and 84000000")
    for kind in (0, 1):
        for owner in range(64):
            call(s, kind, owner)
    return s


def enter(s, pairs):
    for kind, owner in pairs:
        s.ledger(0, owner, owner, kind, handler(kind, owner))


def call(s, kind, owner):
    if (kind, owner) in TOLD:
        _, identifier, argument, answer = TOLD[kind, owner]
        s.call("N0", answer, identifier, argument)
        return
    identifier = kind << 31 | 1 << 30 | owner << 24 | 1
    if handler(kind, owner) == 3:
        s.call("N0", "S", identifier)
        s.call("S0", "N", FINISH, kind, owner)
    else:
        s.call("N0", -1, identifier)
