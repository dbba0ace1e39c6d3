"""Packages from a seed: good ones of many kinds, then damage, with undamaged ones among them.

`make(seed, known)` gives (kinds, package, questions): the names of what was done, the bytes, and
the identifiers to ask for. `edges(package)` names the edges of the rules that a package lies on.
"""

import random

from reader import ENTRY, HEADER, MOST_BYTES, MOST_IMAGES, NAME, ZERO, number_at
from writer import entry, write

WRAP = 1 << 64


# Good packages.

def some_identifiers(chance, known, count):
    """Different identifiers, none all-zero: known, random, near to each other, mostly zero."""
    found = []
    style = chance.choice(("known", "random", "near", "sparse", "mixed", "mixed"))
    while len(found) < count:
        how = chance.choice(("known", "random", "near", "sparse")) if style == "mixed" else style
        if how == "known" and known:
            new = chance.choice(known)
            if new in found or chance.random() < 0.05:
                new = one_bit_off(chance, new)
        elif how == "near" and found:
            new = one_bit_off(chance, chance.choice(found))
        elif how == "sparse":
            place = chance.randrange(16)
            new = bytes(place) + bytes((chance.randrange(1, 256),)) + bytes(15 - place)
        else:
            new = chance.randbytes(16)
        if new != ZERO and new not in found:
            found.append(new)
    return found


def one_bit_off(chance, identifier):
    changed = bytearray(identifier)
    changed[chance.randrange(16)] ^= 1 << chance.randrange(8)
    return bytes(changed)


def some_flags(chance):
    return chance.choice((0, 0, 1, 1 << 32, 1 << 63, WRAP - 1, chance.getrandbits(64)))


def some_serial(chance):
    one_byte = chance.randrange(1, 256) << 8 * chance.randrange(4)
    return chance.choice((0x12345678, 1, 0xFFFFFFFF, one_byte, one_byte))


def some_count(chance):
    return chance.choice((0, 1, 1, 2, 2, 3, 4, 5, 6, chance.randrange(7, 34),
                          chance.randrange(34, 64), 63, MOST_IMAGES))


def some_body(chance, table_end):
    """How many bytes follow the table: none, few, many, or up to exactly 65536 in all."""
    rest = MOST_BYTES - table_end
    return chance.choice((0, chance.randrange(1, 4), chance.randrange(64), chance.randrange(600),
                          chance.randrange(600), chance.randrange(4096), chance.randrange(rest + 1),
                          rest - 1, rest))


def packed(chance, identifiers):
    """As the writer lays it."""
    table_end = HEADER + ENTRY * (len(identifiers) + 1)
    body = some_body(chance, table_end)
    lent = chance.randbytes(body)
    cuts = sorted(chance.randrange(body + 1) for _ in identifiers)
    images = []
    left = 0
    for identifier, right in zip(identifiers, cuts[:-1] + [body]):
        size = right - left
        start = left if chance.random() < 0.7 else chance.randrange(body - size + 1)
        images.append((identifier, start, size, some_flags(chance)))
        left = right
    room = bytearray(MOST_BYTES)
    length = write(room, some_serial(chance), some_flags(chance), images, lent)
    return room[:length]


def loose(chance, identifiers):
    """Gaps, any order, images of size 0 anywhere inside, junk in the end entry's other fields."""
    table_end = HEADER + ENTRY * (len(identifiers) + 1)
    length = table_end + some_body(chance, table_end)
    cuts = sorted(chance.randrange(table_end, length + 1) for _ in range(2 * len(identifiers)))
    if cuts and chance.random() < 0.5:
        cuts[0] = table_end
    if cuts and chance.random() < 0.5:
        cuts[-1] = length
    for place in range(1, len(cuts) - 1, 2):
        if chance.random() < 0.3:
            cuts[place] = cuts[place + 1]
    places = [(cuts[at], cuts[at + 1] - cuts[at]) for at in range(0, len(cuts), 2)]
    for at in range(len(places)):
        if chance.random() < 0.15:
            places[at] = (chance.choice((0, 1, table_end - 1, table_end, length - 1, length,
                                         chance.randrange(length + 1))), 0)
    if chance.random() < 0.7:
        chance.shuffle(places)
    package = bytearray(NAME.to_bytes(4, "little") + some_serial(chance).to_bytes(4, "little")
                        + some_flags(chance).to_bytes(8, "little"))
    for identifier, (offset, size) in zip(identifiers, places):
        package += entry(identifier, offset, size, some_flags(chance))
    package += ZERO + (chance.randbytes(24) if chance.random() < 0.5 else bytes(24))
    return package + chance.randbytes(length - len(package))


# Damage. Each takes (chance, package), changes the package in place, and gives its name.

def places_of(package):
    """Where the entries before the end entry lie, as far as there are any; not judged."""
    places = []
    position = HEADER
    while (position + ENTRY <= len(package) and len(places) < 70
           and package[position:position + 16] != ZERO):
        places.append(position)
        position += ENTRY
    return places


def put(package, position, value):
    package[position:position + 8] = (value % WRAP).to_bytes(8, "little")


def span_at(package, place):
    return number_at(package, place + 16, 8), number_at(package, place + 24, 8)


def some_edge(chance, package, places, own):
    """A place where a rule changes its answer, or one beside it."""
    table_end = HEADER + ENTRY * (len(places) + 1)
    edge = [0, HEADER, table_end, table_end, table_end - ENTRY, len(package), len(package)]
    others = [place for place in places if place != own]
    if others:
        offset, size = span_at(package, chance.choice(others))
        edge += [offset, offset, offset + size, offset + size]
    return chance.choice(edge) + chance.choice((-1, 0, 0, 1))


def flip_anywhere(chance, package):
    for _ in range(chance.randrange(1, 4)):
        package[chance.randrange(len(package))] ^= 1 << chance.randrange(8)
    return "bits anywhere"


def flip_table(chance, package):
    table_end = min(len(package), HEADER + ENTRY * (len(places_of(package)) + 1))
    package[chance.randrange(table_end)] ^= 1 << chance.randrange(8)
    return "bit in the table"


def change_name(chance, package):
    if chance.random() < 0.2:
        package[:4] = package[3::-1]
    else:
        package[chance.randrange(4)] ^= 1 << chance.randrange(8)
    return "name"


def change_serial(chance, package):
    package[4:8] = bytes(4)
    if chance.random() < 0.4:
        package[chance.randrange(4, 8)] = chance.randrange(1, 256)
    return "serial"


def change_flags(chance, package):
    places = places_of(package)
    place = chance.choice(places) + 32 if places and chance.random() < 0.5 else 8
    package[place:place + 8] = chance.randbytes(8)
    return "flags"


def junk_in_end(chance, package):
    end = HEADER + ENTRY * len(places_of(package))
    if end + ENTRY <= len(package):
        package[end + 16:end + ENTRY] = chance.choice((chance.randbytes(24), b"\xff" * 24))
    return "end entry's other fields"


def end_gone(chance, package):
    """The end entry is cut out, given one bit, or drowned in bytes that never end a table."""
    end = HEADER + ENTRY * len(places_of(package))
    if end + 16 > len(package):
        return "end entry gone"
    how = chance.randrange(4)
    if how == 0:
        del package[end:end + ENTRY]
    elif how == 1:
        package[end + chance.randrange(16)] ^= 1 << chance.randrange(8)
    elif how == 2:
        package[end:] = bytes(chance.choices(range(1, 256), k=len(package) - end))
    else:
        del package[end + chance.choice((0, 1, 15, 16, 17, 24, 39)):]
    return "end entry gone"


def set_offset(chance, package):
    places = places_of(package)
    if not places:
        return "offset at an edge"
    place = chance.choice(places)
    _, size = span_at(package, place)
    value = some_edge(chance, package, places, place)
    if chance.random() < 0.5:
        value -= size
    if chance.random() < 0.2:
        value = chance.choice((WRAP - 1, WRAP // 2, WRAP // 2 - 1, 1 << 32, (1 << 32) + value,
                               WRAP - size, WRAP - size - 1, WRAP - size + 1, WRAP // 2 + value))
    put(package, place + 16, value)
    return "offset at an edge"


def set_size(chance, package):
    places = places_of(package)
    if not places:
        return "size at an edge"
    place = chance.choice(places)
    offset, _ = span_at(package, place)
    value = some_edge(chance, package, places, place) - offset
    if chance.random() < 0.25:
        value = chance.choice((0, 1, WRAP - 1, WRAP // 2, 1 << 32, 1 << 16, WRAP - offset,
                               WRAP - offset - 1, WRAP - offset + 1, (1 << 32) + value))
    put(package, place + 24, value)
    return "size at an edge"


def wrap_sum(chance, package):
    """Offset and size whose sum is 2^64 or more, and small were it to wrap."""
    places = places_of(package)
    if places:
        place = chance.choice(places)
        table_end = HEADER + ENTRY * (len(places) + 1)
        if chance.random() < 0.5:
            offset = chance.choice((table_end, len(package), len(package) - 1,
                                    chance.randrange(len(package) + 1)))
        else:
            offset = chance.choice((WRAP - 1, WRAP // 2, chance.randrange(WRAP)))
        sum_wrapped = chance.choice((0, 1, table_end, len(package), len(package) - 1, len(package) + 1,
                                     chance.randrange(len(package) + 1), WRAP - offset, -1))
        put(package, place + 16, offset)
        put(package, place + 24, sum_wrapped - offset)
    return "sum that wraps"


def empty_image(chance, package):
    """Size 0, at the edges of what is inside, and over the table and other images."""
    places = places_of(package)
    if places:
        place = chance.choice(places)
        put(package, place + 24, 0)
        put(package, place + 16, chance.choice((
            0, 1, len(package) - 1, len(package), len(package), len(package) + 1, WRAP - 1, WRAP // 2,
            1 << 32, some_edge(chance, package, places, place), chance.randrange(len(package)))))
    return "size 0 at an edge"


def meet(chance, package):
    """One image laid against, over, inside or around another."""
    places = places_of(package)
    solid = [place for place in places if 0 < span_at(package, place)[1] < MOST_BYTES]
    if len(solid) < 2:
        return "two images meet"
    place, other = chance.sample(solid, 2)
    offset, size = span_at(package, other)
    mine = chance.choice((1, 2, size, span_at(package, place)[1]))
    put(package, place + 24, mine)
    put(package, place + 16, chance.choice((
        offset - mine, offset - mine + 1, offset + size, offset + size - 1, offset,
        chance.randrange(offset, offset + size))))
    return "two images meet"


def over_table(chance, package):
    """One image against or over the end of the table."""
    places = places_of(package)
    if places:
        place = chance.choice(places)
        table_end = HEADER + ENTRY * (len(places) + 1)
        put(package, place + 16, chance.choice((
            table_end - 1, table_end, table_end, table_end - ENTRY, 0, place,
            chance.randrange(table_end))))
        put(package, place + 24, chance.choice((0, 1, 1, 2, span_at(package, place)[1])))
    return "image at the table"


def truncate(chance, package):
    places = places_of(package)
    table_end = HEADER + ENTRY * (len(places) + 1)
    cuts = [0, 1, 15, 15, 16, 17, 31, 32, 55, 55, 56, 57, len(package) - 1, len(package) - 1,
            table_end - 25, table_end - 24, table_end - 23, table_end - 1, table_end, table_end + 1,
            chance.randrange(len(package))]
    if places:
        offset, size = span_at(package, chance.choice(places))
        cuts += [offset + size - 1, offset + size, offset + size, offset + size + 1]
    del package[max(0, chance.choice(cuts)):]
    return "cut short"


def extend(chance, package):
    length = chance.choice((len(package) + 1, len(package) + chance.randrange(1, 64), 65535, MOST_BYTES,
                            MOST_BYTES, MOST_BYTES + 1, MOST_BYTES + 1,
                            MOST_BYTES + chance.randrange(1, 9000), 2 * MOST_BYTES))
    more = max(0, length - len(package))
    package += bytes(more) if chance.random() < 0.5 else chance.randbytes(more)
    return "bytes added"


def two_places(chance, places):
    """Two entries: side by side, first and last, or any."""
    first = chance.randrange(len(places) - 1)
    return chance.choice(((places[first], places[first + 1]), (places[0], places[-1]),
                          tuple(chance.sample(places, 2))))


def twin(chance, package):
    """An identifier copied over another, near or far; at times with one bit changed again."""
    places = places_of(package)
    if len(places) > 1:
        place, other = two_places(chance, places)
        package[other:other + 16] = package[place:place + 16]
        if chance.random() < 0.4:
            package[other:other + 16] = one_bit_off(chance, package[place:place + 16])
    return "twin identifier"


def copy_entry(chance, package):
    """A whole entry copied over another; at times with one bit of the identifier changed again."""
    places = places_of(package)
    if len(places) > 1:
        place, other = two_places(chance, places)
        package[other:other + ENTRY] = package[place:place + ENTRY]
        if chance.random() < 0.5:
            package[other:other + 16] = one_bit_off(chance, package[place:place + 16])
    return "twin entry"


def swap_entries(chance, package):
    places = places_of(package)
    if len(places) > 1:
        place, other = two_places(chance, places)
        kept = package[place:place + ENTRY]
        package[place:place + ENTRY] = package[other:other + ENTRY]
        package[other:other + ENTRY] = kept
    return "entries swapped"


def zero_identifier(chance, package):
    """An end entry before the last: the table is shorter, the entries after it are no entries."""
    places = places_of(package)
    if places:
        place = chance.choice(places)
        package[place:place + 16] = ZERO
        if chance.random() < 0.3:
            package[place + chance.randrange(16)] = chance.randrange(1, 256)
    return "zero identifier"


def long_table(chance, package):
    """About 64 entries in a new table, the end entry whole, cut or missing."""
    count = chance.choice((63, 64, 64, 65, 65, 66))
    identifiers = some_identifiers(chance, (), count)
    table_end = HEADER + ENTRY * (count + 1)
    body = chance.choice((0, 1, 100))
    del package[HEADER:]
    for identifier in identifiers:
        package += entry(identifier, chance.choice((0, table_end, table_end + body)), 0, 0)
    package += bytes(ENTRY) + chance.randbytes(body)
    if chance.random() < 0.3:
        del package[table_end - chance.choice((0, 1, 23, 24, 25, 40)):]
    return "about 64 entries"


def break_places(chance, package):
    places = places_of(package)
    if places:
        place = chance.choice(places)
        offset = chance.choice((len(package), len(package), WRAP - 1, HEADER + ENTRY * len(places)))
        put(package, place + 16, offset)
        put(package, place + 24, chance.choice((1, 1, WRAP - 1)))


def break_twins(chance, package):
    places = places_of(package)
    if len(places) > 1:
        place, other = two_places(chance, places)
        package[other:other + 16] = package[place:place + 16]


def break_end(chance, package):
    end = HEADER + ENTRY * len(places_of(package))
    package[end:] = bytes(chance.choices(range(1, 256), k=len(package) - end))


def break_header(chance, package):
    if chance.random() < 0.5:
        package[chance.randrange(4)] ^= 1 << chance.randrange(8)
    else:
        package[4:8] = bytes(4)


def break_length(chance, package):
    if chance.random() < 0.5:
        del package[chance.choice((15, 15, 14, 4)):]
    else:
        package += bytes(max(0, MOST_BYTES + 1 - len(package)))


def two_rules(chance, package):
    """Two rules broken at once, where the lower number is the answer."""
    breaks = (break_places, break_twins, break_end, break_header, break_length)
    first = chance.randrange(len(breaks) - 1)
    second = chance.choice((first + 1, chance.randrange(first + 1, len(breaks))))
    breaks[first](chance, package)
    breaks[second](chance, package)
    return "two rules broken"


DAMAGES = (flip_anywhere, flip_table, change_name, change_serial, change_flags, junk_in_end, end_gone,
           end_gone, set_offset, set_offset, set_offset, set_size, set_size, set_size, wrap_sum,
           wrap_sum, empty_image, empty_image, meet, meet, over_table, over_table, truncate, truncate,
           truncate, extend, extend, twin, twin, twin, copy_entry, copy_entry, swap_entries,
           zero_identifier, long_table, long_table, two_rules, two_rules, two_rules)


def make(seed, known):
    """The package of this seed: (kinds, package, questions)."""
    chance = random.Random(seed)
    identifiers = some_identifiers(chance, known, some_count(chance))
    package = bytearray(chance.choice((packed, loose, loose))(chance, identifiers))
    kinds = []
    for _ in range(chance.choice((0, 0, 1, 1, 1, 1, 1, 1, 2, 3))):
        if len(package) >= HEADER:
            kinds.append(chance.choice(DAMAGES)(chance, package))
    return kinds or ["undamaged"], bytes(package), questions(chance, package, identifiers, known)


def questions(chance, package, identifiers, known):
    """Identifiers to ask for: present, present before the damage, absent, all-zero."""
    asked = [ZERO]
    places = places_of(package)
    if places:
        place = chance.choice((places[0], places[-1], chance.choice(places), chance.choice(places)))
        present = bytes(package[place:place + 16])
        asked += [present, one_bit_off(chance, present)]
    else:
        asked.append(chance.randbytes(16))
    if identifiers and chance.random() < 0.8:
        asked.append(chance.choice(identifiers))
    else:
        asked.append(chance.choice(known) if known else chance.randbytes(16))
    return asked


# Which edges a package lies on.

def edges(package):
    """The names of the edges of the rules that this package lies on, either side."""
    length = len(package)
    found = set()
    if length in (15, 16, 55, 56, 65535, 65536, 65537):
        found.add(f"length {length}")
    if not HEADER <= length <= MOST_BYTES:
        return found
    name = number_at(package, 0, 4) ^ NAME
    if name.bit_count() == 1:
        found.add("name one bit off")
    serial = bytes(package[4:8])
    if sum(byte != 0 for byte in serial) == 1:
        found.add("serial with one nonzero byte")
    if serial == bytes(4):
        found.add("serial 0")
    places = places_of(package)
    end = HEADER + ENTRY * len(places)
    if end + 16 <= length < end + ENTRY and package[end:end + 16] == ZERO:
        found.add("end entry begun, not whole")
    if end + ENTRY == length and package[end:end + 16] == ZERO:
        found.add("nothing after the end entry")
    if end + ENTRY <= length and len(places) in (0, 64, 65):
        found.add(f"end entry after {len(places)} entries")
    if end + ENTRY > length or len(places) > MOST_IMAGES:
        return found
    table_end = end + ENTRY
    identifiers = [number_at(package, place, 16) for place in places]
    for index, one in enumerate(identifiers):
        for other_index in range(index):
            apart = index - other_index
            differ = (one ^ identifiers[other_index]).bit_count()
            if differ == 1:
                found.add("identifiers one bit apart")
            elif differ == 0:
                found.add("twins side by side" if apart == 1 else
                          "twins 32 or more entries apart" if apart >= 32 else "twins apart")
    spans = [span_at(package, place) for place in places]
    solid = [(offset, offset + size) for offset, size in spans if size]
    for offset, size in spans:
        if offset + size >= WRAP:
            found.add("sum of 2^64 or more")
            if (offset + size) % WRAP <= length:
                found.add("sum of 2^64 or more, inside were it to wrap")
        elif size:
            if offset + size in (length, length + 1):
                found.add("image ends at the package's end" if offset + size == length
                          else "image ends one past the package's end")
            if offset in (table_end, table_end - 1):
                found.add("image begins at the table's end" if offset == table_end
                          else "image begins on the table's last byte")
        else:
            if offset in (length, length + 1):
                found.add("size 0 at the package's end" if offset == length
                          else "size 0 one past the package's end")
            if offset < table_end:
                found.add("size 0 over the table")
            if any(start < offset < stop for start, stop in solid):
                found.add("size 0 inside another image")
    for index, (start, stop) in enumerate(solid):
        for other_start, other_stop in solid[:index]:
            shared = min(stop, other_stop) - max(start, other_start)
            if shared == 0:
                found.add("images touch")
            elif shared == 1:
                found.add("images share one byte")
    return found
