"""Random damages to tables, some of which do no harm: one to three at once."""

PAGE = 4096
FIELD = 2**48 - PAGE


def places(numbers, dice):
    """An entry that is in use, mostly one of a table that is reached early, or any."""
    used = [place for place, entry in enumerate(numbers) if entry & 1]
    upper = [place for place in used if numbers[place] & 3 == 3 and not numbers[place] >> 10 & 1 or numbers[place] & 3 == 1]
    some = dice.choice((used, used, used, upper, upper, upper, range(4), range(min(1024, len(numbers)))))
    return dice.choice(some or range(len(numbers)))


def flip(numbers, at, dice):
    numbers[at] ^= 1 << dice.choice((0, 1, 2, 6, 7, 8, 10, 11, 12, 13, 20, 21, 30, 47, 48, 53, 54, 55, 63, dice.randrange(64)))


def kind(numbers, at, dice):
    numbers[at] = numbers[at] & ~3 | dice.randrange(4)


def lead(numbers, at, dice):
    """Another address: past the end, before it, of another entry, of the first table, or a page or slot further."""
    end = len(numbers) * 8 // PAGE * PAGE
    own = numbers[at] & FIELD
    to = dice.choice((end, end - PAGE, end + PAGE, 0, PAGE, numbers[places(numbers, dice)], FIELD, own + PAGE, own - PAGE, own + 2**21))
    numbers[at] = numbers[at] & ~FIELD | to & FIELD


def again(numbers, at, dice):
    """The table of another entry, or the first."""
    known = [entry for entry in numbers if entry & 0xFFF == 3] + [3]
    numbers[at] = dice.choice(known)


def rights(numbers, at, dice):
    numbers[at] ^= dice.choice((1 << 7, 1 << 54, 1 << 7 | 1 << 54))


def clear(numbers, at, dice):
    numbers[at] = dice.choice((0, numbers[at] & ~1, 2))


def copy(numbers, at, dice):
    """To its neighbour, or over another entry."""
    numbers[dice.choice((min(at + 1, len(numbers) - 1), at - 1, places(numbers, dice)))] = numbers[at]


def swap(numbers, at, dice):
    other = places(numbers, dice)
    numbers[at], numbers[other] = numbers[other], numbers[at]


def cut(numbers, at, dice):
    del numbers[dice.choice((len(numbers) - 1, len(numbers) - 512, 511, 512, max(len(numbers) - 513, 0))):]


def more(numbers, at, dice):
    numbers.extend(dice.getrandbits(64) for _ in range(dice.choice((1, 511, 512))))


def whole(numbers, at, dice):
    """A block in place of the third table, leading where its first page leads."""
    below = (numbers[at] & FIELD) // 8
    if numbers[at] & 3 == 3 and below < len(numbers):
        numbers[at] = numbers[below] & ~2


def any_number(numbers, at, dice):
    numbers[at] = dice.getrandbits(64)


DAMAGES = (flip, flip, flip, kind, lead, lead, again, again, rights, rights, clear, copy, swap, cut, more, whole, any_number)


def damage(numbers, dice):
    numbers = list(numbers)
    for _ in range(dice.choice((1, 1, 1, 2, 3))):
        if numbers:
            dice.choice(DAMAGES)(numbers, places(numbers, dice), dice)
    return numbers
