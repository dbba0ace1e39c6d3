"""The two conversions of request Q-6, on lists: an owner a byte, and sixteen four-bit marks a number.

Each takes the page count and both lent spaces and gives the status and both spaces afterwards.
The lists that are given are left alone. Statuses are hexadecimal, 0 where it was done.
"""

ROOT, SECURE, NORMAL, REALM = range(4)
MARK_OF = {SECURE: 0x8, NORMAL: 0x9, ROOT: 0xA, REALM: 0xB}
OWNER_OF = {mark: owner for owner, mark in MARK_OF.items()}
MARKS = 16
MOST_PAGES = 4096


def numbers_for(pages):
    """How many numbers hold so many marks: a number that is begun is needed whole."""
    whole, rest = divmod(pages, MARKS)
    return whole + (1 if rest else 0)


def marks_in(numbers):
    """All marks of some numbers, the lowest page first."""
    return [number // 16 ** place % 16 for number in numbers for place in range(MARKS)]


def number_of(marks):
    """Up to sixteen marks in one number; those that are missing are 0."""
    return sum(mark * 16 ** place for place, mark in enumerate(marks))


def is_88(pages, old, new):
    """The page count is not 1 to 4096, or either lent space is too small."""
    if not 1 <= pages <= MOST_PAGES:
        return True
    return len(old) < pages or len(new) < numbers_for(pages)


def pack(pages, old, new):
    """Bytes to numbers."""
    if is_88(pages, old, new):
        return 0x88, list(old), list(new)
    if any(owner not in MARK_OF for owner in old[:pages]):
        return 0x89, list(old), list(new)
    marks = [MARK_OF[owner] for owner in old[:pages]]
    packed = [number_of(marks[first:first + MARKS]) for first in range(0, pages, MARKS)]
    return 0, list(old), packed + list(new[len(packed):])


def unpack(pages, old, new):
    """Numbers to bytes."""
    if is_88(pages, old, new):
        return 0x88, list(old), list(new)
    marks = marks_in(new[:numbers_for(pages)])
    if any(mark not in OWNER_OF for mark in marks[:pages]) or any(marks[pages:]):
        return 0x89, list(old), list(new)
    return 0, [OWNER_OF[mark] for mark in marks[:pages]] + list(old[pages:]), list(new)
