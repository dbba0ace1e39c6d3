"""Writer of TF-A's Firmware Image Package up to 64 KiB: the rules in order, then the bytes."""

from reader import ENTRY, HEADER, MOST_BYTES, MOST_IMAGES, NAME, ZERO, Refusal


def judge_serial(serial):
    """82: serial 0."""
    if serial == 0:
        raise Refusal(82)


def judge_images(images):
    """83: over 64 images, or an all-zero identifier."""
    if len(images) > MOST_IMAGES or any(identifier == ZERO for identifier, _, _, _ in images):
        raise Refusal(83)


def judge_twins(images):
    """84: an identifier twice."""
    if len({identifier for identifier, _, _, _ in images}) != len(images):
        raise Refusal(84)


def judge_lent(images, lent):
    """85: an image outside the image bytes lent."""
    if any(start + size > len(lent) for _, start, size, _ in images):
        raise Refusal(85)


def judge_room(length, room):
    """87: over 65536 bytes, or no room."""
    if length > MOST_BYTES or length > len(room):
        raise Refusal(87)


def write(room, serial, flags, images, lent):
    """Writes a package to the front of `room` (a bytearray) and gives its length.

    Each image is (identifier, start, size, flags): the bytes lent[start : start + size].
    A refused write changes no byte, and bytes past the package stay.
    """
    judge_serial(serial)
    judge_images(images)
    judge_twins(images)
    judge_lent(images, lent)
    table_end = HEADER + ENTRY * (len(images) + 1)
    length = table_end + sum(size for _, _, size, _ in images)
    judge_room(length, room)

    table = NAME.to_bytes(4, "little") + serial.to_bytes(4, "little") + flags.to_bytes(8, "little")
    body = b""
    for identifier, start, size, image_flags in images:
        table += entry(identifier, table_end + len(body), size, image_flags)
        body += bytes(lent[start:start + size])
    table += entry(ZERO, length, 0, 0)
    room[:length] = table + body
    return length


def entry(identifier, offset, size, flags):
    return identifier + b"".join(value.to_bytes(8, "little") for value in (offset, size, flags))
