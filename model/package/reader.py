"""Reader of TF-A's Firmware Image Package up to 64 KiB: one function for each rule, in order.

Every rule takes the whole package, judges it alone, and raises Refusal with its number.
All sums are exact: the numbers here never wrap.
"""

HEADER = 16
ENTRY = 40
MOST_BYTES = 65536
MOST_IMAGES = 64
NAME = 0xAA640001
ZERO = bytes(16)


class Refusal(Exception):
    """A refusal; `number` is the status, 81 to 87."""

    def __init__(self, number):
        super().__init__(number)
        self.number = number


class Image:
    """One entry of the table."""

    def __init__(self, identifier, offset, size, flags):
        self.identifier = identifier
        self.offset = offset
        self.size = size
        self.flags = flags

    def end(self):
        return self.offset + self.size


def number_at(package, position, width):
    return int.from_bytes(package[position:position + width], "little")


def judge_length(package):
    """81: under 16 or over 65536 bytes."""
    if len(package) < HEADER or len(package) > MOST_BYTES:
        raise Refusal(81)


def judge_header(package):
    """82: another name, or serial 0. The flags are not judged."""
    if number_at(package, 0, 4) != NAME or number_at(package, 4, 4) == 0:
        raise Refusal(82)


def read_table(package):
    """83: no whole entry with the all-zero identifier after at most 64 others. Gives the images."""
    images = []
    for index in range(MOST_IMAGES + 1):
        position = HEADER + ENTRY * index
        if position + ENTRY > len(package):
            raise Refusal(83)
        identifier = bytes(package[position:position + 16])
        if identifier == ZERO:
            return images
        images.append(Image(identifier,
                            number_at(package, position + 16, 8),
                            number_at(package, position + 24, 8),
                            number_at(package, position + 32, 8)))
    raise Refusal(83)


def judge_twins(images):
    """84: an identifier twice."""
    if len({image.identifier for image in images}) != len(images):
        raise Refusal(84)


def judge_places(package, images):
    """85: an image outside the package, or one of nonzero size over the table or another such."""
    table_end = HEADER + ENTRY * (len(images) + 1)
    for image in images:
        if image.end() > len(package):
            raise Refusal(85)
    solid = [image for image in images if image.size > 0]
    for image in solid:
        if image.offset < table_end:
            raise Refusal(85)
    for index, image in enumerate(solid):
        for other in solid[:index]:
            if image.offset < other.end() and other.offset < image.end():
                raise Refusal(85)


def judge(package):
    """81 to 85, in order. Gives the images in the order of the table."""
    judge_length(package)
    judge_header(package)
    images = read_table(package)
    judge_twins(images)
    judge_places(package, images)
    return images


def find(package, identifier):
    """86: not found, or all-zero. Gives the part of the package that is the image, not a copy."""
    images = judge(package)
    if identifier != ZERO:
        for image in images:
            if image.identifier == identifier:
                return memoryview(package)[image.offset:image.end()]
    raise Refusal(86)


def text_of(identifier):
    """The identifier as 8-4-4-4-12 lower-case hexadecimal digits, bytes in file order."""
    digits = identifier.hex()
    return "-".join((digits[:8], digits[8:12], digits[12:16], digits[16:20], digits[20:]))


def listing(package, names):
    """The list, one line for each image; `names` gives the known names by identifier."""
    lines = []
    for image in judge(package):
        line = f"{text_of(image.identifier)} {image.offset} {image.size} {image.flags}"
        if image.identifier in names:
            line += " " + names[image.identifier]
        lines.append(line + "\n")
    return "".join(lines)
