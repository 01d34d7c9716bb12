"""Lab 1: texts, bytes and numbers for programs that run alone."""

CHARACTERS = range(0x21, 0x7F)
WORDS = 32  # bits


def text(draw, length, characters=CHARACTERS):
    return bytes(draw.choice(characters) for _ in range(length))


def length_case(it):
    return {"input": {"hex": (it + b"\0").hex()}, "want": {"EAX": len(it)}}


def lengths(draw):
    """Texts of several lengths; one has a byte over 7F before its end, one has all the room."""
    yield length_case(text(draw, 1))
    for _ in range(2):
        yield length_case(text(draw, draw.randint(3, 40)))
    over = text(draw, draw.randint(4, 20)) + bytes([draw.randint(0x80, 0xFF)]) + text(draw, draw.randint(4, 20))
    yield length_case(over)
    yield length_case(text(draw, 63, range(1, 256)))


def empty_lengths(draw):
    """The empty text, and one that isn't: for a program that counts nothing the first alone would be right."""
    yield length_case(b"")
    yield length_case(text(draw, draw.randint(12, 40)))


def checksum(data):
    total = 0
    for it in data:
        total = ((total << 1 | total >> (WORDS - 1)) + it) % (1 << WORDS)
    return total


def sum_case(data, behind=b""):
    return {"input": {"hex": (len(data).to_bytes(4, "little") + data + behind).hex()}, "want": {"EAX": checksum(data)}}


def small_sums(draw):
    yield sum_case(text(draw, 1, range(1, 0x80)))
    yield sum_case(text(draw, draw.randint(3, 9), range(1, 0x80)))
    yield sum_case(text(draw, draw.randint(38, 50), range(0x20, 0x80)))


def large_sums(draw):
    yield sum_case(text(draw, draw.randint(3, 9), range(0x80, 0x100)))
    yield sum_case(text(draw, 60, range(0x40, 0x100)))


def empty_sums(draw):
    """No byte, and some: for a program that adds nothing the first alone would be right."""
    yield sum_case(b"", text(draw, 3, range(0x80, 0x100)))
    yield sum_case(text(draw, draw.randint(12, 30), range(1, 0x80)))


def sort_case(numbers):
    rest = [0] * (15 - len(numbers))
    return {"input": {"dwords": [len(numbers), *numbers, *rest]},
            "want": {"dwords": [len(numbers), *sorted(numbers), *rest]}}


def short_sorts(draw):
    for count in (3, draw.randint(4, 6), draw.randint(7, 9), 1, 0):
        yield sort_case(draw.sample(range(1, 1000), count))


def signed_sorts(draw):
    """Numbers below 0 and the ends of what there is; numbers that are there several times."""
    yield sort_case(draw.sample([-(1 << 31), (1 << 31) - 1, -1, 0, draw.randint(1, 99), -draw.randint(2, 99)], 6))
    low, high = -draw.randint(1, 99), draw.randint(1, 99)
    yield sort_case(draw.sample([low, low, high, high, high, draw.randint(-99, 99)], 6))


def long_sorts(draw):
    yield sort_case(draw.sample(range(-999, 1000), 15))
    yield sort_case(sorted(draw.sample(range(-999, 1000), 15), reverse=True))
