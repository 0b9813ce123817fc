"""Numbers, hexadecimal digits and random words, as they are written."""

from itertools import islice
from typing import Iterator, NamedTuple

MASK = (1 << 64) - 1
MAXIMUM_SEEDED_WORDS = 1_000_000
HEXADECIMAL = frozenset(b"0123456789abcdefABCDEF")
DECIMAL = frozenset(b"0123456789")


def read_number(text: bytes, maximum: int) -> int | None:
    """The number that the text writes, if it is one and is at most the maximum."""
    if not 1 <= len(text) <= 20 or not DECIMAL.issuperset(text):
        return None
    if len(text) > 1 and text.startswith(b"0"):
        return None
    number = int(text)
    return number if number <= maximum else None


def read_digits(text: bytes, length: int) -> bytes | None:
    """The bytes that the text writes, if it has two hexadecimal digits for each of them."""
    if len(text) != 2 * length or not HEXADECIMAL.issuperset(text):
        return None
    return bytes.fromhex(text.decode())


def read_hexadecimal(text: bytes) -> bytes | None:
    """The bytes that a field HEX writes."""
    return b"" if text == b"-" else read_digits(text, len(text) // 2) if text else None


def hexadecimal(data: bytes) -> str:
    """The bytes as a field HEX."""
    return data.hex() if data else "-"


class Fault(Exception):
    """What is read is refused; the text says why."""


class Xoshiro:
    """Xoshiro256++, with the state that `seed_from_u64` of `rand_xoshiro` gives it."""

    def __init__(self, seed: int):
        state = seed
        words = []
        for _ in range(4):
            state = state + 0x9E3779B97F4A7C15 & MASK
            word = state
            word = (word ^ word >> 30) * 0xBF58476D1CE4E5B9 & MASK
            word = (word ^ word >> 27) * 0x94D049BB133111EB & MASK
            words.append(word ^ word >> 31)
        self.state = tuple(words)

    def words(self) -> Iterator[int]:
        """The words of 64 bits, one after another."""
        first, second, third, fourth = self.state
        while True:
            sum_of_ends = first + fourth & MASK
            yield ((sum_of_ends << 23 | sum_of_ends >> 41) + first) & MASK
            shifted = second << 17 & MASK
            third ^= first
            fourth ^= second
            second ^= third
            first ^= fourth
            third ^= shifted
            fourth = (fourth << 45 | fourth >> 19) & MASK


class Words(NamedTuple):
    """A list of random words, whose items are taken once."""

    count: int
    source: Iterator[int]


def seeded_words(seed: int, count: int) -> Words:
    """The first `count` words of a seed."""
    return Words(count, islice(Xoshiro(seed).words(), count))


def read_words(text: bytes) -> Words | None:
    """The random words that a field W writes."""
    if text == b"-":
        return Words(0, iter(()))
    if text.startswith(b"@"):
        seed_text, colon, count_text = text[1:].partition(b":")
        seed = read_number(seed_text, MASK)
        count = read_number(count_text, MAXIMUM_SEEDED_WORDS)
        if not colon or seed is None or count is None:
            return None
        return seeded_words(seed, count)
    words = [read_number(word, MASK) for word in text.split(b",")]
    return None if None in words else Words(len(words), iter(words))
