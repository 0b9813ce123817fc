"""Lines of a log: how they are read, and their fields."""

from functools import cache

import addresses
import text
from folder import Stop

MAXIMUM_LINE = 2_000_000
MAXIMUM_LOG = 1 << 30
LARGEST_TIME = 4294967295


def read_lines(read):
    """Gives the number and the bytes of each line of a log; `read` gives its next bytes."""
    count = total = 0
    rest = b""
    while True:
        try:
            piece = read()
        except OSError:
            raise Stop(7, "log cannot be read")
        if not piece:
            break
        too_long = len(piece) > MAXIMUM_LOG - total
        piece = piece[:MAXIMUM_LOG - total]
        total += len(piece)
        *whole, rest = (rest + piece).split(b"\n")
        for line in whole:
            count += 1
            yield count, checked(count, line)
        checked(count + 1, rest)
        if too_long:
            raise Stop(10, "log too long")
    if rest:
        yield count + 1, rest


def checked(count: int, line: bytes) -> bytes:
    """A line that is not too long."""
    if len(line) > MAXIMUM_LINE:
        raise Stop(13, f"log line {count}: too long")
    return line


def reader(read, fault: str):
    """The reader of a field: what `read` gives of it, or the fault if that is None."""

    def read_or_fail(field: bytes):
        value = read(field)
        if value is None:
            raise text.Fault(fault)
        return value

    return read_or_fail


def number(maximum: int, minimum: int = 0):
    """The reader of a field that is a number."""

    def read(field: bytes) -> int | None:
        value = text.read_number(field, maximum)
        return None if value is None or value < minimum else value

    return reader(read, "number")


@cache
def one_of(*names: str):
    """The reader of a field that is one of some names."""
    return reader({name.encode(): name for name in names}.get, "word")


def some_of(*names: str):
    """The reader of a field that is `all`, or some names with commas between them."""

    def read(field: bytes):
        found = [one_of(*names)(part) for part in field.split(b",")]
        return found if len(set(found)) == len(found) else None

    return lambda field: "all" if field == b"all" else reader(read, "word")(field)


address = reader(addresses.read_address, "peer")
peer = reader(addresses.read_peer, "peer")
payload = reader(text.read_hexadecimal, "hex")
words = reader(text.read_words, "words")
time = number(LARGEST_TIME)
wide = number(text.MASK)
networks = some_of(*addresses.NETWORKS)
classes = some_of(*addresses.NETWORKS, addresses.UNROUTABLE)


def read_line(line: bytes, kinds: dict[str, tuple]) -> tuple[str, list]:
    """The keyword of a line and the values of its fields; raises Fault.

    `kinds` has the readers of the fields of each keyword.
    """
    keyword, *fields = line.split(b" ")
    name = one_of(*kinds)(keyword)
    readers = kinds[name]
    if len(fields) != len(readers):
        raise text.Fault("fields")
    return name, [read(field) for read, field in zip(readers, fields)]
