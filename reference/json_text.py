"""JSON texts (RFC 8259), nested at most 127 deep."""

import json
import math

from text import Fault

MAXIMUM_DEPTH = 127
LEAST_INTEGER, LARGEST_INTEGER = -(1 << 63), (1 << 64) - 1
LONGEST_INTEGER = 20


class Members(dict):
    """The members of an object, the last one of each name; `pairs` has all of them in their order."""

    def __init__(self, pairs: list[tuple]):
        super().__init__(pairs)
        self.pairs = pairs

    def every(self) -> list:
        """All names and values."""
        return [part for pair in self.pairs for part in pair]


class Integer(int):
    """An integer of 64 bits, with the digits of its text."""

    digits: str


class Float(float):
    """A number that is no integer of 64 bits, with the digits of its text."""

    digits: str


def refuse(_name: str):
    """Refuses the names of numbers that JSON does not have."""
    raise Fault("json")


def number(digits: str) -> Float:
    """A number that is no integer of 64 bits."""
    value = Float(digits)
    value.digits = digits
    if math.isinf(value):
        raise Fault("json")
    return value


def integer(digits: str) -> Integer | Float:
    """A number without fraction and exponent, an int if it is an integer of 64 bits."""
    if len(digits) > LONGEST_INTEGER or digits == "-0":
        return number(digits)
    value = Integer(digits)
    value.digits = digits
    return value if LEAST_INTEGER <= value <= LARGEST_INTEGER else number(digits)


def depth(value) -> int:
    """How deep objects and arrays are nested in a value; raises Fault for half surrogates."""
    if isinstance(value, str):
        try:
            value.encode()
        except UnicodeEncodeError:
            raise Fault("json")
    if isinstance(value, Members):
        value = value.every()
    return 1 + max(map(depth, value), default=0) if isinstance(value, list) else 0


def written_json(value) -> str:
    """The text of a value, without spaces and with the shortest escapes; a number that was read has the digits of its text."""
    if isinstance(value, Members):
        return "{%s}" % ",".join(f"{written_json(name)}:{written_json(part)}" for name, part in value.pairs)
    if isinstance(value, list):
        return "[%s]" % ",".join(map(written_json, value))
    if isinstance(value, (Integer, Float)):
        return value.digits
    return json.dumps(value, ensure_ascii=False)


def read_json(data: bytes):
    """The value of a JSON text; raises Fault."""
    try:
        value = json.loads(
            data.decode("utf-8"), parse_constant=refuse, parse_int=integer, parse_float=number,
            object_pairs_hook=Members,
        )
        if depth(value) > MAXIMUM_DEPTH:
            raise Fault("json")
    except (ValueError, RecursionError):
        raise Fault("json")
    return value
