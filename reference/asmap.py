"""The file asmap.dat: its tree, the numbers of addresses, and its rows.

A tree is ("return", number), ("jump", left part, right part), ("match", bits, tree) or
("default", number, tree).
"""

from typing import NamedTuple

from addresses import IPV4, IPV4_IN_IPV6, IPV6, Address, carried_ipv4, class_of
from text import Fault

MAXIMUM_BYTES = 8_388_608
ADDRESS_BITS = 128
FIRST_NUMBER, NUMBER_DIGITS = 1, tuple(range(15, 25))
FIRST_MATCH, MATCH_DIGITS = 2, tuple(range(1, 9))
FIRST_JUMP, JUMP_DIGITS = 17, tuple(range(5, 31))


class Row(NamedTuple):
    """The number of all addresses that begin with certain bits, the others being zero."""

    bits: int
    length: int
    number: int


class Code:
    """The bits of a file, read from the start."""

    def __init__(self, data: bytes):
        self.data = data
        self.position = 0

    def bit(self) -> int:
        """The next bit."""
        if self.position >= 8 * len(self.data):
            raise Fault("insane")
        bit = self.data[self.position // 8] >> self.position % 8 & 1
        self.position += 1
        return bit

    def number(self, first: int, digits: tuple[int, ...]) -> int:
        """A number of the classes with these numbers of digits."""
        for count in digits[:-1]:
            if self.bit() == 0:
                break
            first += 1 << count
        else:
            count = digits[-1]
        value = 0
        for _ in range(count):
            value = 2 * value + self.bit()
        return first + value


def read_tree(code: Code, left: int, before: tuple = ("",)) -> tuple:
    """The tree that the code goes on with.

    `left` is how many address bits it may use, `before` the instruction directly before.
    """
    if code.bit() == 0:
        if before[0] == "default":
            raise Fault("insane")
        return ("return", code.number(FIRST_NUMBER, NUMBER_DIGITS))
    if code.bit() == 0:
        length = code.number(FIRST_JUMP, JUMP_DIGITS)
        end = code.position + length
        if left == 0:
            raise Fault("insane")
        left_part = read_tree(code, left - 1)
        if code.position != end:
            raise Fault("insane")
        return ("jump", left_part, read_tree(code, left - 1))
    if code.bit() == 0:
        bits = f"{code.number(FIRST_MATCH, MATCH_DIGITS):b}"[1:]
        two_short = before[0] == "match" and len(before[1]) < 8 and len(bits) < 8
        if len(bits) > left or two_short:
            raise Fault("insane")
        return ("match", bits, read_tree(code, left - len(bits), ("match", bits)))
    if before[0] == "default":
        raise Fault("insane")
    number = code.number(FIRST_NUMBER, NUMBER_DIGITS)
    return ("default", number, read_tree(code, left, ("default", number)))


def read_asmap(data: bytes) -> tuple:
    """The tree of a file; raises Fault."""
    code = Code(data)
    tree = read_tree(code, ADDRESS_BITS)
    if 8 * len(data) - code.position > 7:
        raise Fault("insane")
    while code.position < 8 * len(data):
        if code.bit():
            raise Fault("insane")
    return tree


def walk(tree: tuple, bits: str) -> int:
    """The answer of a tree for address bits."""
    default = 0
    while tree[0] != "return":
        if tree[0] == "jump":
            tree = tree[1 + int(bits[0])]
            bits = bits[1:]
        elif tree[0] == "default":
            _, default, tree = tree
        elif bits.startswith(tree[1]):
            bits = bits[len(tree[1]):]
            tree = tree[2]
        else:
            return default
    return tree[1]


class Asmap:
    """A file asmap.dat, or none."""

    def __init__(self, data: bytes | None):
        self.data = data
        self.tree = None if data is None else read_asmap(data)
        self.known: dict[Address, int] = {}

    def number_of(self, address: Address) -> int:
        """The AS number of an address, 0 if it has none."""
        if self.tree is None:
            return 0
        if address not in self.known:
            self.known[address] = self.looked_up(address)
        return self.known[address]

    def looked_up(self, address: Address) -> int:
        """The answer of the tree for an address."""
        own_class = class_of(address)
        if own_class == IPV4:
            data = IPV4_IN_IPV6 + carried_ipv4(address)
        elif own_class == IPV6:
            data = address.data
        else:
            return 0
        return walk(self.tree, f"{int.from_bytes(data, 'big'):0128b}")


NO_ASMAP = Asmap(None)


def rows_of(tree: tuple) -> list[Row]:
    """The rows of a tree."""
    rows: list[Row] = []

    def give(path: str, number: int, above: int) -> int:
        """Gives a path a row, unless the longest row above has the number."""
        if number != above:
            rows.append(Row(int(path.ljust(ADDRESS_BITS, "0"), 2), len(path), number))
        return number

    def go(tree: tuple, path: str, default: int, above: int):
        if tree[0] == "return":
            give(path, tree[1], above)
        elif tree[0] == "default":
            go(tree[2], path, tree[1], above)
        elif tree[0] == "match":
            go(tree[2], path + tree[1], default, give(path, default, above))
        else:
            go(tree[1], path + "0", default, above)
            go(tree[2], path + "1", default, above)

    go(tree, "", 0, 0)
    return rows


# The way from rows to the file.


def number_code(number: int, first: int, digits: tuple[int, ...]) -> str:
    """The bits of a number of the classes with these numbers of digits."""
    ones = 0
    while number >= first + (1 << digits[ones]):
        first += 1 << digits[ones]
        ones += 1
    mark = "1" * ones + ("0" if ones < len(digits) - 1 else "")
    return mark + f"{number - first:0{digits[ones]}b}"


def matches_code(bits: str) -> str:
    """Matches of the bits, eight at a time and the remaining ones last."""
    parts = [bits[at:at + 8] for at in range(0, len(bits), 8)]
    return "".join(
        "110" + number_code(int("1" + part, 2), FIRST_MATCH, MATCH_DIGITS) for part in parts
    )


def path_code(rows: list[Row], length: int, number: int, default: int) -> str:
    """The tree of a path.

    The rows are those that are the path or extend it, in order; the path has the length, and
    before its own row the number.
    """
    if rows and rows[0].length == length:
        number = rows[0].number
        rows = rows[1:]
    if not rows:
        return "0" + number_code(number, FIRST_NUMBER, NUMBER_DIGITS)
    zeros = [row for row in rows if not row.bits >> 127 - length & 1]
    ones = rows[len(zeros):]
    if zeros and ones:
        left = path_code(zeros, length + 1, number, default)
        right = path_code(ones, length + 1, number, default)
        return "10" + number_code(len(left), FIRST_JUMP, JUMP_DIGITS) + left + right
    code = ""
    if number != default:
        code = "111" + number_code(number, FIRST_NUMBER, NUMBER_DIGITS)
    different = rows[0].bits ^ rows[-1].bits
    stop = min(rows[0].length, ADDRESS_BITS - different.bit_length())
    code += matches_code(f"{rows[0].bits:0128b}"[length:stop])
    return code + path_code(rows, stop, number, number)


def kept_rows(rows: list[Row]) -> list[Row]:
    """The rows, in order, without those whose longest other prefix has the same number."""
    kept: list[Row] = []
    above: list[Row] = []
    for row in sorted(rows):
        while above and not covers(above[-1], row):
            above.pop()
        if not above or above[-1].number != row.number:
            kept.append(row)
        above.append(row)
    return kept


def covers(row: Row, other: Row) -> bool:
    """Whether a row is a prefix of another."""
    shift = ADDRESS_BITS - row.length
    return row.length <= other.length and row.bits >> shift == other.bits >> shift


def compile_rows(rows: list[Row]) -> str:
    """The bits of the file of a table."""
    return path_code(kept_rows(rows), 0, 0, 0)


def pack(bits: str) -> bytes:
    """Bits as bytes, the lowest bit of each first."""
    return bytes(int(bits[at:at + 8][::-1], 2) for at in range(0, len(bits), 8))
