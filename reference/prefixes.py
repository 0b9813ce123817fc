"""The file prefixes.txt."""

from addresses import IPV4_IN_IPV6, ipv4_text, ipv6_text, read_ipv4, read_ipv6
from asmap import ADDRESS_BITS, Row
from text import Fault, read_number

MAXIMUM_BYTES = 134_217_728
MAXIMUM_ROWS = 2_000_000
MAXIMUM_CODE = 67_108_864
LARGEST_NUMBER = 33_521_664
IPV4_LENGTH = 96


def read_row(line: bytes) -> Row:
    """The row of a line; raises Fault without the number of the line."""
    prefix, _, number_text = line.partition(b" AS")
    address_text, slash, length_text = prefix.partition(b"/")
    number = read_number(number_text, 9_999_999_999)
    length = read_number(length_text, 9_999_999_999)
    four = read_ipv4(address_text)
    data = read_ipv6(address_text) if four is None else IPV4_IN_IPV6 + four
    if not slash or number is None or length is None or data is None:
        raise Fault("form")
    if four is not None:
        length += IPV4_LENGTH
    if length > ADDRESS_BITS or not 1 <= number <= LARGEST_NUMBER:
        raise Fault("number")
    bits = int.from_bytes(data, "big")
    if bits & (1 << ADDRESS_BITS - length) - 1:
        raise Fault("host-bits")
    return Row(bits, length, number)


def read_rows(data: bytes) -> list[Row]:
    """The rows of a file; raises Fault."""
    rows: list[Row] = []
    prefixes: set[tuple[int, int]] = set()
    for count, line in enumerate(data.split(b"\n"), 1):
        if not line or line.startswith(b"#"):
            continue
        try:
            row = read_row(line)
            if (row.bits, row.length) in prefixes:
                raise Fault("repeated")
        except Fault as fault:
            raise Fault(f"{fault} at line {count}")
        if len(rows) == MAXIMUM_ROWS:
            raise Fault("too-many")
        prefixes.add((row.bits, row.length))
        rows.append(row)
    if not rows:
        raise Fault("empty")
    return rows


def row_text(row: Row) -> str:
    """A row as it is printed."""
    data = row.bits.to_bytes(16, "big")
    if row.length >= IPV4_LENGTH and data.startswith(IPV4_IN_IPV6):
        return f"{ipv4_text(data[12:])}/{row.length - IPV4_LENGTH} AS{row.number}"
    return f"{ipv6_text(data)}/{row.length} AS{row.number}"
