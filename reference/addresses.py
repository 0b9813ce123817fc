"""Addresses and peers: their texts, and which of them are valid, local and routable."""

from functools import lru_cache
from typing import NamedTuple

import text

IPV4, IPV6, ONION, I2P, CJDNS, INTERNAL = "ipv4", "ipv6", "onion", "i2p", "cjdns", "internal"
UNROUTABLE = "unroutable"
LENGTHS = {IPV4: 4, IPV6: 16, ONION: 32, I2P: 32, CJDNS: 16, INTERNAL: 10}
NETWORKS = tuple(LENGTHS)
LABELLED = (ONION, I2P, CJDNS, INTERNAL)

# Of how many addresses it is kept what they are: few are asked for often.
KEPT = 1 << 16

IPV4_IN_IPV6 = bytes.fromhex("00000000000000000000ffff")
INTERNAL_IN_IPV6 = bytes.fromhex("fd6b88c08724")
TOR_V2_IN_IPV6 = bytes.fromhex("fd87d87eeb43")


class Address(NamedTuple):
    """An address: its network and its bytes."""

    network: str
    data: bytes


class Peer(NamedTuple):
    """An address and a port."""

    address: Address
    port: int


UNSPECIFIED = Address(IPV6, bytes(16))


def from_sixteen(data: bytes) -> Address:
    """The address that sixteen bytes in the old form mean."""
    if data.startswith(IPV4_IN_IPV6):
        return Address(IPV4, data[12:])
    if data.startswith(INTERNAL_IN_IPV6):
        return Address(INTERNAL, data[6:])
    if data.startswith(TOR_V2_IN_IPV6):
        return UNSPECIFIED
    return Address(IPV6, data)


def to_sixteen(address: Address) -> bytes:
    """The old form of an address of IPv4, of IPv6 or of an internal name."""
    if address.network == IPV4:
        return IPV4_IN_IPV6 + address.data
    if address.network == INTERNAL:
        return INTERNAL_IN_IPV6 + address.data
    return address.data


# Texts.


def read_ipv4(written: bytes) -> bytes | None:
    """The four bytes of an IPv4 text."""
    numbers = [text.read_number(part, 255) for part in written.split(b".")]
    return bytes(numbers) if len(numbers) == 4 and None not in numbers else None


def read_groups(written: bytes) -> bytes | None:
    """The bytes of groups of one to four digits with colons between them; no text has none."""
    if not written:
        return b""
    data = b""
    for group in written.split(b":"):
        if not 1 <= len(group) <= 4:
            return None
        digits = text.read_digits(group.rjust(4, b"0"), 2)
        if digits is None:
            return None
        data += digits
    return data


def read_ipv6(written: bytes) -> bytes | None:
    """The sixteen bytes of an IPv6 text."""
    before, gap, after = written.partition(b"::")
    head, tail = read_groups(before), read_groups(after)
    if head is None or tail is None:
        return None
    if not gap:
        return head if len(head) == 16 else None
    missing = 16 - len(head) - len(tail)
    return head + bytes(missing) + tail if missing >= 2 else None


def read_address(written: bytes) -> Address | None:
    """The address that a field ADDR writes."""
    if written.startswith(b"[") and written.endswith(b"]"):
        data = read_ipv6(written[1:-1])
        return None if data is None else from_sixteen(data)
    for network in LABELLED:
        label = network.encode() + b":"
        if written.startswith(label):
            data = text.read_digits(written[len(label):], LENGTHS[network])
            return None if data is None else Address(network, data)
    data = read_ipv4(written)
    return None if data is None else Address(IPV4, data)


def read_peer(written: bytes) -> Peer | None:
    """The peer that a field PEER writes."""
    before, colon, after = written.rpartition(b":")
    address, port = read_address(before), text.read_number(after, 65535)
    if not colon or address is None or port is None:
        return None
    return Peer(address, port)


def ipv4_text(data: bytes) -> str:
    """Four bytes as an IPv4 text."""
    return ".".join(str(number) for number in data)


def ipv6_text(data: bytes) -> str:
    """Sixteen bytes as RFC 5952 says, without a dotted tail."""
    groups = [f"{data[at] << 8 | data[at + 1]:x}" for at in range(0, 16, 2)]
    start, longest = 0, 1
    for first in range(8):
        length = 0
        while first + length < 8 and groups[first + length] == "0":
            length += 1
        if length > longest:
            start, longest = first, length
    if longest == 1:
        return ":".join(groups)
    return ":".join(groups[:start]) + "::" + ":".join(groups[start + longest:])


def address_text(address: Address) -> str:
    """An address as a field ADDR."""
    if address.network == IPV4:
        return ipv4_text(address.data)
    if address.network == IPV6:
        return f"[{ipv6_text(address.data)}]"
    return f"{address.network}:{address.data.hex()}"


def peer_text(peer: Peer) -> str:
    """A peer as a field PEER."""
    return f"{address_text(peer.address)}:{peer.port}"


# Validity.


def leading_bits(data: bytes, length: int) -> int:
    """The first bits of some bytes, as a number."""
    return int.from_bytes(data, "big") >> 8 * len(data) - length


def ranges(read, *prefixes: str) -> list[tuple[int, int]]:
    """The bits and the length of each prefix."""
    pairs = [prefix.split("/") for prefix in prefixes]
    return [
        (leading_bits(read(address.encode()), int(length)), int(length))
        for address, length in pairs
    ]


def within(data: bytes, prefixes: list[tuple[int, int]]) -> bool:
    """Whether one of the prefixes covers these bytes."""
    return any(leading_bits(data, length) == bits for bits, length in prefixes)


INVALID = {
    IPV4: ranges(read_ipv4, "0.0.0.0/32", "255.255.255.255/32"),
    IPV6: ranges(read_ipv6, "::/128", "2001:db8::/32"),
}
LOCAL_OR_RESERVED = {
    IPV4: ranges(
        read_ipv4,
        "127.0.0.0/8", "0.0.0.0/8",
        "10.0.0.0/8", "172.16.0.0/12", "192.168.0.0/16", "198.18.0.0/15", "169.254.0.0/16",
        "100.64.0.0/10", "192.0.2.0/24", "198.51.100.0/24", "203.0.113.0/24",
    ),
    IPV6: ranges(
        read_ipv6, "::1/128", "fe80::/64", "fc00::/7", "2001:10::/28", "2001:20::/28"
    ),
}
# The prefixes, the bytes that carry the IPv4 address, and the bits in which they differ from it.
CARRIERS = (
    (ranges(read_ipv6, "64:ff9b::/96", "::ffff:0:0:0/96"), slice(12, 16), 0),
    (ranges(read_ipv6, "2002::/16"), slice(2, 6), 0),
    (ranges(read_ipv6, "2001::/32"), slice(12, 16), 255),
)


@lru_cache(KEPT)
def valid(address: Address) -> bool:
    """Whether an address is valid."""
    if address.network == INTERNAL:
        return False
    if address.network == CJDNS:
        return address.data[0] == 0xFC
    return not within(address.data, INVALID.get(address.network, []))


@lru_cache(KEPT)
def routable(address: Address) -> bool:
    """Whether an address is valid and neither local nor reserved."""
    return valid(address) and not within(
        address.data, LOCAL_OR_RESERVED.get(address.network, [])
    )


@lru_cache(KEPT)
def carried_ipv4(address: Address) -> bytes | None:
    """The IPv4 address that a routable address is or carries."""
    data = address.data
    if not routable(address):
        return None
    if address.network == IPV4:
        return data
    if address.network != IPV6:
        return None
    for prefixes, part, mask in CARRIERS:
        if within(data, prefixes):
            return bytes(byte ^ mask for byte in data[part])
    return None


@lru_cache(KEPT)
def class_of(address: Address) -> str:
    """The class of an address: a network, or `unroutable`."""
    if address.network == INTERNAL:
        return INTERNAL
    if not routable(address):
        return UNROUTABLE
    return address.network if carried_ipv4(address) is None else IPV4
