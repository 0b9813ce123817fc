"""The names of addresses as people write them."""

import base64
import binascii
import hashlib
import re

from addresses import (
    CJDNS, INTERNAL, I2P, IPV4, IPV6, LENGTHS, ONION, Address, from_sixteen, ipv4_text, ipv6_text,
    read_address, read_ipv4, read_ipv6,
)
from text import read_number

SUFFIXES = {ONION: re.compile(rb"\.onion"), I2P: re.compile(rb"(?i:\.b32\.i2p)"),
            INTERNAL: re.compile(rb"\.internal")}


def letters(data: bytes) -> str:
    """Base 32 in lower case, without padding."""
    return base64.b32encode(data).decode().rstrip("=").lower()


def name_of(address: Address) -> str:
    """The name of an address."""
    network, data = address
    if network == IPV4:
        return ipv4_text(data)
    if network == ONION:
        checksum = hashlib.sha3_256(b".onion checksum" + data + b"\x03").digest()[:2]
        return letters(data + checksum + b"\x03") + ".onion"
    if network == I2P:
        return letters(data) + ".b32.i2p"
    if network == INTERNAL:
        return letters(data) + ".internal"
    return ipv6_text(data)


def read_letters(network: str, stem: bytes) -> Address | None:
    """The address of a network whose name has these letters, in either case."""
    lower = stem.lower()
    try:
        data = base64.b32decode(lower.upper() + b"=" * (-len(lower) % 8))
    except binascii.Error:
        return None
    if len(data) < LENGTHS[network]:
        return None
    address = Address(network, data[:LENGTHS[network]])
    own = name_of(address).encode().split(b".")[0]
    return address if own == lower else None


def read_name(written: bytes) -> Address | None:
    """The address of a name."""
    for network, suffix in SUFFIXES.items():
        found = re.fullmatch(rb"(.*)(?:%b)" % suffix.pattern, written, re.DOTALL)
        if found:
            return read_letters(network, found[1])
    data = read_ipv4(written)
    if data is not None:
        return Address(IPV4, data)
    data = read_ipv6(written)
    if data is None:
        return None
    address = from_sixteen(data)
    cjdns = address.network == IPV6 and address.data[0] == 0xfc
    return Address(CJDNS, address.data) if cjdns else address


def read_text(written: bytes) -> Address | None:
    """The address that TEXT of `address` stands for."""
    without_port = read_address(written) or read_name(written)
    if without_port is not None:
        return without_port
    host, colon, port = written.rpartition(b":")
    if not colon or read_number(port, 65535) is None:
        return None
    address = read_address(host)
    return read_name(host) if address is None and b":" not in host else address
