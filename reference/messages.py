"""Messages `addr` and `addrv2`."""

from typing import NamedTuple

from addresses import (
    CJDNS, I2P, INTERNAL, IPV4, IPV4_IN_IPV6, IPV6, LENGTHS, ONION, TOR_V2_IN_IPV6, Address,
    from_sixteen,
)
from text import Fault

MAXIMUM_ENTRIES = 1000
MAXIMUM_ADDRESS_BYTES = 512
NETWORK_BYTES = {1: IPV4, 2: IPV6, 4: ONION, 5: I2P, 6: CJDNS}
BYTE_OF_NETWORK = {network: byte for byte, network in NETWORK_BYTES.items()}


class Entry(NamedTuple):
    """An entry of a message; one with an address that a node does not keep has none."""

    time: int
    services: int
    address: Address | None
    port: int


class Reader:
    """Bytes, read from the start."""

    def __init__(self, data: bytes):
        self.data = data
        self.position = 0

    def left(self) -> int:
        """The number of bytes that are not read yet."""
        return len(self.data) - self.position

    def take(self, count: int) -> bytes:
        """The next bytes."""
        begin, end = self.position, self.position + count
        if end > len(self.data):
            raise Fault("truncated")
        self.position = end
        return self.data[begin:end]

    def number(self, count: int, signed: bool = False) -> int:
        """A number of this many bytes, low byte first."""
        return int.from_bytes(self.take(count), "little", signed=signed)

    def port(self) -> int:
        """A port."""
        return int.from_bytes(self.take(2), "big")

    def compact_size(self) -> int:
        """A CompactSize."""
        first = self.number(1)
        if first < 253:
            return first
        count, least = {253: (2, 253), 254: (4, 1 << 16), 255: (8, 1 << 32)}[first]
        number = self.number(count)
        if number < least:
            raise Fault("non-canonical")
        return number

    def address(self) -> Address | None:
        """An address as in an `addrv2` message, None if a node does not keep it."""
        network = NETWORK_BYTES.get(self.number(1))
        length = self.compact_size()
        if length > MAXIMUM_ADDRESS_BYTES:
            raise Fault("too-long")
        if network is not None and length != LENGTHS[network]:
            raise Fault("bad-length")
        data = self.take(length)
        if network is None:
            return None
        if network == IPV6:
            if data.startswith((IPV4_IN_IPV6, TOR_V2_IN_IPV6)):
                return None
            return from_sixteen(data)
        return Address(network, data)


def compact_size(number: int) -> bytes:
    """A number as a CompactSize."""
    if number < 253:
        return bytes([number])
    mark, count = (253, 2) if number < 1 << 16 else (254, 4) if number < 1 << 32 else (255, 8)
    return bytes([mark]) + number.to_bytes(count, "little")


def read_message(payload: bytes, second: bool) -> list[Entry]:
    """The entries of an `addr` message, or of an `addrv2` one; raises Fault."""
    reader = Reader(payload)
    count = reader.compact_size()
    if count > MAXIMUM_ENTRIES:
        raise Fault("too-many")
    entries = []
    for _ in range(count):
        time = reader.number(4)
        services = reader.compact_size() if second else reader.number(8)
        address = reader.address() if second else from_sixteen(reader.take(16))
        entries.append(Entry(time, services, address, reader.port()))
    if reader.left():
        raise Fault("trailing")
    return entries


def address_bytes(address: Address) -> bytes:
    """An address as in an `addrv2` message; it is no internal name."""
    return (
        bytes([BYTE_OF_NETWORK[address.network]]) + compact_size(len(address.data)) + address.data
    )


def message_of(entries: list[Entry]) -> bytes:
    """The `addrv2` message of entries of which none is skipped or has an internal name."""
    payload = compact_size(len(entries))
    for entry in entries:
        payload += entry.time.to_bytes(4, "little") + compact_size(entry.services)
        payload += address_bytes(entry.address) + entry.port.to_bytes(2, "big")
    return payload
