"""Addresses, their groups and asmaps as a node of Bitcoin Core has them, from memory of netaddress.cpp, netgroup.cpp and
util/asmap.cpp of release 29."""
import hashlib
import struct
from dataclasses import dataclass

UNROUTABLE, IPV4, IPV6, ONION, I2P, CJDNS, INTERNAL = range(7)
MAPPED, INTERNAL_PREFIX, TORV2 = bytes(10) + b"\xff\xff", bytes.fromhex("fd6b88c08724"), bytes.fromhex("fd87d87eeb43")
BIP155 = {IPV4: 1, IPV6: 2, ONION: 4, I2P: 5, CJDNS: 6}
INVALID = 0xFFFFFFFF


def twice(data):
    """SHA-256 of SHA-256."""
    return hashlib.sha256(hashlib.sha256(data).digest()).digest()


def compact(number):
    """A CompactSize."""
    if number < 253:
        return bytes([number])
    if number <= 0xFFFF:
        return b"\xfd" + struct.pack("<H", number)
    return b"\xfe" + struct.pack("<I", number) if number <= 0xFFFFFFFF else b"\xff" + struct.pack("<Q", number)


def sized(data):
    """A vector of bytes in a stream."""
    return compact(len(data)) + data


@dataclass(frozen=True)
class Address:
    network: int
    data: bytes

    def v1(self):
        """The sixteen bytes before BIP 155."""
        return {IPV4: MAPPED + self.data, IPV6: self.data, INTERNAL: INTERNAL_PREFIX + self.data}.get(self.network, bytes(16))

    def v2(self):
        if self.network == INTERNAL:
            return b"\x02" + sized(self.v1())
        return bytes([BIP155[self.network]]) + sized(self.data)

    def key(self):
        """`GetAddrBytes`."""
        return self.v1() if self.network in (IPV4, IPV6, INTERNAL) else self.data

    def is_valid(self):
        if self.network == IPV6:
            return self.data != bytes(16) and self.data[:4] != bytes.fromhex("20010db8")
        if self.network == IPV4:
            return self.data not in (bytes(4), b"\xff" * 4)
        return self.network != INTERNAL and (self.network != CJDNS or self.data[0] == 0xFC)

    def is_local(self):
        if self.network == IPV4:
            return self.data[0] in (0, 127)
        return self.network == IPV6 and self.data == bytes(15) + b"\1"

    def is_routable(self):
        if not self.is_valid() or self.is_local():
            return False
        data = self.data
        if self.network == IPV4:
            first, second = data[:2]
            return not (first == 10 or data[:2] in (b"\xc0\xa8", b"\xa9\xfe", b"\xc6\x12", b"\xc6\x13")
                        or first == 172 and 16 <= second <= 31 or first == 100 and 64 <= second <= 127
                        or data[:3] in (b"\xc0\x00\x02", b"\xc6\x33\x64", b"\xcb\x00\x71"))
        if self.network == IPV6:
            return not (data[:8] == b"\xfe\x80" + bytes(6) or data[0] & 0xFE == 0xFC
                        or data[:3] == b"\x20\x01\x00" and data[3] & 0xF0 in (0x10, 0x20))
        return True

    def linked_ipv4(self):
        """The IPv4 address that this one is or embeds, or None."""
        if not self.is_routable() or self.network not in (IPV4, IPV6):
            return None
        data = self.data
        if self.network == IPV4:
            return data
        if data[:12] in (bytes(8) + b"\xff\xff\0\0", b"\0\x64\xff\x9b" + bytes(8)):
            return data[12:]
        if data[:2] == b"\x20\x02":
            return data[2:6]
        return bytes(byte ^ 255 for byte in data[12:]) if data[:4] == b"\x20\x01\0\0" else None

    def net_class(self):
        if self.network == INTERNAL:
            return INTERNAL
        if not self.is_routable():
            return UNROUTABLE
        return self.network if self.linked_ipv4() is None else IPV4


def interpret(bits, address):
    """The AS number that an asmap gives for the bits of an address (`Interpret`)."""
    at = 0

    def number(least, sizes):
        nonlocal at
        value = least
        for place, size in enumerate(sizes):
            more = 0
            if place + 1 < len(sizes):
                if at >= len(bits):
                    return INVALID
                more, at = bits[at], at + 1
            if more:
                value += 1 << size
                continue
            for digit in range(size):
                if at >= len(bits):
                    return INVALID
                value, at = value + (bits[at] << size - 1 - digit), at + 1
            return value
        return INVALID

    default = done = 0
    while at < len(bits):
        instruction = number(0, [0, 0, 1])
        if instruction == 0:
            return number(1, range(15, 25))
        if instruction == 1:
            jump = number(17, range(5, 31))
            at, done = at + (jump if address[done] else 0), done + 1
        elif instruction == 2:
            match = number(2, range(1, 9))
            length = match.bit_length() - 1
            for place in range(length):
                if address[done] != match >> length - 1 - place & 1:
                    return default
                done += 1
        elif instruction == 3:
            default = number(1, range(15, 25))
        else:
            break
    return 0


class Groups:
    """`NetGroupManager`: the groups of addresses, with an asmap or without."""

    def __init__(self, asmap=b""):
        self.bits = [byte >> place & 1 for byte in asmap for place in range(8)]
        self.known = {}

    def checksum(self):
        return twice(sized(bytes(self.bits))) if self.bits else bytes(32)

    def asn(self, address):
        if not self.bits or address.net_class() not in (IPV4, IPV6):
            return 0
        linked = address.linked_ipv4()
        data = address.data if linked is None else MAPPED + linked
        if data not in self.known:
            self.known[data] = interpret(self.bits, [byte >> 7 - place & 1 for byte in data for place in range(8)])
        return self.known[data]

    def group(self, address):
        number = self.asn(address)
        if number:
            return b"\x02" + struct.pack("<I", number)
        start = count = 0
        if address.is_local():
            pass
        elif address.network == INTERNAL:
            start, count = 6, 80
        elif not address.is_routable():
            pass
        elif address.linked_ipv4() is not None:
            return bytes([address.net_class()]) + address.linked_ipv4()[:2]
        elif address.network in (ONION, I2P):
            count = 4
        elif address.network == CJDNS:
            count = 12
        else:
            count = 36 if address.data[:4] == bytes.fromhex("20010470") else 32
        key, whole = address.key(), count // 8
        group = bytes([address.net_class()]) + key[start:start + whole]
        return group + bytes([key[whole] | (1 << 8 - count % 8) - 1]) if count % 8 else group
