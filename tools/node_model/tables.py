"""The tables of a node of Bitcoin Core and its peers.dat, from memory of addrman.cpp and addrman_impl.h of release 29.

`load` is a node's start: it raises NotLoaded if the node refuses the file, with the code if a consistency check failed.
"""
import struct
from dataclasses import dataclass, field

from addresses import CJDNS, I2P, INTERNAL, INTERNAL_PREFIX, IPV4, IPV6, MAPPED, ONION, TORV2, Address, compact, sized, twice

MAGIC = bytes.fromhex("f9beb4d9")
LENGTHS = {1: (IPV4, 4), 2: (IPV6, 16), 4: (ONION, 32), 5: (I2P, 32), 6: (CJDNS, 16)}


class NotLoaded(Exception):
    """Why a node does not start over a file."""


def hashed(*parts):
    return int.from_bytes(twice(b"".join(parts))[:8], "little")


@dataclass
class Info:
    """`AddrInfo`."""
    address: Address
    port: int
    time: int
    services: int
    source: Address
    success: int = 0
    attempts: int = 0
    references: int = 0
    is_tried: bool = False
    at: int = -1

    def key(self):
        return self.address.key() + struct.pack(">H", self.port)

    def tried_bucket(self, key, groups):
        choice = hashed(key, sized(self.key())) % 8
        return hashed(key, sized(groups.group(self.address)), struct.pack("<Q", choice)) % 256

    def new_bucket(self, key, groups, source=None):
        group = sized(groups.group(source or self.source))
        choice = hashed(key, sized(groups.group(self.address)), group) % 64
        return hashed(key, group, struct.pack("<Q", choice)) % 1024

    def position(self, key, is_new, bucket):
        return hashed(key, b"N" if is_new else b"K", struct.pack("<i", bucket), sized(self.key())) % 64

    def written(self):
        return (struct.pack("<II", 220000 | 1 << 29, self.time) + compact(self.services) + self.address.v2()
                + struct.pack(">H", self.port) + self.source.v2() + struct.pack("<qi", self.success, self.attempts))


@dataclass
class Node:
    """`AddrManImpl`, as far as files go. Of two records of one peer `known` has the later one, as `mapAddr` has."""
    key: bytes
    groups: object
    infos: dict = field(default_factory=dict)
    known: dict = field(default_factory=dict)
    order: list = field(default_factory=list)
    new: dict = field(default_factory=dict)
    tried: dict = field(default_factory=dict)
    next: int = 0
    new_count: int = 0
    tried_count: int = 0

    def append(self, info):
        number, self.next = self.next, self.next + 1
        info.at = len(self.order)
        self.order.append(number)
        self.infos[number] = info
        self.known[info.address, info.port] = number
        return number

    def delete(self, number):
        info, last = self.infos[number], self.order[-1]
        self.order[info.at], self.infos[last].at = last, info.at
        self.order.pop()
        self.known.pop((info.address, info.port), None)
        del self.infos[number]
        self.new_count -= 1

    def slot_of_new(self, info, bucket):
        return bucket, info.position(self.key, True, bucket)

    def slot_of_tried(self, info):
        bucket = info.tried_bucket(self.key, self.groups)
        return bucket, info.position(self.key, False, bucket)

    def put_new(self, number, slot):
        self.new[slot] = number
        self.infos[number].references += 1

    def add(self, info):
        """A record in the new table, if its slot is free."""
        slot = self.slot_of_new(info, info.new_bucket(self.key, self.groups))
        if (info.address, info.port) in self.known or slot in self.new or not info.address.is_routable():
            return
        self.new_count += 1
        self.put_new(self.append(info), slot)

    def announce(self, number, source):
        """One more slot of the new table, if it is free."""
        info = self.infos[number]
        slot = self.slot_of_new(info, info.new_bucket(self.key, self.groups, source))
        if not info.is_tried and info.references < 8 and slot not in self.new:
            self.put_new(number, slot)

    def reach(self, number, now):
        """A record moves to the tried table, if its slot there is free."""
        info = self.infos[number]
        slot = self.slot_of_tried(info)
        if info.is_tried or slot in self.tried:
            return
        self.new = {at: other for at, other in self.new.items() if other != number}
        info.references, info.is_tried, info.success = 0, True, now
        self.tried[slot] = number
        self.new_count, self.tried_count = self.new_count - 1, self.tried_count + 1

    def file(self, magic=MAGIC):
        """`Serialize`."""
        numbers = [number for number, info in self.infos.items() if not info.is_tried]
        index, lists = {number: at for at, number in enumerate(numbers)}, {}
        for (bucket, _), number in sorted(self.new.items()):
            lists.setdefault(bucket, []).append(index[number])
        tried = [info for info in self.infos.values() if info.is_tried]
        return written(self.key, [self.infos[number] for number in numbers], tried, lists, self.groups.checksum(), magic=magic)

    def slots(self, describe):
        """What `getrawaddrman` says of the slots."""
        return {name: {f"{bucket}/{position}": describe(self.infos[number], self.groups)
                       for (bucket, position), number in sorted(table.items())}
                for name, table in (("new", self.new), ("tried", self.tried))}


def written(key, new, tried, lists, checksum, buckets=1024, magic=MAGIC):
    """A file in format 4; `lists` has the indexes of new records by their bucket."""
    data = magic + bytes([4, 36]) + key + struct.pack("<iii", len(new), len(tried), buckets ^ 1 << 30)
    data += b"".join(info.written() for info in new + tried)
    for bucket in range(buckets):
        indexes = lists.get(bucket, [])
        data += struct.pack(f"<{len(indexes) + 1}i", len(indexes), *indexes)
    return data + checksum + twice(data + checksum)


class Stream:
    """The bytes of a file."""

    def __init__(self, data):
        self.data, self.at = data, 0

    def take(self, count):
        if self.at + count > len(self.data):
            raise NotLoaded("end of file")
        self.at += count
        return self.data[self.at - count:self.at]

    def number(self, form):
        return struct.unpack(form, self.take(struct.calcsize(form)))[0]

    def compact(self, limit=None):
        first = self.take(1)[0]
        form, least = {253: ("<H", 253), 254: ("<I", 1 << 16), 255: ("<Q", 1 << 32)}.get(first, (None, 0))
        value = first if form is None else self.number(form)
        if value < least or limit is not None and value > limit:
            raise NotLoaded("CompactSize")
        return value

    def address_v1(self):
        data = self.take(16)
        if data[:6] == TORV2:
            return Address(IPV6, bytes(16))
        if data[:12] == MAPPED:
            return Address(IPV4, data[12:])
        return Address(INTERNAL, data[6:]) if data[:6] == INTERNAL_PREFIX else Address(IPV6, data)

    def address_v2(self):
        network, length = self.take(1)[0], self.compact(0x02000000)
        if length > 512:
            raise NotLoaded("address too long")
        if network not in LENGTHS:
            self.take(length)
            return Address(IPV6, bytes(16))
        network, wanted = LENGTHS[network]
        if length != wanted:
            raise NotLoaded("length of address")
        data = self.take(length)
        if network != IPV6:
            return Address(network, data)
        if data[:6] == INTERNAL_PREFIX:
            return Address(INTERNAL, data[6:])
        return Address(IPV6, bytes(16) if data[:12] == MAPPED or data[:6] == TORV2 else data)

    def info(self, is_v2):
        layout = self.number("<I") & ~0x7FFFF & 0xFFFFFFFF
        if layout not in ((0, 1 << 29) if is_v2 else (0,)):
            raise NotLoaded("layout of record")
        time = self.number("<I")
        services = self.compact() if layout else self.number("<Q")
        address = self.address_v2() if layout else self.address_v1()
        port = self.number(">H")
        source = self.address_v2() if is_v2 else self.address_v1()
        return Info(address, port, time, services, source, self.number("<q"), self.number("<i"))


def restored(stream, groups):
    """`AddrManImpl::Unserialize`, after the magic."""
    form, lowest = stream.take(2)
    if not 32 <= lowest <= 36:
        raise NotLoaded("format")
    node = Node(stream.take(32), groups)
    new_count, tried_count, buckets = (stream.number("<i") for _ in range(3))
    buckets = buckets ^ 1 << 30 if form >= 1 else buckets
    if not 0 <= new_count <= 65536 or not 0 <= tried_count <= 16384:
        raise NotLoaded("count")
    for _ in range(new_count):
        node.append(stream.info(form >= 3))
    node.new_count = new_count
    for _ in range(tried_count):
        info = stream.info(form >= 3)
        slot = node.slot_of_tried(info)
        if info.address.is_valid() and slot not in node.tried:
            info.is_tried = True
            node.tried[slot] = node.append(info)
            node.tried_count += 1
    listed = []
    for bucket in range(max(buckets, 0)):
        for _ in range(max(stream.number("<i"), 0)):
            index = stream.number("<i")
            if 0 <= index < new_count:
                listed.append((bucket, index))
    checksum = stream.take(32) if form >= 2 else bytes(32)
    same = buckets == 1024 and checksum == groups.checksum()
    for bucket, number in listed:
        info = node.infos[number]
        if not info.address.is_valid() or info.references >= 8:
            continue
        slot = node.slot_of_new(info, bucket)
        if not same or slot in node.new:
            slot = node.slot_of_new(info, info.new_bucket(node.key, groups))
        if slot not in node.new:
            node.put_new(number, slot)
    for number in range(new_count):
        if node.infos[number].references == 0:
            node.delete(number)
    return node


def check(node):
    """`AddrManImpl::CheckAddrman`: raises NotLoaded with the first code."""
    if len(node.order) != node.tried_count + node.new_count:
        raise NotLoaded("check -7")
    for number, info in node.infos.items():
        failed = {1: info.is_tried and info.success == 0, 2: info.is_tried and info.references > 0,
                  3: not info.is_tried and not 0 <= info.references <= 8, 4: not info.is_tried and info.references == 0,
                  5: node.known.get((info.address, info.port)) != number, 14: node.order[info.at] != number,
                  8: info.success < 0}
        for code, is_so in failed.items():
            if is_so:
                raise NotLoaded(f"check -{code}")
    if node.key == bytes(32):
        raise NotLoaded("check -16")


def load(data, groups, magic=MAGIC):
    """The tables of a node that starts over a file."""
    stream = Stream(data)
    if stream.take(4) != magic:
        raise NotLoaded("magic")
    node = restored(stream, groups)
    check(node)
    end = stream.at
    if stream.take(32) != twice(data[:end]):
        raise NotLoaded("checksum")
    return node
