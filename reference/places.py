"""Groups, buckets and slots."""

import hashlib

from addresses import (
    CJDNS, I2P, INTERNAL, IPV4, IPV6, ONION, UNROUTABLE, Address, Peer, carried_ipv4, class_of,
    ranges, read_ipv6, to_sixteen, within,
)
from asmap import NO_ASMAP, Asmap

NEW_BUCKETS, TRIED_BUCKETS, SLOTS = 1024, 256, 64
NEW_BUCKETS_OF_A_SOURCE, TRIED_BUCKETS_OF_A_GROUP = 64, 8
CLASS_BYTES = {UNROUTABLE: 0, IPV4: 1, IPV6: 2, ONION: 3, I2P: 4, CJDNS: 5, INTERNAL: 6}
GROUP_BITS = {UNROUTABLE: 0, IPV4: 16, IPV6: 32, ONION: 4, I2P: 4, CJDNS: 12, INTERNAL: 80}
LONG_GROUPS = ranges(read_ipv6, "2001:470::/32")


def first_bits(data: bytes, count: int) -> bytes:
    """The first bits of some bytes; the unused low bits of the last byte are ones."""
    whole, left = divmod(count, 8)
    if left == 0:
        return data[:whole]
    return data[:whole] + bytes([data[whole] | 0xFF >> left])


def group(address: Address, asmap: Asmap = NO_ASMAP) -> bytes:
    """The group of an address."""
    number = asmap.number_of(address)
    if number:
        return b"\x02" + number.to_bytes(4, "little")
    own_class = class_of(address)
    data = carried_ipv4(address) or address.data
    count = 36 if own_class == IPV6 and within(data, LONG_GROUPS) else GROUP_BITS[own_class]
    return bytes([CLASS_BYTES[own_class]]) + first_bits(data, count)


def double_sha256(data: bytes) -> bytes:
    """SHA-256 of SHA-256."""
    return hashlib.sha256(hashlib.sha256(data).digest()).digest()


def hash_number(*parts: bytes) -> int:
    """The first eight bytes of the double SHA-256 of the parts, low byte first."""
    return int.from_bytes(double_sha256(b"".join(parts))[:8], "little")


def counted(data: bytes) -> bytes:
    """Bytes after their number, which is below 253."""
    return bytes([len(data)]) + data


def identity(peer: Peer) -> bytes:
    """The bytes of a peer that are hashed: its address and its port, after their number."""
    address = peer.address
    data = to_sixteen(address) if address.network in (IPV4, IPV6, INTERNAL) else address.data
    return counted(data + peer.port.to_bytes(2, "big"))


def new_bucket(key: bytes, asmap: Asmap, peer: Peer, source: Address) -> int:
    """The bucket of the new table for a peer that comes from a source."""
    source_group = counted(group(source, asmap))
    number = hash_number(key, counted(group(peer.address, asmap)), source_group)
    number %= NEW_BUCKETS_OF_A_SOURCE
    return hash_number(key, source_group, number.to_bytes(8, "little")) % NEW_BUCKETS


def tried_bucket(key: bytes, asmap: Asmap, peer: Peer) -> int:
    """The bucket of the tried table for a peer."""
    number = hash_number(key, identity(peer)) % TRIED_BUCKETS_OF_A_GROUP
    peer_group = counted(group(peer.address, asmap))
    return hash_number(key, peer_group, number.to_bytes(8, "little")) % TRIED_BUCKETS


def slot(key: bytes, letter: bytes, bucket: int, peer: Peer) -> int:
    """The slot of a peer in a bucket of the new table, letter N, or of the tried one, letter K."""
    return hash_number(key, letter, bucket.to_bytes(4, "little"), identity(peer)) % SLOTS


def new_slot(key: bytes, bucket: int, peer: Peer) -> int:
    """The slot of a peer in a bucket of the new table."""
    return slot(key, b"N", bucket, peer)


def tried_slot(key: bytes, bucket: int, peer: Peer) -> int:
    """The slot of a peer in a bucket of the tried table."""
    return slot(key, b"K", bucket, peer)
