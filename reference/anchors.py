"""The file anchors.dat."""

from addresses import UNSPECIFIED, Peer, peer_text
from messages import Entry, Reader, compact_size
from peers_file import HIGH_BITS, RECORD_FORMAT, RECORD_START, written_address
from places import double_sha256
from text import Fault

MAXIMUM_BYTES = 1_048_576
MAXIMUM_ANCHORS = 1000


def read_anchor(reader: Reader) -> Entry:
    """An anchor; raises Fault."""
    if reader.number(4) & HIGH_BITS != RECORD_FORMAT:
        raise Fault("anchor")
    time, services = reader.number(4), reader.compact_size()
    address = reader.address() or UNSPECIFIED
    return Entry(time, services, address, reader.port())


def read_anchors(data: bytes, start: bytes) -> list[Entry]:
    """The anchors of a file of the chain whose files begin so; raises Fault."""
    if len(data) > MAXIMUM_BYTES:
        raise Fault("too-large")
    if len(data) < 36:
        raise Fault("truncated")
    if data[:4] != start:
        raise Fault("bad-magic")
    if double_sha256(data[:-32]) != data[-32:]:
        raise Fault("bad-sum")
    reader = Reader(data[4:-32])
    try:
        count = reader.compact_size()
    except Fault as fault:
        raise fault if str(fault) == "truncated" else Fault("count")
    if count > MAXIMUM_ANCHORS:
        raise Fault("too-many")
    try:
        anchors = [read_anchor(reader) for _ in range(count)]
    except Fault:
        raise Fault("anchor")
    if reader.left():
        raise Fault("trailing")
    return anchors


def written_anchors(anchors: list[Entry], start: bytes) -> bytes:
    """The file of anchors, none of which has an address that a node does not keep."""
    data = start + compact_size(len(anchors))
    for entry in anchors:
        data += RECORD_START + entry.time.to_bytes(4, "little") + compact_size(entry.services)
        data += written_address(entry.address) + entry.port.to_bytes(2, "big")
    return data + double_sha256(data)


def peer_of(entry: Entry) -> Peer:
    """The peer of an anchor."""
    return Peer(entry.address or UNSPECIFIED, entry.port)


def shown(anchors: list[Entry]) -> list[str]:
    """The lines of `show --anchors`."""
    return [f"anchors {len(anchors)}"] + [
        f"anchor {index} {peer_text(peer_of(entry))} time {entry.time} services {entry.services}"
        for index, entry in enumerate(anchors)]
