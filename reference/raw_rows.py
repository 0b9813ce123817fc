"""What `getrawaddrman` or `raw` printed, read."""

import json

from addresses import IPV6, Address, Peer, from_sixteen, read_ipv6
from asmap import Asmap
from names import read_name
from peers_file import PeersFile
from places import NEW_BUCKETS
from tables import Record, Tables
from text import Fault, read_number

MAXIMUM_BYTES = 67_108_864
MAXIMUM_DEPTH = 128
BUCKETS = {"new": NEW_BUCKETS, "tried": 256}
SLOTS = 64
UNROUTED = "not_publicly_routable"


class Pairs(list):
    """The members of an object, in order."""

    def get(self, name: str):
        """The value of the last member of a name."""
        return next((value for key, value in reversed(self) if key == name), None)


class Number(str):
    """A number, as it is written."""


def refused(constant: str):
    """Python's reader knows words that JSON does not have."""
    raise ValueError(constant)


def depth(value) -> int:
    """How deep arrays and objects nest."""
    if isinstance(value, Pairs):
        return 1 + max((depth(item) for _, item in value), default=0)
    return 1 + max(map(depth, value), default=0) if isinstance(value, list) else 0


def read_json(data: bytes):
    """The value of a text; raises Fault."""
    try:
        value = json.loads(data.decode(), object_pairs_hook=Pairs, parse_int=Number, parse_float=Number,
                           parse_constant=refused)
        json.dumps(value, ensure_ascii=False).encode()
    except (ValueError, RecursionError):
        raise Fault("json") from None
    if depth(value) > MAXIMUM_DEPTH:
        raise Fault("json")
    return value


def number_in(value, name: str, maximum: int) -> int | None:
    """The number under a name."""
    number = value.get(name) if isinstance(value, Pairs) else None
    return read_number(number.encode(), maximum) if isinstance(number, Number) else None


def text_in(value, name: str) -> str | None:
    """The text under a name."""
    text = value.get(name) if isinstance(value, Pairs) else None
    return text if isinstance(text, str) and not isinstance(text, Number) else None


def address_in(value, name: str, network: str) -> Address | None:
    """The address under a name, beside its network."""
    text = text_in(value, name)
    if text is None:
        return None
    written = text.encode("utf-8", "surrogatepass")
    if text_in(value, network) == UNROUTED:
        data = read_ipv6(written)
        if data is not None:
            return from_sixteen(data)
    return read_name(written)


def read_slot(name: str, table: str) -> tuple[int, int] | None:
    """The bucket and the position that a name says."""
    bucket, slash, position = name.encode("utf-8", "surrogatepass").rpartition(b"/")
    slot = read_number(bucket, BUCKETS[table] - 1), read_number(position, SLOTS - 1)
    return slot if slash and None not in slot else None


def read_record(value, path: str) -> Record:
    """The record of a slot; raises Fault with the first field that is missing."""
    fields = []
    for name, read in (
        ("address", lambda: address_in(value, "address", "network")),
        ("port", lambda: number_in(value, "port", 65535)),
        ("services", lambda: number_in(value, "services", 2 ** 64 - 1)),
        ("time", lambda: number_in(value, "time", 4294967295)),
        ("source", lambda: address_in(value, "source", "source_network")),
    ):
        fields.append(read())
        if fields[-1] is None:
            raise Fault(f"{path}: {name}")
    address, port, services, time, source = fields
    return Record(Peer(address, port), source, time, services)


def read_table(members: Pairs, table: str) -> list[tuple[int, int, Record]]:
    """The slots of a table with their records; raises Fault."""
    rows, last = [], (-1, -1)
    for index, (name, value) in enumerate(members):
        slot = read_slot(name, table)
        if slot is None or slot <= last:
            raise Fault(f"{table} member {index}: slot")
        rows.append((*slot, read_record(value, f"{table}/{slot[0]}/{slot[1]}")))
        last = slot
    return rows


def read_raw(data: bytes) -> dict[str, list[tuple[int, int, Record]]]:
    """The occupied slots of both tables; raises Fault."""
    if len(data) > MAXIMUM_BYTES:
        raise Fault("too-large")
    value = read_json(data)
    tables = {table: value.get(table) if isinstance(value, Pairs) else None for table in BUCKETS}
    if not all(isinstance(members, Pairs) for members in tables.values()):
        raise Fault("form")
    return {table: read_table(members, table) for table, members in tables.items()}


def what_is_said(record: Record) -> tuple:
    """What a text says of a record."""
    return record.peer, record.source, record.time, record.services


def reached(record: Record) -> Record:
    """A tried record, with a success, which a listing does not have: at its time, or at 1 if that is 0."""
    record.success = max(record.time, 1)
    return record


def file_of(rows: dict[str, list[tuple[int, int, Record]]], key: bytes, asmap_sum: bytes) -> PeersFile:
    """The file that lists the records in their buckets.

    Raises Fault at a peer that is twice in a bucket, in both tables or twice in the tried one, or of
    which two slots say different things.
    """
    new, known, buckets = [], {}, [[] for _ in range(NEW_BUCKETS)]
    for bucket, position, record in rows["new"]:
        index = known.setdefault(record.peer, len(new))
        if index == len(new):
            new.append(record)
        elif index in buckets[bucket] or what_is_said(new[index]) != what_is_said(record):
            raise Fault(f"new/{bucket}/{position}: again")
        buckets[bucket].append(index)
    for bucket, position, record in rows["tried"]:
        if record.peer in known:
            raise Fault(f"tried/{bucket}/{position}: again")
        known[record.peer] = -1
    return PeersFile(key, new, [reached(record) for _, _, record in rows["tried"]], buckets, asmap_sum)


class Listing(Tables):
    """The tables that a listing names: each slot has the record of its own row."""

    def __init__(self, asmap: Asmap):
        super().__init__(bytes(32), asmap)
        self.rows: dict[tuple[bool, int, int], Record] = {}

    def occupant(self, table: dict[int, dict[int, int]], bucket: int, slot: int) -> Record | None:
        return self.rows.get((table is self.new, bucket, slot))


def tables_of(rows: dict[str, list[tuple[int, int, Record]]], asmap: Asmap) -> Listing:
    """The tables that a listing names, with its records in its slots: no key counts. A peer of the new table is one
    record, that of its first row."""
    tables = Listing(asmap)
    for bucket, position, record in rows["new"]:
        known = tables.find(record.peer)
        if known is None:
            tables.append(record)
            known = record
        known.buckets.add(bucket)
        tables.rows[True, bucket, position] = record
        tables.new.setdefault(bucket, {})[position] = known.number
    for bucket, position, record in rows["tried"]:
        record.tried = True
        tables.append(record)
        tables.rows[False, bucket, position] = record
        tables.tried.setdefault(bucket, {})[position] = record.number
    return tables
