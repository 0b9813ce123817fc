"""The tables as Bitcoin Core's RPC prints them."""

import json

from addresses import CJDNS, I2P, IPV4, IPV6, ONION, UNROUTABLE, Address, class_of, routable
from bans import BanList, subnet_name
from names import name_of
from picture import name as group_name
from places import group
from tables import Record, Tables


def network_name(address: Address) -> str:
    """The name of the class of an address."""
    own_class = class_of(address)
    return "not_publicly_routable" if own_class == UNROUTABLE else own_class


def record_members(tables: Tables, record: Record) -> dict:
    """The members of a record, in order."""
    peer, source = record.peer, record.source
    number, source_number = map(tables.asmap.number_of, (peer.address, source))
    return {
        "address": name_of(peer.address),
        **({"mapped_as": number} if number else {}),
        "port": peer.port,
        "services": record.services,
        "time": record.time,
        "network": network_name(peer.address),
        "source": name_of(source),
        "source_network": network_name(source),
        **({"source_mapped_as": source_number} if source_number else {}),
    }


def places_of(tables: Tables, record: Record) -> list[tuple[int, int]]:
    """The buckets and slots of a record."""
    if record.tried:
        return [tables.tried_place(record)]
    return [(bucket, tables.new_slot(record, bucket)) for bucket in record.buckets]


def raw(tables: Tables) -> str:
    """The records of both tables by their slots."""
    both = {}
    for name, tried in ("new", False), ("tried", True):
        placed = [
            (place, record)
            for record in tables.records.values() if record.tried == tried
            for place in places_of(tables, record)
        ]
        placed.sort(key=lambda pair: pair[0])
        both[name] = {
            f"{bucket}/{slot}": record_members(tables, record) for (bucket, slot), record in placed
        }
    return json.dumps(both, indent=2)


def counts(records: list[Record]) -> dict:
    """How many records are in each table."""
    tried = sum(record.tried for record in records)
    return {"new": len(records) - tried, "tried": tried, "total": len(records)}


def info(tables: Tables) -> str:
    """How many records each network has."""
    records = list(tables.records.values())
    rows = {
        network: counts([
            record for record in records
            if record.peer.address.network == network and routable(record.peer.address)
        ])
        for network in (IPV4, IPV6, ONION, I2P, CJDNS)
    }
    return json.dumps({**rows, "all_networks": counts(records)}, indent=2)


def counted_address(record: Record) -> Address:
    """The address whose group a record counts for."""
    return record.peer.address if record.tried else record.source


def health(tables: Tables, records: list[Record]) -> dict:
    """How well the asmap covers the records."""
    numbers = [
        tables.asmap.number_of(record.peer.address)
        for record in records if class_of(record.peer.address) in (IPV4, IPV6)
    ]
    return {
        "clearnet_peers": len(numbers),
        "as_numbers": len(set(numbers) - {0}),
        "unmapped": numbers.count(0),
    }


def groups(tables: Tables) -> str:
    """How many slots, buckets and records each group has."""
    records = sorted(tables.records.values(), key=lambda record: record.number)
    members: dict[bytes, list[Record]] = {}
    for record in records:
        members.setdefault(group(counted_address(record), tables.asmap), []).append(record)
    buckets: dict[bytes, list[int]] = {}
    for bucket, slots in tables.new.items():
        for slot in slots:
            record = tables.occupant(tables.new, bucket, slot)
            if record is not None:
                buckets.setdefault(group(record.source, tables.asmap), []).append(bucket)

    rows = []
    for own, of_group in members.items():
        first = counted_address(of_group[0])
        number = tables.asmap.number_of(first)
        new = [record for record in of_group if not record.tried]
        held = buckets.get(own, [])
        slots = len(held)
        tried = len(of_group) - len(new)
        rows.append((-slots - tried, own, {
            "group": group_name(first, number),
            **({"mapped_as": number} if number else {}),
            "new_slots": slots,
            "new_buckets": len(set(held)),
            "new_records": len(new),
            "tried_records": tried,
        }))
    rows.sort(key=lambda row: row[:2])
    return json.dumps({
        "groups": [row for _, _, row in rows],
        "totals": {
            "groups": len(rows),
            "new_slots": sum(map(len, buckets.values())),
            **{name: sum(row[name] for _, _, row in rows) for name in ("new_records", "tried_records")},
        },
        "asmap": health(tables, records),
    }, indent=2)


def banned(listed: BanList, now: int) -> str:
    """The bans that end after a time, or by Bitcoin Core's rule at it."""
    return json.dumps([
        {
            "address": subnet_name(subnet),
            "ban_created": ban.made,
            "banned_until": ban.until,
            "ban_duration": max(0, ban.until - ban.made),
            "time_remaining": ban.until - now,
        }
        for subnet, ban in listed.bans.items() if ban.until + listed.core > now
    ], indent=2)
