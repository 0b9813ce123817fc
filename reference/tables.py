"""The tables of peers."""

from typing import Iterator

import places
from addresses import Address, Peer, class_of, routable, valid
from asmap import Asmap
from messages import Entry
from text import Words

MINUTE, HOUR, DAY = 60, 3600, 86400
MAXIMUM_BUCKETS_OF_A_RECORD = 8
MAXIMUM_COLLISIONS = 10
MAXIMUM_FAILURES = 2147483647
ONE = 1 << 30
LARGEST_FACTOR = 1 << 60
ALL = "all"


class Record:
    """What is known of a peer. It has a number once it is in the tables."""

    def __init__(self, peer: Peer, source: Address, time: int, services: int):
        self.peer, self.source, self.time, self.services = peer, source, time, services
        self.success = self.last_try = self.last_counted_try = self.failures = 0
        self.buckets: set[int] = set()
        self.tried = False
        self.number = -1

    def attempt(self, now: int, counts: bool, last_good: int):
        """A connection to the peer was tried."""
        self.last_try = now
        if counts and self.last_counted_try < last_good:
            self.last_counted_try = now
            self.failures = min(self.failures + 1, MAXIMUM_FAILURES)

    def connected(self, now: int):
        """The peer is still connected."""
        if now - self.time > 20 * MINUTE:
            self.time = now


def terrible(record: Record, now: int) -> bool:
    """Whether a record is terrible."""
    if now - record.last_try <= MINUTE:
        return False
    return (
        record.time > now + 10 * MINUTE
        or now - record.time > 30 * DAY
        or record.failures >= 3 and record.success == 0
        or record.failures >= 10 and now - record.success > 7 * DAY
    )


def chance(record: Record, now: int) -> int:
    """The chance of a record, of 2^30."""
    power = min(record.failures, 8)
    number = ONE * 33 ** power // 50 ** power
    return number // 100 if now - record.last_try < 10 * MINUTE else number


def clamped(entry: Entry, now: int) -> Entry:
    """An entry with its time as it is taken."""
    fits = 100_000_000 < entry.time <= now + 10 * MINUTE
    return entry if fits else entry._replace(time=max(0, now - 5 * DAY))


class Tables:
    """The new and the tried table, with the order of the records and the collisions."""

    def __init__(self, key: bytes, asmap: Asmap, of_bits: bool = False):
        self.key = key
        self.asmap = asmap
        self.of_bits = of_bits
        self.records: dict[int, Record] = {}
        self.numbers: dict[Peer, int] = {}
        self.order: list[int] = []
        self.position: dict[int, int] = {}
        self.new: dict[int, dict[int, int]] = {}
        self.tried: dict[int, dict[int, int]] = {}
        self.collisions: set[int] = set()
        self.next_number = 0
        self.last_good = 1

    # Records.

    def find(self, peer: Peer) -> Record | None:
        """The record of a peer."""
        number = self.numbers.get(peer)
        return None if number is None else self.records[number]

    def append(self, record: Record):
        """Gives a record the next number, and puts it last in the order."""
        record.number = self.next_number
        self.next_number += 1
        self.records[record.number] = record
        self.numbers[record.peer] = record.number
        self.position[record.number] = len(self.order)
        self.order.append(record.number)

    def exchange(self, first: int, second: int):
        """Exchanges the records at two positions of the order."""
        order = self.order
        order[first], order[second] = order[second], order[first]
        self.position[order[first]] = first
        self.position[order[second]] = second

    def delete(self, record: Record):
        """Deletes a record; the last one in the order moves to its position."""
        self.exchange(self.position[record.number], len(self.order) - 1)
        self.order.pop()
        del self.position[record.number]
        del self.records[record.number]
        self.numbers.pop(record.peer, None)

    def counts(self) -> tuple[int, int]:
        """The numbers of records in the new and in the tried table."""
        tried = sum(record.tried for record in self.records.values())
        return len(self.records) - tried, tried

    # Slots.

    def new_bucket(self, record: Record, source: Address) -> int:
        """The bucket of the new table for a record that comes from a source."""
        return places.new_bucket(self.key, self.asmap, record.peer, source)

    def new_slot(self, record: Record, bucket: int) -> int:
        """The slot of a record in a bucket of the new table."""
        return places.new_slot(self.key, bucket, record.peer)

    def tried_place(self, record: Record) -> tuple[int, int]:
        """The bucket and the slot of a record in the tried table."""
        bucket = places.tried_bucket(self.key, self.asmap, record.peer)
        return bucket, places.tried_slot(self.key, bucket, record.peer)

    def occupant(self, table: dict[int, dict[int, int]], bucket: int, slot: int) -> Record | None:
        """The record at a slot."""
        number = table.get(bucket, {}).get(slot)
        return None if number is None else self.records[number]

    def occupants(self, table: dict[int, dict[int, int]], buckets: int) -> list[Record | None]:
        """The record at each slot of a table with so many buckets."""
        found: list[Record | None] = []
        for bucket in range(buckets):
            if table.get(bucket):
                found += [self.occupant(table, bucket, slot) for slot in range(places.SLOTS)]
            else:
                found += [None] * places.SLOTS
        return found

    def occupy(self, record: Record, bucket: int, slot: int):
        """Gives a record a slot of the new table."""
        self.new.setdefault(bucket, {})[slot] = record.number
        record.buckets.add(bucket)

    def clear(self, bucket: int, slot: int):
        """Takes its slot of the new table from the occupant, and deletes it if it has no other."""
        occupant = self.occupant(self.new, bucket, slot)
        if occupant is None:
            return
        del self.new[bucket][slot]
        occupant.buckets.remove(bucket)
        if not occupant.buckets:
            self.delete(occupant)

    # News of peers.

    def add(self, now: int, entry: Entry, source: Address, word: int) -> bool:
        """Takes an entry of a message, with its time clamped; whether it got a slot."""
        if entry.address is None or not routable(entry.address):
            return False
        time = entry.time
        penalty = 0 if entry.address == source else 2 * HOUR
        peer = Peer(entry.address, entry.port)
        record = self.find(peer)
        if record is None:
            record = Record(peer, source, max(0, time - penalty), entry.services)
            self.append(record)
        elif not self.refreshed(record, now, time, entry.services, penalty, word):
            return False
        bucket = self.new_bucket(record, source)
        slot = self.new_slot(record, bucket)
        occupant = self.occupant(self.new, bucket, slot)
        if occupant is record:
            return False
        stays = occupant is not None and not terrible(occupant, now)
        if stays and (record.buckets or len(occupant.buckets) == 1):
            if not record.buckets:
                self.delete(record)
            return False
        self.clear(bucket, slot)
        self.occupy(record, bucket, slot)
        return True

    def refreshed(
        self, record: Record, now: int, time: int, services: int, penalty: int, word: int
    ) -> bool:
        """Refreshes the record of a known peer; whether it requests another slot."""
        interval = HOUR if now - time < DAY else DAY
        if time > record.time + interval + penalty:
            record.time = time - penalty
        record.services |= services
        return (
            time > record.time
            and not record.tried
            and len(record.buckets) < MAXIMUM_BUCKETS_OF_A_RECORD
            and word % 2 ** len(record.buckets) == 0
        )

    def good(self, now: int, peer: Peer, test: bool) -> str:
        """The peer was reached."""
        self.last_good = now
        record = self.find(peer)
        return "unknown" if record is None else self.succeeded(now, record, test)

    def succeeded(self, now: int, record: Record, test: bool) -> str:
        """The peer of a record was reached."""
        record.success = now
        record.last_try = now
        record.failures = 0
        if record.tried:
            return "already"
        bucket, slot = self.tried_place(record)
        if test and self.occupant(self.tried, bucket, slot) is not None:
            if len(self.collisions) < MAXIMUM_COLLISIONS:
                self.collisions.add(record.number)
            return "clash"
        self.move(record, bucket, slot)
        return "moved"

    def move(self, record: Record, bucket: int, slot: int):
        """Moves a record of the new table to its slot of the tried one."""
        for own in record.buckets:
            del self.new[own][self.new_slot(record, own)]
        record.buckets = set()
        occupant = self.occupant(self.tried, bucket, slot)
        if occupant is not None:
            occupant.tried = False
            own = self.new_bucket(occupant, occupant.source)
            self.clear(own, self.new_slot(occupant, own))
            self.occupy(occupant, own, self.new_slot(occupant, own))
        record.tried = True
        self.tried.setdefault(bucket, {})[slot] = record.number

    # Collisions.

    def resolve(self, now: int) -> tuple[int, int, int]:
        """Decides on the collisions; how many were erased, moved and kept."""
        counts = {"erased": 0, "moved": 0, "kept": 0}
        for number in sorted(self.collisions):
            decision = self.decision(now, self.records.get(number))
            counts[decision] += 1
            if decision != "kept":
                self.collisions.remove(number)
            if decision == "moved":
                self.last_good = now
                self.succeeded(now, self.records[number], test=False)
        return counts["erased"], counts["moved"], counts["kept"]

    def decision(self, now: int, newcomer: Record | None) -> str:
        """What becomes of a collision."""
        if newcomer is None:
            return "erased"
        occupant = self.occupant(self.tried, *self.tried_place(newcomer))
        if now - occupant.success < 4 * HOUR:
            return "erased"
        if now - occupant.last_try < 4 * HOUR:
            return "moved" if now - occupant.last_try > MINUTE else "kept"
        return "moved" if now - newcomer.success > 40 * MINUTE else "kept"

    def clash(self, number: int) -> Record | None:
        """Picks a collision; the occupant of the newcomer's slot."""
        if not self.collisions:
            return None
        picked = sorted(self.collisions)[number % len(self.collisions)]
        newcomer = self.records.get(picked)
        if newcomer is None:
            self.collisions.remove(picked)
            return None
        return self.occupant(self.tried, *self.tried_place(newcomer))

    # Picks.

    def select(self, now: int, only_new: bool, networks, words: Words) -> Record | str:
        """Picks a peer to connect to: its record, `nothing` or `exhausted`."""

        def candidate(record: Record) -> bool:
            address = record.peer.address
            return networks == ALL or routable(address) and address.network in networks

        candidates = [record for record in self.records.values() if candidate(record)]
        some_tried = any(record.tried for record in candidates) and not only_new
        some_new = any(not record.tried for record in candidates)
        if not some_tried and not some_new:
            return "nothing"
        try:
            return self.search(now, candidate, some_new, some_tried, words.source)
        except StopIteration:
            return "exhausted"

    def search(
        self, now: int, candidate, some_new: bool, some_tried: bool, words: Iterator[int]
    ) -> Record:
        """The rounds of a search; raises StopIteration if it needs more words."""
        in_tried = some_tried and (not some_new or next(words) % 2 == 1)
        table = self.tried if in_tried else self.new
        low_bits = (places.TRIED_BUCKETS if in_tried else places.NEW_BUCKETS) - 1
        factor = ONE
        for bucket_word, slot_word in zip(words, words):
            bucket = bucket_word & low_bits
            if bucket not in table or not table[bucket]:
                continue
            slots = table[bucket]
            start = slot_word % places.SLOTS
            in_turn = sorted(slots, key=lambda slot: (slot - start) % places.SLOTS)
            found = (self.records[slots[slot]] for slot in in_turn)
            first = next((record for record in found if candidate(record)), None)
            if first is None:
                continue
            if next(words) % ONE * ONE < chance(first, now) * factor:
                return first
            factor = min(factor + factor // 5, LARGEST_FACTOR)
        raise StopIteration

    def sample(self, now: int, maximum: int, percent: int, classes, words: Words) -> list[Peer]:
        """Picks peers to send to another node; there are as many words as records."""
        count = len(self.order)
        limit = percent * count // 100 if percent else count
        limit = min(limit, maximum or limit)
        peers: list[Peer] = []
        for position in range(count):
            if len(peers) >= limit:
                break
            self.exchange(position, position + next(words.source) % (count - position))
            record = self.records[self.order[position]]
            wanted = classes == ALL or class_of(record.peer.address) in classes
            if wanted and not terrible(record, now):
                peers.append(record.peer)
        return peers

    # What a file has.

    def restore(self, new: list[Record], tried: list[Record], buckets: list[list[int]], same: bool):
        """Fills empty tables with the records of a file.

        `buckets` lists the new records by bucket; these buckets are used if they are the `same`,
        that is, if their number and the asmap are.
        """
        for record in new:
            self.append(record)
        for record in tried:
            bucket, slot = self.tried_place(record)
            if valid(record.peer.address) and self.occupant(self.tried, bucket, slot) is None:
                self.append(record)
                record.tried = True
                self.tried.setdefault(bucket, {})[slot] = record.number
        for bucket, indices in enumerate(buckets):
            for index in indices:
                self.replace(new[index], bucket, same)
        for record in new:
            if not record.buckets:
                self.delete(record)

    def replace(self, record: Record, bucket: int, same: bool):
        """Gives a record its slot in a bucket of a file, or else in that of its own source."""
        if not valid(record.peer.address) or len(record.buckets) == MAXIMUM_BUCKETS_OF_A_RECORD:
            return
        if not same or self.occupant(self.new, bucket, self.new_slot(record, bucket)) is not None:
            bucket = self.new_bucket(record, record.source)
        slot = self.new_slot(record, bucket)
        if self.occupant(self.new, bucket, slot) is None:
            self.occupy(record, bucket, slot)
