"""A log of an opener."""

from typing import NamedTuple

import lines
from addresses import NETWORKS, Peer, peer_text
from log import TABLE_LINES, TableLog
from places import group
from tables import ALL, MINUTE, Record, Tables
from text import seeded_words

MAXIMUM_OPEN = 10
TRIES = 100
PATIENT_TRIES = 30
WORDS_OF_A_TRY = 10_000
LAX_TRY = 50
USEFUL_SERVICES = 1 | 1024
BAD_PORTS = {
    1, 7, 9, 11, 13, 15, 17, 19, 20, 21, 22, 23, 25, 37, 42, 43, 53, 69, 77, 79, 87, 95, 101, 102, 103, 104, 109, 110, 111, 113, 115, 117, 119,
    123, 135, 137, 139, 143, 161, 179, 389, 427, 465, 512, 513, 514, 515, 526, 530, 531, 532, 540, 548, 554, 556, 563, 587, 601, 636, 989, 990,
    993, 995, 1719, 1720, 1723, 2049, 3306, 3389, 3659, 4045, 5060, 5061, 5432, 5900, 6000, 6566, 6665, 6666, 6667, 6668, 6669, 6697, 10080, 27017,
}


class Rules(NamedTuple):
    """The rules of Bitcoin Core that options choose: the networks that do not count for groups, the services that a peer needs, and
    whether bad ports are passed over."""
    exempt: frozenset[str] = frozenset()
    services: int = 0
    skips_bad_ports: bool = False


class OpenerLog(TableLog):
    """The lines of an opener."""

    kinds = TABLE_LINES | {
        "outbound": (lines.number(4294967295),),
        "feeler": (lines.number(4294967295), lines.wide),
        "close": (lines.peer,),
    }

    def __init__(self, tables: Tables, rules: Rules = Rules()):
        super().__init__(tables)
        self.rules = rules
        self.open: list[tuple[Peer, bytes]] = []

    def group(self, record: Record) -> bytes:
        """The group that a record's peer counts in."""
        address = record.peer.address
        if address.network in self.rules.exempt:
            return bytes([129 + NETWORKS.index(address.network)]) + address.data
        return group(address, self.tables.asmap)

    def lacks(self, record: Record) -> bool:
        """Whether the services of a peer rule it out for an outbound connection."""
        return record.services & self.rules.services != self.rules.services

    def lacks_useful(self, record: Record) -> bool:
        """Whether they rule it out for a connection that tests it."""
        return self.rules.services != 0 and not record.services & USEFUL_SERVICES

    def bad_port(self, record: Record, number: int) -> bool:
        """Whether a try passes a peer over because of its port."""
        is_ip = record.peer.address.network in ("ipv4", "ipv6")
        return self.rules.skips_bad_ports and number < LAX_TRY and is_ip and record.peer.port in BAD_PORTS

    def pick(self, only_new: bool, seed: int) -> Record | str:
        """What a try picks."""
        words = seeded_words(seed, WORDS_OF_A_TRY)
        return self.tables.select(self.now, only_new, ALL, words)

    def too_early(self, record: Record, number: int) -> bool:
        """Whether a try passes a peer over because of its last try."""
        return number <= PATIENT_TRIES and self.now - record.last_try < 10 * MINUTE

    def line_outbound(self, seed: int) -> str:
        """Makes tries for an outbound connection."""
        if len(self.open) == MAXIMUM_OPEN:
            return "full"
        groups = [own for _, own in self.open]
        for number in range(1, TRIES + 1):
            picked = self.pick(False, seed + number)
            if picked == "nothing":
                return "none"
            if picked == "exhausted" or self.lacks(picked) or self.bad_port(picked, number) or self.group(picked) in groups:
                continue
            if not self.too_early(picked, number):
                own = self.group(picked)
                self.open.append((picked.peer, own))
                return f"outbound {peer_text(picked.peer)} group {own.hex()} tries {number}"
        return "gave-up"

    def line_feeler(self, seed: int, collision: int) -> str:
        """Makes tries for a connection that tests a peer."""
        occupant = self.tables.clash(collision)
        for number in range(1, TRIES + 1):
            if number == 1 and occupant is not None:
                picked = occupant
            else:
                picked = self.pick(True, seed + number)
            if picked == "nothing":
                return "none"
            if picked == "exhausted" or self.lacks_useful(picked) or self.bad_port(picked, number):
                continue
            if not self.too_early(picked, number):
                return f"feeler {peer_text(picked.peer)} tries {number}"
        return "gave-up"

    def line_close(self, peer: Peer) -> str:
        """Takes a peer out of the list."""
        for at, (own, _) in enumerate(self.open):
            if own == peer:
                del self.open[at]
                return "closed"
        return "unknown"
