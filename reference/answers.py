"""The answers to getaddr that a node keeps: which of them is current, and the times that are told."""

from typing import NamedTuple

from addresses import CJDNS, I2P, INTERNAL, IPV4, IPV6, ONION, UNROUTABLE

CLASSES = (UNROUTABLE, IPV4, IPV6, ONION, I2P, CJDNS, INTERNAL)
HOUR = 3600
DAY = 24 * HOUR
MAX_KEYS = 64
FEW_RECORDS = 1000
EXTRA = 6 * HOUR + 1


class Answer(NamedTuple):
    """When an answer was made, for how many seconds it is kept at least, when it ends, and its entries."""

    made: int
    least: int
    end: int
    entries: list


def key_of(network: str, socket: int) -> int:
    """The key of the requests of a network class at a socket of the node."""
    return 8 * socket + CLASSES.index(network)


def told_time(made: int, word: int) -> int:
    """The one time in an answer that hides those of the records: 8 to 12 days before it was made."""
    return max(0, made - 8 * DAY - word // EXTRA % (4 * DAY + 1))


class Answers:
    """The answers by their keys."""

    def __init__(self):
        self.kept = {}

    def find(self, key: int, now: int) -> list | None:
        """The entries of the key's answer, if it has a current one."""
        answer = self.kept.get(key)
        if answer is None or now >= answer.end or now <= answer.made - answer.least:
            return None
        return answer.entries

    def has_room(self, key: int) -> bool:
        """Whether fewer than 64 other keys have answers."""
        return len(self.kept.keys() - {key}) < MAX_KEYS

    def put(self, key: int, now: int, records: int, word: int, entries: list) -> bool:
        """Keeps an answer that was made now of so many records, for 21 to 27 hours, or an hour if they were few."""
        if not self.has_room(key):
            return False
        least, more = (HOUR, 0) if records < FEW_RECORDS else (21 * HOUR, word % EXTRA)
        self.kept[key] = Answer(now, least, now + least + more, entries)
        return True

    def forget(self):
        """Drops all answers."""
        self.kept.clear()
