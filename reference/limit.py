"""A log of events, and the log that is left of it."""

import lines
from addresses import INTERNAL, Address, address_text
from log import read_entries
from messages import message_of
from text import Words, hexadecimal

TENTHS_OF_A_TOKEN = 10
FULL = 10_000
LARGEST_COUNT = 4294967295
NUMBER = lines.number(4294967295)
KINDS = {
    "now": (lines.time,),
    "open": (NUMBER, lines.address, lines.one_of("limited", "unlimited")),
    "close": (NUMBER,),
    "getaddr": (NUMBER,),
    "from": (NUMBER, lines.payload, lines.words),
    "from2": (NUMBER, lines.payload, lines.words),
    "stat": (NUMBER,),
}


class Connection:
    """An open connection."""

    def __init__(self, address: Address, limited: bool, now: int):
        self.address, self.limited = address, limited
        self.refilled, self.tenths = now, TENTHS_OF_A_TOKEN
        self.asked = False
        self.processed = self.dropped = 0

    def refill(self, now: int):
        """Gives the tokens for the seconds since the last message."""
        if self.tenths < FULL:
            self.tenths = min(FULL, self.tenths + max(0, now - self.refilled))
        self.refilled = now

    def admits(self) -> bool:
        """Whether the next entry is admitted; takes its token, and counts it."""
        paid = self.tenths >= TENTHS_OF_A_TOKEN
        if paid:
            self.tenths -= TENTHS_OF_A_TOKEN
        if paid or not self.limited:
            self.processed = min(self.processed + 1, LARGEST_COUNT)
            return True
        self.dropped = min(self.dropped + 1, LARGEST_COUNT)
        return False


class Limit:
    """The clock and the open connections."""

    def __init__(self):
        self.now = 0
        self.open: dict[int, Connection] = {}

    def output(self, line: bytes) -> bytes:
        """Takes a line; the output line. Raises Fault."""
        keyword = line.split(b" ")[0].decode("latin-1")
        if keyword not in KINDS:
            return line
        name, values = lines.read_line(line, KINDS)
        if name == "now":
            self.now = values[0]
            return line
        return self.answer("from" if name == "from2" else name, name == "from2", *values).encode()

    def answer(self, name: str, second: bool, number: int, *values) -> str:
        """What comes of a line of a connection."""
        connection = self.open.get(number)
        if name == "open":
            if connection is not None:
                return f"# open {number} already"
            address, mode = values
            self.open[number] = Connection(address, mode == "limited", self.now)
        elif connection is None:
            return f"# {name} {number} unknown"
        elif name == "from":
            return self.message(number, connection, second, *values)
        elif name == "close":
            del self.open[number]
        elif name == "stat":
            counts = f"processed {connection.processed} limited {connection.dropped}"
            return f"# stat {number} {counts} tenths {connection.tenths}"
        elif connection.asked:
            return f"# getaddr {number} already"
        else:
            connection.asked = True
            connection.tenths += FULL
        return f"# {name} {number}"

    def message(
        self, number: int, connection: Connection, second: bool, payload: bytes, words: Words
    ) -> str:
        """A connection sent a message."""
        entries = read_entries(payload, second, words)
        if isinstance(entries, str):
            return f"# from {number} {entries}"
        connection.refill(self.now)
        passed = [
            (entry, word) for entry, word in entries
            if connection.admits() and entry.address and entry.address.network != INTERNAL
        ]
        if not passed:
            return f"# from {number} none"
        payload = message_of([entry for entry, _ in passed])
        words_text = ",".join(str(word) for _, word in passed)
        return f"addrv2 {address_text(connection.address)} {hexadecimal(payload)} {words_text}"
