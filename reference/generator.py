"""Generated logs."""

from typing import Iterator

from addresses import IPV4, Address, Peer, address_text, peer_text, to_sixteen
from text import Xoshiro

START_TIME = 1700000000
PEERS = 16384
DAY = 86400
WORD = 4294967296


def peer(number: int) -> Peer:
    """The peer with this number."""
    return Peer(Address(IPV4, bytes([20 + number % 64, number // 64, 1, 1])), 8333)


class Generator:
    """The random words and the clock of a log."""

    def __init__(self, start: int):
        self.words = Xoshiro(start).words()
        self.time = START_TIME

    def draw(self, limit: int) -> int:
        """The next random word modulo a number."""
        return next(self.words) % limit

    def message(self) -> str:
        """A line with a message."""
        source = peer(self.draw(PEERS)).address
        count = 1 + self.draw(4)
        payload = bytes([count])
        for _ in range(count):
            time = self.time - self.draw(DAY)
            address, port = peer(self.draw(PEERS))
            payload += time.to_bytes(4, "little") + (1).to_bytes(8, "little")
            payload += to_sixteen(address) + port.to_bytes(2, "big")
        return f"addr {address_text(source)} {payload.hex()} @{self.draw(WORD)}:{count}"

    def peer(self) -> str:
        """A peer."""
        return peer_text(peer(self.draw(PEERS)))

    def line(self) -> str:
        """The next line."""
        kind = self.draw(16)
        if kind <= 1:
            self.time += 1 + self.draw(600)
            return f"now {self.time}"
        if kind <= 8:
            return self.message()
        if kind <= 10:
            return f"good {self.peer()} test"
        if kind <= 12:
            return f"attempt {self.peer()} count" if kind == 11 else f"connected {self.peer()}"
        if kind == 13:
            return f"select any all @{self.draw(WORD)}:300"
        return f"clash {self.draw(WORD)}" if kind == 14 else "resolve"


def generated(start: int, count: int) -> Iterator[str]:
    """The lines of a log."""
    line = Generator(start).line
    return (line() if number else f"now {START_TIME}" for number in range(count))
