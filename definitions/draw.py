"""Random lines of a log that reach what they test.

Peers are those of the tables as the replies show them, or of a small pool in which slots collide;
times are at the limits of the rules, and a second to either side; random words select buckets that
are in use."""
from __future__ import annotations

import ipaddress
import random
from typing import Any

from .evaluate import Definitions
from .machine import Replay
from .values import Con, Done, byte_list, force, items, octets

# Seconds after which a rule decides otherwise.
LIMITS = [60, 600, 1200, 2400, 3600, 7200, 14400, 86400, 604800, 2592000]
START = 1_700_000_000
NETWORKS = ['ipv4', 'ipv6', 'onion', 'i2p', 'cjdns', 'internal']
OTHER_PEERS = [
    '9.9.9.9:8333', '23.0.1.1:8333', '10.0.0.1:8333', '[2a01:4f8::1]:8333', '[2001:470:1:1::5]:1',
    '[2001:db8::1]:8333', 'onion:' + '0b' * 32 + ':8333', 'i2p:' + '0c' * 32 + ':0',
    'cjdns:fc' + '0d' * 15 + ':8333', 'internal:' + '0e' * 10 + ':0']
SOURCES = ['1.2.3.4', '1.2.3.4', '1.2.9.9', '9.9.9.9', '[2a01:4f8::2]', 'onion:' + '1b' * 32]


def ipv4_peer(address: str, port: int) -> Done:
    """A peer of IPv4."""
    packed = ipaddress.IPv4Address(address).packed
    return Done(addr=Done(net=Con('Ipv4', (), True), bytes=byte_list(packed)), port=port)


def clusters(definitions: Definitions, key: bytes) -> list[list[str]]:
    """Sets of peers of one group: each has the same slot of the tried table, and the last one of
    the new table as 1.2.3.4 announces them."""
    places = Done(key=byte_list(key), map=Con('None', (), True), rule=Con('Bytes', (), True))
    source = ipv4_peer('1.2.3.4', 0)['addr']

    def word(name: str, *args: Any) -> int:
        return definitions.call('placing.Places.' + name, places, *args)

    tried: dict[Any, list[str]] = {}
    new: dict[Any, list[str]] = {}
    for i in range(220):
        address = f'8.8.{i // 64}.{i % 64 + 1}'
        peer = ipv4_peer(address, 8333)
        bucket = word('tried_bucket', peer)
        tried.setdefault((bucket, word('tried_slot', peer, bucket)), []).append(address)
        bucket = word('new_bucket', peer, source)
        new.setdefault((bucket, word('new_slot', peer, bucket)), []).append(address)
    shared = sorted((peers for peers in tried.values() if len(peers) > 1), key=len, reverse=True)
    crowded = max(new.values(), key=len)
    return [[f'{each}:8333' for each in peers[:4]] for peers in [*shared[:10], crowded]]


def compact(n: int) -> bytes:
    """A number below 65,536 as a CompactSize."""
    return bytes([n]) if n < 253 else b'\xfd' + n.to_bytes(2, 'little')


class Drawing:
    """Draws line after line, each for the state of a replay."""

    def __init__(self, seed: int, replay: Replay, pool: list[list[str]]):
        self.random, self.replay = random.Random(seed), replay
        # a log knows few peers, so that these meet again
        sets = self.random.sample(pool[:-1], self.random.choice([1, 2, 4])) + pool[-1:]
        self.pool = [each for peers in sets for each in peers] + self.random.sample(OTHER_PEERS, 3)
        self.now, self.drawn = 0, 0
        self.saving = self.random.random() < 0.15

    def records(self) -> list[Any]:
        """The records of the tables."""
        return items(self.replay.state['machine']['tables']['records'])

    def text_of(self, record: Any) -> str:
        """The peer of a record, as a line has it."""
        return octets(self.replay.definitions.call('net_addr.Text.peer_text', record['peer'])).decode()

    def peer(self, known_in: float = 0.5) -> str:
        """A peer of the tables, or of the pool, or a random one."""
        known = self.records()
        if known and self.random.random() < known_in:
            return self.text_of(self.random.choice(known))
        if self.random.random() < 0.95:
            return self.random.choice(self.pool)
        port = self.random.choice([8333, 0, 32768, 65535])
        return f'{self.random.randrange(1, 224)}.{self.random.randrange(256)}.1.1:{port}'

    def now_line(self) -> str:
        """A time at a limit after what a record says, or some time later."""
        known = self.records()
        at = self.now + self.random.choice([0, 1, 30, 61, 700, 2500])
        if not self.now:
            at = START
        elif known and self.random.random() < 0.75:
            record = self.random.choice(known)
            from_ = self.random.choice(['time', 'last_success', 'last_try', 'last_count'])
            waits = items(self.replay.state['machine']['tables']['collisions'])
            limit = self.random.choice([60, 2400, 14400] if waits and self.random.random() < 0.7 else
                                       LIMITS[:7] if self.random.random() < 0.85 else LIMITS)
            at = force(record[from_]) + limit + self.random.choice([-1, 0, 1])
            if waits and self.random.random() < 0.3:
                at = self.now + self.random.choice([14399, 14400, 14401])
            elif at < self.now and self.random.random() < 0.9:
                at = self.now + self.random.choice([1, 59, 60, 61, 601])
        self.now = max(0, min(at, 2 ** 32 - 1))
        return f'now {self.now}'

    def stamp(self) -> int:
        """The time of an entry, relative to the clock and to the limits of the rules."""
        back = self.random.choice([0, 0, 100, 7200 + 600, 3600, 86400, 5000, 2592000, -600, self.now])
        return max(0, self.now - back + self.random.choice([-1, 0, 0, 1])) % 2 ** 32

    def first_message(self) -> str:
        """A message with all peers of the pool that `addr` can have."""
        peers = [peer for peer in self.pool if peer[0].isdigit()]
        data = compact(len(peers)) + b''.join(self.entry(1, peer) for peer in peers)
        return f'addr 1.2.3.4 {data.hex()} {self.words(len(peers))}'

    def entry(self, form: int, peer: str = '') -> bytes:
        """An entry of a message, `addr` or `addrv2`."""
        peer = peer or self.peer()
        host, _, port = peer.rpartition(':')
        at = self.stamp().to_bytes(4, 'little')
        services = self.random.choice([0, 1, 9, 1033])
        if host.startswith('['):
            number, data = 2, ipaddress.IPv6Address(host[1:-1]).packed
        elif ':' in host:
            label, _, digits = host.partition(':')
            number, data = {'onion': 4, 'i2p': 5, 'cjdns': 6, 'internal': 2}[label], bytes.fromhex(digits)
            if label == 'internal':
                data = bytes.fromhex('fd6b88c08724') + data
        else:
            number, data = 1, ipaddress.IPv4Address(host).packed
        if form == 1:
            sixteen = bytes(10) + b'\xff\xff' + data if number == 1 else data
            if len(sixteen) != 16 or number > 2:
                sixteen = bytes(10) + b'\xff\xff\x08\x08\x08\x08'
            return at + services.to_bytes(8, 'little') + sixteen + int(port).to_bytes(2, 'big')
        if self.random.random() < 0.08:
            number, data = self.random.choice([
                (3, bytes(10)), (9, b'abc'), (2, bytes(10) + b'\xff\xff' + bytes(4)),
                (9, bytes(512)), (9, bytes(513)), (4, bytes(31))])
        return at + compact(services) + bytes([number]) + compact(len(data)) + data \
            + int(port).to_bytes(2, 'big')

    def message(self) -> str:
        """A line with a message, in its form or with a fault."""
        form = self.random.choice([1, 2])
        count = self.random.choice([0, 1, 1, 2, 3, 5])
        data = compact(count) + b''.join(self.entry(form) for _ in range(count))
        if self.random.random() < 0.1:
            data = self.random.choice([data[:-1], data + b'\0', b'\xfd\x01\x00' + data[1:],
                                       b'\xfd\xe9\x03' + data[1:], data[:len(data) // 2]])
        source = self.random.choice(SOURCES)
        if count and self.random.random() < 0.15:
            source = self.peer().rpartition(':')[0]
        short = self.random.random() < 0.06
        digits = data.hex() if self.random.random() < 0.8 else data.hex().upper()
        return (f'{"addr" if form == 1 else "addrv2"} {source} {digits or "-"} '
                + self.words(max(0, count - short), 4))

    def words(self, count: int, small: int = 0) -> str:
        """So many random words, a list of them or a seed."""
        if self.random.random() < 0.5 or count > 60:
            return f'@{self.random.getrandbits(self.random.choice([8, 40, 64]))}:{count}'
        bits = self.random.choice([1, small, 64]) if small else 64
        return ','.join(str(self.random.getrandbits(bits)) for _ in range(count)) or '-'

    def select(self) -> str:
        """A search: by many random words, or by words that lead to buckets that are in use."""
        only = self.random.choice(['new', 'any'])
        nets = self.nets(NETWORKS)
        known = self.records()
        if not known or self.random.random() < 0.4:
            return f'select {only} {nets} ' + self.words(self.random.choice([2, 9, 60, 300]))
        places = self.replay.state['machine']['tables']['places']
        words = [self.random.getrandbits(20)] if only == 'any' and self.random.random() < 0.6 else []
        for _ in range(self.random.choice([1, 2, 5, 12])):
            record = self.random.choice(known)
            buckets = items(self.replay.definitions.call('peer_rec.Rec.buckets_of', record))
            bucket = self.random.choice(buckets) if buckets else self.replay.definitions.call(
                'placing.Places.tried_bucket', places, record['peer'])
            bucket = force(bucket) + 1024 * self.random.getrandbits(20)
            accept = self.random.choice([self.random.getrandbits(64), self.random.getrandbits(29),
                                         2 ** 30 - 1 - self.random.getrandbits(28)])
            words += [bucket, self.random.getrandbits(64), accept]
        return f'select {only} {nets} {",".join(map(str, words))}'

    def sample(self) -> str:
        """A sample; its words are about as many as the records."""
        count = len(self.records()) + self.random.choice([-1, 0, 0, 1, 5])
        most, percent = self.random.choice([0, 1, 3, 1000]), self.random.choice([0, 23, 50, 100])
        nets = self.nets(NETWORKS + ['unroutable'])
        return f'sample {most} {percent} {nets} {self.words(max(0, count))}'

    def nets(self, names: list[str]) -> str:
        """All networks, or some."""
        if self.random.random() < 0.7:
            return 'all'
        return ','.join(self.random.sample(names, self.random.randrange(1, 4)))

    def line(self) -> str:
        """The next line."""
        draw = self.random.random
        self.drawn += 1
        if self.drawn == 2 and draw() < 0.8:
            return self.first_message()
        waits = bool(items(self.replay.state['machine']['tables']['collisions']))
        kind = self.random.choices(
            ['now', 'message', 'good', 'attempt', 'connected', 'services', 'select', 'sample',
             'resolve', 'clash', 'find', 'size', 'dump', 'comment', 'save'],
            [25, 5, 12, 14, 2, 1, 5, 3, 14, 8, 3, 2, 1, 1, 1 if self.saving else 0] if waits else
            [18, 20, 20, 9, 4, 3, 9, 6, 3, 2, 5, 2, 1, 1, 3 if self.saving else 0])[0]
        if not self.now:
            kind = 'now'
        if kind == 'now':
            return self.now_line()
        if kind == 'message':
            return self.message()
        if kind == 'good':
            return f'good {self.peer(0.8)} {"test" if draw() < 0.75 else "force"}'
        if kind == 'attempt':
            return f'attempt {self.peer(0.9)} {"count" if draw() < 0.8 else "nocount"}'
        if kind == 'services':
            return f'services {self.peer()} {self.random.getrandbits(64)}'
        if kind in ('connected', 'find'):
            return f'{kind} {self.peer(0.8)}'
        if kind == 'select':
            return self.select()
        if kind == 'sample':
            return self.sample()
        if kind == 'clash':
            return f'clash {self.random.getrandbits(64)}'
        if kind == 'comment':
            return self.random.choice(['', '# a comment', '#'])
        if kind == 'save':
            return self.random.choice(['save', 'save-begin', f'save-step {self.random.choice([1, 900, 4000])}',
                                       'save-end'])
        return kind


def damaged(line: str, draw: random.Random) -> str:
    """A line with a change that often makes it one without a meaning."""
    i = draw.randrange(len(line) + 1)
    return draw.choice([
        line[:i] + line[i + 1:], line[:i] + draw.choice(' ,:-@0xz9') + line[i:], line + ' ',
        line.upper(), line + ' 1', line.replace(' ', '  ', 1), line[:i], line.replace('1', '01', 1),
        line.replace('@', '@@'), line.replace(':', '::', 1)])


def kind_of(line: bytes, reply: bytes | None, fault: str | None = None) -> str:
    """What kind of reply a line has: its first word, without numbers and peers."""
    if reply is None:
        return f'fault {fault}'
    text = reply.decode('latin1')
    words = text.split()
    if not words:
        return 'passed over'
    if words[0] in ('refused', 'not', 'no'):
        return ' '.join(words[:2])
    if words[0] == 'added':
        return 'added all' if words[1] == words[3] != '0' else \
            'added none' if words[1] == '0' else 'added some'
    if words[0] == 'resolved':
        kinds = [name for name, count in zip(words[1::2], words[2::2]) if count != '0']
        return 'resolved ' + (kinds[0] if kinds else 'nothing')
    if words[0] == 'sample':
        return 'sample none' if words[1] == '0' else 'sample'
    if line.startswith(b'find') and words[0] == 'unknown':
        return 'find unknown'
    return words[0]


# How many replies of each kind 1,000 lines have at least, or they do not show what they are for.
LEAST = {
    'now': 80, 'added all': 20, 'added some': 5, 'added none': 20, 'refused truncated': 3,
    'refused trailing': 1, 'refused non-canonical': 1, 'refused too-many': 1, 'short': 8,
    'ok': 60, 'unknown': 20, 'moved': 15, 'already': 15, 'clash': 15, 'none': 8, 'one': 15,
    'exhausted': 10, 'nothing': 1, 'sample': 8, 'sample none': 2, 'resolved erased': 2,
    'resolved moved': 3, 'resolved kept': 1, 'resolved nothing': 5, 'peer': 15,
    'find unknown': 4, 'size': 8, 'passed over': 3}
