"""Files for the tests of the page, made by the program, and what it says of them."""
import hashlib
import json
import os
import random
import subprocess
from fractions import Fraction

KEY = "61" + "0" * 62
ONE, TOP = 1 << 30, 1 << 60


def run(program, words, folder, data=b""):
    return subprocess.run([program, *words], cwd=folder, input=data, capture_output=True)


def output(program, words, folder, data=b""):
    done = run(program, words, folder, data)
    assert done.returncode == 0, (words, done.stderr)
    return done.stdout


def write(folder, name, data):
    path = os.path.join(folder, name)
    os.makedirs(os.path.dirname(path), exist_ok=True)
    with open(path, "wb") as file:
        file.write(data)
    return path


def read(path):
    with open(path, "rb") as file:
        return file.read()


def replayed(program, folder, log, chain=("--net", "main")):
    """A folder whose peers.dat a log has left that ends with `save`."""
    os.makedirs(folder, exist_ok=True)
    output(program, ["replay", "--key", KEY, *chain], folder, log + b"save\n")
    return os.path.join(folder, "peers.dat")


def dotted(octets):
    return ".".join(map(str, octets))


def entry_of(time, octets):
    """An entry of an `addr` message, with the services 9 and port 8333."""
    mapped = bytes(10) + b"\xff\xff" + bytes(octets)
    return time.to_bytes(4, "little") + (9).to_bytes(8, "little") + mapped + b"\x20\x8d"


def message_of(source, entries, seed):
    count = len(entries)
    size = bytes([count]) if count < 253 else b"\xfd" + count.to_bytes(2, "little")
    return f"addr {dotted(source)} {(size + b''.join(entries)).hex()} @{seed}:{count}\n"


def log_of(seed, messages, entries):
    """Announcements of random IPv4 peers, and some tries."""
    draw = random.Random(seed)
    now, told, tried = 1_700_000_000, [], []
    for _ in range(messages):
        source = [draw.randrange(20, 90), draw.randrange(256), 1, 1]
        found = []
        for _ in range(entries):
            middle = draw.randrange(65536)
            peer = [draw.randrange(20, 120), middle >> 8, middle & 255, draw.randrange(1, 250)]
            found.append(entry_of(now - draw.randrange(20 * 86400), peer))
            if draw.random() < 0.03:
                tried.append(f"good {dotted(peer)}:8333 test\n")
            elif draw.random() < 0.05:
                tried += [f"attempt {dotted(peer)}:8333 count\n"] * draw.randrange(1, 10)
        told.append(message_of(source, found, draw.randrange(1 << 30)))
    return "".join([f"now {now}\n", *told, *tried]).encode()


def full_log():
    """A log that fills nearly all slots."""
    draw, now, lines = random.Random(1), 1_700_000_000, ["now 1700000000\n"]
    for _ in range(1200):
        source = [draw.randrange(20, 90), draw.randrange(256), draw.randrange(256), 1]
        peers = [[draw.randrange(20, 220), *draw.randbytes(2), 1 + draw.randrange(250)]
                 for _ in range(400)]
        entries = [entry_of(now - draw.randrange(20 * 86400), peer) for peer in peers]
        lines.append(message_of(source, entries, draw.randrange(1 << 30)))
        lines += [f"good {dotted(peer)}:8333 test\n" for peer in peers]
    return "".join(lines).encode()


def with_sum(body):
    """A file of this body with the sum that its bytes have."""
    return body + hashlib.sha256(hashlib.sha256(body).digest()).digest()


# --- the share of picks, in fractions, from what `raw` and `show` print


def starts_of(slots):
    """From how many slots of its bucket a round comes to each of these, in one bucket."""
    order = sorted(slots)
    return {slot: (slot - order[i - 1]) % 64 or 64 for i, slot in enumerate(order)}


def search(starts, tries):
    """The part of the searches of a table that end at each record."""
    chance = {r: ONE * 33 ** min(tries[r], 8) // 50 ** min(tries[r], 8) for r in starts}
    total, left, factor = sum(starts.values()), Fraction(1), ONE
    weight = dict.fromkeys(set(chance.values()), Fraction(0))
    sums = dict.fromkeys(weight, 0)
    for r, count in starts.items():
        sums[chance[r]] += count
    while left:
        accepted = {c: min(-(-c * factor // ONE), ONE) for c in weight}
        for c in weight:
            weight[c] += left * Fraction(accepted[c], total * ONE)
        left *= Fraction(sum(count * (ONE - accepted[c]) for c, count in sums.items()), total * ONE)
        factor = min(factor + factor // 5, TOP)
    return {r: count * weight[chance[r]] for r, count in starts.items()}


def shares(raw, shown):
    """The share of the picks of each peer, by its text in `show`, and where it is: (new, tried)."""
    tries = {}
    for line in shown.splitlines()[1:]:
        words = line.split(" ")
        if words[0] in ("new", "tried"):
            tries[words[2]] = int(words[-1])
    found, parts = {}, []
    for table in ("new", "tried"):
        buckets, starts = {}, {}
        for place, rec in raw[table].items():
            bucket, slot = map(int, place.split("/"))
            buckets.setdefault(bucket, {})[slot] = text_of(rec)
        for slots in buckets.values():
            for slot, count in starts_of(slots).items():
                starts[slots[slot]] = starts.get(slots[slot], 0) + count
        if starts:
            parts.append(search(starts, tries))
    for part in parts:
        for peer, share in part.items():
            found[peer] = share / len(parts)
    return found


def text_of(rec):
    """The peer of a record of `raw` as `show` has it; IPv4 and plain IPv6 alone."""
    name = rec["address"]
    return (f"[{name}]" if ":" in name else name) + f":{rec['port']}"


def said_of(program, folder, options=()):
    """What the program says of the files of a folder: raw, groups, show."""
    return (
        json.loads(output(program, ["raw", *options], folder)),
        json.loads(output(program, ["groups", *options], folder)),
        output(program, ["show", *options], folder).decode(),
    )
