"""Carries out a log by the Python module, as replay.c does: replay.py KEY|FILE < LOG."""
import os
import sys

import addrman

NAMES = ["unroutable", "ipv4", "ipv6", "onion", "i2p", "cjdns", "internal"]
MASK = (1 << 64) - 1


def save(am):
    """A save by requests, in pieces of 1000 bytes."""
    job, file = addrman.Save(am, addrman.MAIN, 1000), b""
    while request := job.next():
        what, piece = request
        file = b"" if what == "create" else file + piece
        if what == "rename":
            with open("peers.dat", "wb") as out:
                out.write(file)
        job.done()
    return "saved"


def drawn(seed, count):
    """The outputs of xoshiro256++, seeded as seed_from_u64 of Rust's rand_xoshiro does."""
    s = []
    for _ in range(4):
        seed = (seed + 0x9E3779B97F4A7C15) & MASK
        z = ((seed ^ seed >> 30) * 0xBF58476D1CE4E5B9) & MASK
        z = ((z ^ z >> 27) * 0x94D049BB133111EB) & MASK
        s.append(z ^ z >> 31)
    turned = lambda x, by: (x << by | x >> (64 - by)) & MASK
    words = []
    for _ in range(count):
        words.append((turned((s[0] + s[3]) & MASK, 23) + s[0]) & MASK)
        t = s[1] << 17 & MASK
        s[2] ^= s[0]
        s[3] ^= s[1]
        s[1] ^= s[2]
        s[0] ^= s[3]
        s[2] ^= t
        s[3] = turned(s[3], 45)
    return words


def words_of(text):
    if text.startswith("@"):
        return drawn(*map(int, text[1:].split(":")))
    return [] if text == "-" else list(map(int, text.split(",")))


def nets_of(text):
    return addrman.ALL_NETS if text == "all" else sum(1 << NAMES.index(name) for name in text.split(","))


def record_text(r):
    place = "new " + ",".join(map(str, r.buckets)) if r.buckets else "tried"
    return (f"peer {r.peer} source {r.source} time {r.time} services {r.services} success {r.last_success} "
            f"try {r.last_try} attempts {r.attempts} {place}")


def picked_text(found, picked, none):
    return none if picked is None else f"{found} {picked[0]} {picked[1]}"


def reply(am, f, now):
    known = lambda answer: "ok" if answer else "unknown"
    if f[0] in ("addr", "addrv2"):
        words = words_of(f[3])
        try:
            return "added %d of %d" % am.take_message(f[0] == "addrv2", bytes.fromhex(f[2].replace("-", "")), f[1], words, now)
        except addrman.Refused as e:
            return f"refused {e.kind}"
        except addrman.ShortWords as e:
            return f"short {e.need} {len(words)}"
    if f[0] == "good":
        return am.good(f[1], f[2] == "test", now)
    if f[0] == "attempt":
        return known(am.attempt(f[1], f[2] == "count", now))
    if f[0] == "connected":
        return known(am.connected(f[1], now))
    if f[0] == "services":
        return known(am.set_services(f[1], int(f[2])))
    if f[0] == "find":
        record = am.find(f[1])
        return "unknown" if record is None else record_text(record)
    if f[0] == "size":
        return "size new %d tried %d clashes %d" % am.size()
    if f[0] == "resolve":
        return "resolved erased %d moved %d kept %d" % am.resolve_collisions(now)
    if f[0] == "clash":
        return picked_text("clash", am.select_collision(int(f[1])), "none")
    if f[0] == "select":
        try:
            return picked_text("one", am.select(f[1] == "new", nets_of(f[2]), words_of(f[3]), now), "nothing")
        except addrman.Error as e:
            if e.code != addrman.EXHAUSTED:
                raise
            return "exhausted"
    if f[0] == "sample":
        words = words_of(f[4])
        try:
            peers = am.sample(int(f[1]), int(f[2]), nets_of(f[3]), words, now)
            return " ".join([f"sample {len(peers)}"] + peers)
        except addrman.ShortWords as e:
            return f"short {e.need} {len(words)}"
    if f[0] == "dump":
        records = am.records()
        return "\n".join([record_text(r) for r in records] + [f"end {len(records)}"])
    if f[0] == "save":
        return save(am)
    raise ValueError(f[0])


def main():
    start = sys.argv[1]
    if os.path.exists(start):
        with open(start, "rb") as file:
            am = addrman.AddrMan.load(file.read(), addrman.MAIN, (1, 2))
    else:
        am = addrman.AddrMan(bytes.fromhex(start), (1, 2))
    now = 0
    with am:
        for line in sys.stdin:
            fields = line.rstrip("\n").split(" ")
            if fields[0] == "" or fields[0].startswith("#"):
                continue
            if fields[0] == "now":
                now = int(fields[1])
                print("now", now)
            else:
                print(reply(am, fields, now))


main()
