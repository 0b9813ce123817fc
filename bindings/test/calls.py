"""Calls of the Python module beside reference/, which the environment's PYTHONPATH names too: names, slots, records of picks and
samples, open peers, and a message of which a node has a use for some entries only. Prints how many answers were compared."""
import random

import addresses
import bans as banning
import names
import places

import addrman

KEY, SEED, NOW, SERVICES = bytes(range(32)), (1, 2), 1_700_000_000, 0x401
draw = random.Random(59)
compared = 0


def same(what, ours, theirs):
    """The two are the same."""
    global compared
    compared += 1
    if ours != theirs:
        raise SystemExit(f"{what}: {ours!r}, not {theirs!r}")


def any_address():
    """The text of an address of any network."""
    kind = draw.randrange(5)
    if kind < 2:
        return "%d.%d.%d.%d" % (draw.randrange(1, 224), draw.randrange(256), draw.randrange(256), draw.randrange(1, 255))
    if kind == 2:
        return "[2a01:%x::%x]" % (draw.randrange(1 << 16), draw.randrange(1, 1 << 16))
    return ("onion:", "i2p:")[kind - 3] + draw.randbytes(32).hex()


def words(count):
    return [draw.getrandbits(64) for _ in range(count)]


def filled(count):
    """Tables of some peers, of which some were reached."""
    am = addrman.AddrMan(KEY, SEED)
    peers = [any_address() + ":8333" for _ in range(count)]
    for peer in peers:
        am.add(peer, any_address(), NOW - draw.randrange(100_000), draw.choice((1, 9, 1033)), 0, draw.getrandbits(64), NOW)
        if draw.random() < 0.3:
            am.good(peer, True, NOW)
    return am, peers


def check_names():
    """Names are those of reference/."""
    for _ in range(200):
        text = any_address()
        address = addresses.read_address(text.encode())
        name = addrman.name_of(text)
        same("a name", name, names.name_of(address))
        same("an address by its name", addrman.parse_name(name), text)
    for text in ("1.2.3.4:8333", "[2001:db8::1]", "onion:00", "", "a.onion"):
        try:
            addrman.parse_name(text)
        except ValueError:
            continue
        raise SystemExit(f"{text!r} is a name")
    same("an address of CJDNS", addrman.parse_name("fc00::1"), "cjdns:fc" + 29 * "0" + "1")


def check_slots(am, peers):
    """Buckets and slots are those of reference/."""
    for text in peers[:100]:
        peer, bucket = addresses.read_peer(text.encode()), draw.randrange(1024)
        same("a slot of the new table", am.new_slot(text, bucket), places.new_slot(KEY, bucket, peer))
        tried = places.tried_bucket(KEY, places.NO_ASMAP, peer)
        same("a slot of the tried table", am.tried_slot(text), (tried, places.tried_slot(KEY, tried, peer)))
    for bucket in (1024, 65535):
        try:
            am.new_slot(peers[0], bucket)
        except ValueError:
            continue
        raise SystemExit("there is a bucket %d" % bucket)


def check_records(am, peers):
    """What is picked and sampled has the records that are found; open peers are listed."""
    for _ in range(100):
        chosen = words(300)
        picked = am.select(False, addrman.ALL_NETS, chosen, NOW)
        same("the record of a pick", am.select_record(False, addrman.ALL_NETS, chosen, NOW), am.find(picked[0]))
    same("a pick of no network", am.select_record(False, 0, words(300), NOW), None)
    first, second = (addrman.AddrMan.load(am.file(), addrman.MAIN, SEED) for _ in range(2))
    size = am.size()
    for limit in (0, 10, 100):
        shuffled = words(size.new + size.tried)
        sample = first.sample(limit, 23, 0x3e, shuffled, NOW)
        entries = [addrman.Entry(r.time, r.services, r.peer) for r in map(first.find, sample)]
        same("a sample", second.sample_entries(limit, 23, 0x3e, shuffled, NOW), entries)
    # Forty days later every record is terrible, and a sample without the filter is one of all the same.
    records, onion = am.records(), 1 << addrman.ONION
    same("a sample of terrible records", am.sample(0, 0, addrman.ALL_NETS, words(len(records)), NOW + 40 * 86400), [])
    for most, percent, classes in ((0, 0, addrman.ALL_NETS), (10, 0, addrman.ALL_NETS), (0, 23, onion), (1000, 100, onion), (0, 0, 0)):
        drawn, left = words(len(records)), [r for r in records if classes != onion or r.peer.startswith("onion:")] if classes else []
        for i in range(len(left)):
            j = i + drawn[i] % (len(left) - i)
            left[i], left[j] = left[j], left[i]
        part = percent * len(records) // 100 if percent else len(records)
        same("an unfiltered sample", am.sample_unfiltered(most, percent, classes, drawn), left[:min(part, most or part)])
    opened = []
    for peer in peers:
        if len(opened) < 10 and am.group(peer.rpartition(":")[0]) not in [am.group(p.rpartition(":")[0]) for p in opened]:
            am.open_peer(peer)
            opened.append(peer)
        same("the open peers", am.open_peers(), opened)
    am.close_peer(opened[3])
    same("the open peers after one is closed", am.open_peers(), opened[:3] + opened[4:])


def check_room():
    """A file has no more bytes than the header says, also of records whose fields are the largest, in many buckets."""
    am = addrman.AddrMan(KEY, SEED)
    for i in range(40):
        for source in range(60):
            am.add("onion:%064x:65535" % i, "onion:%064x" % (source << 250), NOW - 60 + source, (1 << 64) - 1, 0, 0, NOW)
    size, buckets = am.size(), [len(r.buckets) for r in am.records()]
    same("buckets of a record", max(buckets), 8)
    same("a file within its room", len(am.file()) <= 4210 + 131 * size.new, True)
    same("and not much below it", len(am.file()) - 4210, 40 * 99 + 4 * sum(buckets))


def check_chosen():
    """A message of which some entries are taken does what one of these alone does."""
    skipped = bytes(4) + b"\1\x63\1\0" + bytes(2)
    for count in (0, 1, 5, 40, 250):
        first, second = addrman.AddrMan(KEY, SEED), addrman.AddrMan(KEY, SEED)
        listed = []
        for _ in range(count):
            services, text = draw.choice((0, 1, 8, 0x400, 0x408)), draw.choice(("10.0.0.%d" % draw.randrange(256), any_address(), any_address()))
            entry = addrman.write_message(True, [addrman.Entry(NOW - 1000, services, text + ":8333")])[1:]
            listed.append((entry, text, services) if draw.random() < 0.9 else (skipped, text, 0))
        payload = bytes([count]) + b"".join(entry for entry, _, _ in listed)
        most, nets, drawn = draw.choice((0, 1, count // 2, count, 2000)), draw.choice((0x7f, 0x3e, 0x06, 0x0c)), words(2 * count + 3)
        for i in range(count):
            j = i + drawn[i] % (count - i)
            listed[i], listed[j] = listed[j], listed[i]
        net = lambda text: addrman.network(text) if not addrman.is_routable(text) else (
            {"o": addrman.ONION, "i": addrman.I2P, "[": addrman.IPV6}.get(text[0], addrman.IPV4))
        taken = [entry if services & SERVICES and nets >> net(text) & 1 else skipped for entry, text, services in listed[:most]]
        try:
            first.take_chosen(True, payload, "1.2.3.4", most, SERVICES, nets, drawn[:count + len(taken)][:-1], NOW)
            same("words that are not needed", count, 0)
        except addrman.ShortWords as short:
            same("how many words are needed", short.need, count + len(taken))
        ours = first.take_chosen(True, payload, "1.2.3.4", most, SERVICES, nets, drawn, NOW)
        theirs = second.take_message(True, bytes([len(taken)]) + b"".join(taken), "1.2.3.4", drawn[count:], NOW)
        same("what a message adds", ours, theirs)
        same("the tables after a message", first.file(), second.file())
        # The same message to a list of bans: what they cover is skipped, too.
        third, fourth, bans = addrman.AddrMan(KEY, SEED), addrman.AddrMan(KEY, SEED), addrman.Bans()
        for _, text, _ in listed[::3]:
            if text[0].isdigit():
                bans.add(draw.choice((text, text.rsplit(".", 1)[0] + ".0/24")), NOW - 10, draw.choice((NOW, NOW + 1, NOW + 10)))
        free = [skipped if bans.covering(text, NOW) else entry for entry, (_, text, _) in zip(taken, listed)]
        ours = third.take_unbanned(bans, True, payload, "1.2.3.4", most, SERVICES, nets, drawn, NOW)
        theirs = fourth.take_message(True, bytes([len(free)]) + b"".join(free), "1.2.3.4", drawn[count:], NOW)
        same("what a message adds without the banned", ours, theirs)
        same("the tables after it", third.file(), fourth.file())


def check_nothing():
    """Messages of no entries, bans from and until 0, answers of empty tables, and connection 0 at 0."""
    for is_v2 in (False, True):
        same("a message of no entries", addrman.write_message(is_v2, []), b"\0")
        same("what is read of it", addrman.read_message(is_v2, b"\0"), [])
    ours, theirs = addrman.Bans(), banning.BanList({}, [], {}, [], False)
    for text, now, until in (("10.0.0.0/8", 0, 0), ("10.0.0.0/8", 0, 5), ("::/0", 0, 1), ("::/0", 0, 0), ("10.0.0.0/8", 5, 0), ("::/0", 1, 0)):
        reply = banning.ban(theirs, banning.read_subnet(text.encode(), False), now, until)
        same("a ban from 0 or until 0", "ban " + ours.add(text, now, until), reply)
        same("the list after it", ours.file(), banning.written_list(theirs))
    am, answers, limiter = addrman.AddrMan(KEY, SEED), addrman.Answers(), addrman.Limiter()
    for requester in (addrman.UNROUTABLE, addrman.IPV4):
        for is_v2, drawn in ((True, [0]), (False, []), (True, [])):
            same("an answer of empty tables", answers.answer(am, ours, requester, 0, is_v2, False, 0, drawn), b"\0")
    same("two connections 0", [limiter.add(0, "1.2.3.4", False, 0), limiter.add(0, "1.2.3.4", False, 0)], [True, False])


def main():
    check_names()
    am, peers = filled(300)
    check_slots(am, peers)
    check_records(am, peers)
    check_room()
    check_chosen()
    check_nothing()
    print(f"Python: {compared} answers on names, slots, records, open peers and chosen entries are as they have to be")


main()
