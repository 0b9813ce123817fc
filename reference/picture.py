"""The picture of the tables, an SVG."""

from datetime import datetime, timezone
from functools import cache
from math import isqrt

import addresses
import bans
import peers_file
from addresses import Address
from places import LONG_GROUPS, NEW_BUCKETS, SLOTS, TRIED_BUCKETS, group
from tables import Record, Tables

COLOURS = "#d55e00", "#0072b2", "#009e73", "#cc79a7", "#e69f00", "#56b4e9", "#57606a", "#0b0c0d"
GROUND = "#eceff2"
LISTED = 6
MANY_BUCKETS = 32
LETTERS = "abcdefghijklmnopqrstuvwxyz234567"
SOURCE = "the group of the source that first announced the peer."
MEANINGS = {
    "network": "the network of the peer.",
    "source": SOURCE,
    "group": "the group of the peer.",
    "age": "how much older the time of the peer is than the newest one.",
}
LISTS = {
    "network": "Networks with the most slots",
    "source": "Source groups with the most slots",
    "group": "Groups of peers with the most slots",
    "age": "Ages with the most slots",
}
SETS_MEANING = "the first set in the list that has the peer."
SETS_TITLE = "Sets of peers"
REST = "in no set"
# Where an honest group has its slots: how many buckets, and what is said of them.
HONEST = {"source": (64, "from the 64 of a source"), "group": (1024, "from all 1024")}
NOTE = "In more new buckets than as many slots taken at random"
DOTS = "A square is a bucket, and a dot in it is an occupied slot. Its colour is "
DAY = 86_400
AGES = (("under a day", 1), ("1 to 3 days", 3), ("3 to 7 days", 7), ("1 to 4 weeks", 28))
OLDEST = "4 weeks or more"
STYLE = (
    "text{font:13px sans-serif;fill:#1b1f24}.h{font-size:20px}.b{font-weight:bold}"
    ".k{font-size:12px;fill:#57606a}.n{text-anchor:end}"
)
# A colour of the light ground and one of the dark ground for each that a text ends with.
LIGHT = (
    "[fill$=e00]{fill:#652c01}[fill$=b2]{fill:#00396f}[fill$=e73]{fill:#49a97a}"
    "[fill$=a7]{fill:#b61b50}[fill$=f00]{fill:#d8a810}[fill$=e9]{fill:#8a4fbf}"
    "[fill$=a]{fill:#8b949e}"
)
DARK = (
    "@media(prefers-color-scheme:dark){text{fill:#e6e9ed}.k{fill:#9aa4af}"
    "[fill$=fff]{fill:#14171b}[fill$=f2]{fill:#20262c}[fill$=e00]{fill:#ed7c27}"
    "[fill$=b2]{fill:#3d80eb}[fill$=e73]{fill:#4bc488}[fill$=a7]{fill:#c498b0}"
    "[fill$=f00]{fill:#ffe260}[fill$=e9]{fill:#e2daff}[fill$=a]{fill:#6c7479}"
    "[fill$=d]{fill:#cc2211}}"
)
START = '<svg xmlns="http://www.w3.org/2000/svg" viewBox="0 0 1080 712" role="img">\n'
GROUNDS = (
    '<pattern id="free" width="9" height="9" patternUnits="userSpaceOnUse">'
    '<path fill="#eceff2" d="M0 0h8v8h-8z"/></pattern>\n'
    '<rect width="1080" height="712" fill="#fff"/>\n'
)
NAME = "The tables of peers.dat"


def label(x: int, y: int, kind: str, text: str) -> str:
    """A text of a class."""
    return f'<text x="{x}" y="{y}" class="{kind}">{text}</text>\n'


TITLE = label(24, 36, "h", NAME)
AXES = "".join(
    [label(50, 110 + 72 * row, "n k", str(128 * row)) for row in range(8)]
    + [label(688, 110 + 72 * row, "n k", str(64 * row)) for row in range(4)]
)
COLUMNS = (
    label(712, 444, "k", "group") + label(896, 444, "n k", "slots")
    + label(970, 444, "n k", "tried") + label(1056, 444, "n k", "new buckets")
)
NOTES = (
    label(694, 664, "k", "Peers announced by one group get 64 of the 1024 new")
    + label(694, 680, "k", "buckets. A peer that other groups announced too may be")
    + label(694, 696, "k", "in theirs, and keeps the colour of its first source.")
)


def plain_head() -> str:
    """What comes before the titles of the maps without an option."""
    said = DOTS + SOURCE
    document = f"{START}<title>{NAME}</title>\n<desc>{said}</desc>\n<style>{STYLE}</style>\n"
    meaning, of_list = label(24, 58, "k", said), label(694, 422, "b", LISTS["source"])
    return document + GROUNDS + TITLE + meaning + AXES + of_list + COLUMNS + NOTES


def head(meaning: str, title: str, facts: str) -> str:
    """What comes before them with one: what a colour says, the title of the list, and which tables they are."""
    said = DOTS + meaning
    document = f"{START}<title>{NAME}</title>\n<desc>{said}</desc>\n<style>{STYLE}{LIGHT}{DARK}</style>\n"
    return (
        document + GROUNDS + label(24, 58, "k", said) + label(1056, 36, "n k", facts) + TITLE + AXES
        + COLUMNS + label(694, 422, "b", title)
    )


def facts(tables: Tables, chain: str, core: bool) -> str:
    """Which tables they are: the chain, the date of the newest time, and the first bytes of the asmap's checksum."""
    times = [record.time for record in tables.records.values()]
    newest = f"newest time {datetime.fromtimestamp(max(times), timezone.utc):%Y-%m-%d}" if times else "no records"
    total = peers_file.asmap_sum_of(tables.asmap, core)
    asmap = "no asmap" if total == peers_file.NO_SUM else f"asmap {total[:4].hex()}"
    return f"chain {chain}, {newest}, {asmap}"


def reached(buckets: int, slots: int) -> int:
    """How many of some buckets are reached by slots of which each is in any of them alike, in parts of which 65536 are a bucket."""
    parts = 0
    for _ in range(slots):
        parts += (65536 * buckets - parts) // buckets
    return parts


def is_spread(by: str, slots: int, own: int) -> bool:
    """Whether a group reaches more buckets of the new table than an honest one of so many slots would."""
    if by not in HONEST:
        return False
    buckets = HONEST[by][0]
    return reached(buckets, slots) + 65536 * isqrt(buckets) < 65536 * own


def base(data: bytes, length: int) -> str:
    """The prefix of an address of sixteen bytes, with its length."""
    bits = int.from_bytes(data, "big") >> 128 - length << 128 - length
    return f"{addresses.ipv6_text(bits.to_bytes(16, 'big'))}/{length}"


def letters(byte: int) -> str:
    """The two letters that an address of Tor or I2P can begin with, by its first four bits."""
    first = byte >> 4 << 1
    return f"{LETTERS[first]} or {LETTERS[first + 1]}"


def name(source: Address, number: int) -> str:
    """The name of a source's group; the number is that of its autonomous system."""
    data, carried = source.data, addresses.carried_ipv4(source)
    names = {
        addresses.UNROUTABLE: lambda: "not routable",
        addresses.IPV4: lambda: f"{carried[0]}.{carried[1]}.0.0/16",
        addresses.IPV6: lambda: base(data, 36 if addresses.within(data, LONG_GROUPS) else 32),
        addresses.ONION: lambda: "Tor v3 " + letters(data[0]),
        addresses.I2P: lambda: "I2P " + letters(data[0]),
        addresses.CJDNS: lambda: base(data, 12),
        addresses.INTERNAL: lambda: f"internal {data[:4].hex()}..",
    }
    return f"AS{number}" if number else names[addresses.class_of(source)]()


def path(marks: list[int], mark: int, side: int) -> str:
    """The rectangles of a mark: each row of a tile of 8 x 8 marks, and each longest run in it."""
    parts = []
    for row in range(len(marks) // 8):
        dots = marks[8 * row:8 * row + 8]
        if mark not in dots:
            continue
        left, top = 9 * (row // 8 % side), 9 * (row // 8 // side) + row % 8
        at = 0
        while at < 8:
            width = 1
            while at + width < 8 and dots[at + width] == dots[at]:
                width += 1
            if dots[at] == mark:
                parts.append(f"M{left + at} {top}h{width}v1h-{width}z")
            at += width
    return "".join(parts)


def element(marks: list[int], mark: int, side: int, own: str, colour: int) -> str:
    """The path of a mark."""
    return f'<path fill="{COLOURS[colour]}" d="{path(marks, mark, side)}"><title>{own}</title></path>\n'


def table(x: int, marks: list[int], side: int, names: list[str], last: str = "") -> str:
    """A table: the ground of its tiles, a path for each mark, which are counted from 1, and what comes over them."""
    size = 9 * side
    parts = [
        f'<g transform="translate({x} 98) scale(2)" shape-rendering="crispEdges">\n'
        f'<rect width="{size}" height="{size}" fill="url(#free)"/>\n'
    ]
    for index, own in enumerate(names):
        parts.append(element(marks, index + 1, side, own, index))
    return "".join(parts) + last + "</g>\n"


def maps(marks: list[int], names: list[str], over: list[int] = (), mark: int = 0, own: str = "") -> str:
    """Both tables, with a path of a mark over them."""
    new = NEW_BUCKETS * SLOTS
    return "".join(
        table(x, part, side, names, element(lay, mark, side, own, mark - 1) if mark else "")
        for x, part, lay, side in ((56, marks[:new], over[:new], 32), (694, marks[new:], over[new:], 16))
    )


def titles(marks: list[int]) -> str:
    """How full the tables are."""
    new = NEW_BUCKETS * SLOTS
    used = [len(part) - part.count(0) for part in (marks[:new], marks[new:])]
    return (
        f'<text x="56" y="88" class="b">New table: {used[0]} of 65536 slots are occupied</text>\n'
        f'<text x="694" y="88" class="b">Tried table: {used[1]} of 16384 slots are occupied</text>\n'
    )


def mark_row(marks: list[int], mark: int, index: int, own: str, colour: str | None = None) -> str:
    """The row of a mark."""
    tried = marks[NEW_BUCKETS * SLOTS:]
    return row(index, colour or COLOURS[mark - 1], own, marks.count(mark), tried.count(mark))


def group_row(index: int, own: str, slots: int, tried: int, buckets: int) -> str:
    """That of a group, with its buckets of the new table."""
    y = 466 + 22 * index
    return row(index, COLOURS[index], own, slots, tried) + f'<text x="1056" y="{y}" class="n">{buckets}</text>\n'


def row(index: int, colour: str, own: str, slots: int, tried: int) -> str:
    """A row of the list."""
    y = 466 + 22 * index
    return (
        f'<rect x="694" y="{y - 10}" width="11" height="11" fill="{colour}"/>\n'
        f'<text x="712" y="{y}">{own}</text>\n'
        f'<text x="896" y="{y}" class="n">{slots}</text>\n'
        f'<text x="970" y="{y}" class="n">{tried}</text>\n'
    )


def age(newest: int, time: int) -> int:
    """How much older a time is than the newest one, as a position in the list of ages."""
    return sum(newest >= time + days * DAY for _, days in AGES)


def classes(tables: Tables, by: str) -> list[tuple[object, str] | None]:
    """The class of the record in each slot and its name. Classes are in order as the bytes that
    they are compared by."""
    newest = max((record.time for record in tables.records.values()), default=0)

    @cache
    def of_address(address: Address) -> tuple[bytes, str]:
        return group(address, tables.asmap), name(address, tables.asmap.number_of(address))

    def of(record: Record) -> tuple[object, str]:
        if by in ("source", "group"):
            return of_address(record.source if by == "source" else record.peer.address)
        if by == "network":
            return network(record)
        own = age(newest, record.time)
        return own, (*(words for words, _ in AGES), OLDEST)[own]

    return [None if record is None else of(record) for record in records_of(tables)]


def records_of(tables: Tables) -> list[Record | None]:
    """The record in each slot, by rising bucket, first those of the new table."""
    return tables.occupants(tables.new, NEW_BUCKETS) + tables.occupants(tables.tried, TRIED_BUCKETS)


def network(record: Record) -> tuple[int, str]:
    """The number and the name of a record's network, those of none if its address isn't routable."""
    kinds = (addresses.UNROUTABLE, *addresses.NETWORKS)
    address = record.peer.address
    own = address.network if addresses.routable(address) else addresses.UNROUTABLE
    return kinds.index(own), own


def picture_of_sets(tables: Tables, marked: list, chain: str, core: bool) -> str:
    """The picture whose colours go by sets of addresses."""
    new = NEW_BUCKETS * SLOTS

    @cache
    def mark_of(address: Address) -> int:
        number = tables.asmap.number_of(address)
        return next((n for n, own in enumerate(marked, 1) if bans.has(own, address, number)), 7)

    marks = [0 if record is None else mark_of(record.peer.address) for record in records_of(tables)]
    names = [bans.set_text(own) for own in marked]
    out = [
        head(SETS_MEANING, SETS_TITLE, facts(tables, chain, core)), titles(marks),
        maps(marks, names, marks, 7, REST),
    ]
    for index, own in enumerate(names):
        slots = [place for place, mark in enumerate(marks) if mark == index + 1]
        buckets = {place // SLOTS for place in slots if place < new}
        out.append(group_row(index, own, len(slots), sum(place >= new for place in slots), len(buckets)))
    out += [mark_row(marks, 7, len(names), REST), mark_row(marks, 0, len(names) + 1, "free", GROUND), "</svg>\n"]
    return "".join(out)


def picture(tables: Tables, by: str | None = None, chain: str = "", core: bool = False) -> str:
    """The picture, in the colours of the source groups, or of what is chosen."""
    at = classes(tables, by or "source")
    new = NEW_BUCKETS * SLOTS
    first, slots, tried, buckets = {}, {}, {}, {}
    for place, pair in enumerate(at):
        if pair is None:
            continue
        own, text = pair
        first.setdefault(own, text)
        slots[own] = slots.get(own, 0) + 1
        tried[own] = tried.get(own, 0) + (place >= new)
        buckets.setdefault(own, set()).update([place // SLOTS] if place < new else [])
    ranked = sorted(slots, key=lambda own: (-slots[own], own))
    listed, others = ranked[:LISTED], ranked[LISTED:]
    names = [first[own] for own in listed]
    shown = names + ([f"other groups: {len(others)}"] if others else [])
    marks = [
        0 if pair is None else 1 + (listed.index(pair[0]) if pair[0] in listed else LISTED)
        for pair in at
    ]
    spread = {own for own in others if by and is_spread(by, slots[own] - tried[own], len(buckets[own]))}
    over = [8 if pair is not None and pair[0] in spread else 0 for pair in at]
    spread_name = f"spread groups: {len(spread)}"
    out = [
        head(MEANINGS[by], LISTS[by], facts(tables, chain, core)) if by else plain_head(), titles(marks),
        maps(marks, shown, over, 8, spread_name) if spread else maps(marks, shown),
    ]
    for index, own in enumerate(listed):
        out.append(group_row(index, names[index], slots[own], tried[own], len(buckets[own])))
    if others:
        out.append(mark_row(marks, LISTED + 1, LISTED, shown[LISTED]))
    out.append(mark_row(marks, 0, len(shown), "free", GROUND))
    wide = sum(len(own) > MANY_BUCKETS for own in buckets.values())
    out.append(f'<text x="694" y="644">Groups in more than 32 of the 1024 new buckets: {wide}</text>\n')
    if spread:
        out.append(mark_row(over, 8, 9, spread_name))
        out.append(label(694, 682, "k", NOTE))
        out.append(label(694, 698, "k", f"{HONEST[by][1]}, by over 3 standard deviations."))
    return "".join([*out, "</svg>\n"])
