"""Which part of the picks falls to each group of records: exactly, and as the command prints it."""

from fractions import Fraction

from addresses import NETWORKS, UNROUTABLE, routable
from bans import Subnet, has, read_subnet, set_text
from picture import name as group_name
from places import group
from tables import LARGEST_FACTOR, ONE, Record, Tables, chance
from text import Fault, read_number

SLOTS = 64
MILLION = 1_000_000
WHOLE = 1 << 64
AHEAD = 48  # how many refusals of a search are looked ahead
CONNECTIONS = 10  # how many outbound connections a node opens
TRY_LISTS = 1 << 62  # the lists of tries that the bound on them is a part of
RESTARTED = 600  # a time at which no try is of the last ten minutes, as after a restart


def leading(table: dict[int, dict[int, int]]):
    """The slots of a table that have a record, and from how many starts, a bucket and a slot of it, a round comes to each."""
    for bucket, used in table.items():
        slots = sorted(used)
        for index, slot in enumerate(slots):
            yield bucket, slot, (slot - slots[index - 1]) % SLOTS or SLOTS


def starts(table: dict[int, dict[int, int]]) -> dict[int, int]:
    """From how many starts a round comes to each record of a table."""
    found: dict[int, int] = {}
    for bucket, slot, gap in leading(table):
        number = table[bucket][slot]
        found[number] = found.get(number, 0) + gap
    return found


def accepting(parts: int, factor: int) -> int:
    """How many of 2^30 residues accept a record of this chance."""
    return min(-(-parts * factor // ONE), ONE)


def weights(of_chance: dict[int, int]) -> dict[int, Fraction]:
    """Which part of the searches ends at a record of each chance, for each start that leads to it."""
    rounds = sum(of_chance.values()) * ONE
    found = dict.fromkeys(of_chance, Fraction(0))
    left, factor = Fraction(bool(of_chance)), ONE
    while left:
        for parts in of_chance:
            found[parts] += left * Fraction(accepting(parts, factor), rounds)
        left *= Fraction(sum(count * (ONE - accepting(parts, factor)) for parts, count in of_chance.items()), rounds)
        factor = min(factor + factor // 5, LARGEST_FACTOR)
    return found


def by_chance(leading: dict[int, int], chances: dict[int, int], numbers) -> dict[int, int]:
    """How many starts lead to those of the records of each chance."""
    found: dict[int, int] = {}
    for number in numbers:
        found[chances[number]] = found.get(chances[number], 0) + leading.get(number, 0)
    return found


def shares(tables: Tables, in_new: bool, now: int) -> dict[int, Fraction]:
    """Which part of the searches of a table ends at each record."""
    leading = starts(tables.new if in_new else tables.tried)
    chances = {number: chance(tables.records[number], now) for number in leading}
    weight = weights(by_chance(leading, chances, leading))
    return {number: count * weight[chances[number]] for number, count in leading.items()}


def network(record: Record) -> str:
    """The network of a record."""
    return record.peer.address.network if routable(record.peer.address) else UNROUTABLE


def key(tables: Tables, by: str, record: Record):
    """What is the same in records of one group, in the order in which groups with as many picks come."""
    if by == "network":
        return (UNROUTABLE, *NETWORKS).index(network(record))
    own = group(record.source if by == "source" else record.peer.address, tables.asmap)
    return own.ljust(15, b"\0"), len(own)


def name(tables: Tables, by: str, record: Record) -> str:
    """How people write the group of a record."""
    if by == "network":
        own = network(record)
        return "not routable" if own == UNROUTABLE else own
    address = record.source if by == "source" else record.peer.address
    return group_name(address, tables.asmap.number_of(address))


def percent(part: int) -> str:
    """A part of a million in percent."""
    return f"{part // 10_000}.{part % 10_000:04} %"


def at_most(of_chance: dict[int, int], theirs: dict[int, int]) -> int:
    """Which part of the searches ends at records of a group, at most, by how many starts lead to all and to them."""
    busy, left, found, factor = sum(of_chance.values()) * ONE, WHOLE, 0, ONE
    if not busy:
        return 0
    for _ in range(AHEAD):
        found += -(-left * sum(count * accepting(parts, factor) for parts, count in theirs.items()) // busy)
        left = -(-left * sum(count * (ONE - accepting(parts, factor)) for parts, count in of_chance.items()) // busy)
        factor = min(factor + factor // 5, LARGEST_FACTOR)
    return min(found + left, WHOLE)


def millionths(part: int, whole: int) -> int:
    """A part in parts of a million, rounded up."""
    return -(-min(part, whole) * MILLION // whole)


def parts_of(new: int, tried: int, searched: int) -> str:
    """The parts of a line, by how many of 2^64 searches of each table end at its records, and how many tables are searched."""
    picks = millionths(new + tried, searched * WHOLE)
    return f"picks {percent(picks)} new {percent(millionths(new, WHOLE))} tried {percent(millionths(tried, WHOLE))}"


def heading(tables: Tables) -> str:
    """The line with the numbers of the tables."""
    new, tried = tables.counts()
    used = [sum(bool(bucket) for bucket in table.values()) for table in (tables.new, tables.tried)]
    return f"peers new {new} tried {tried} buckets new {used[0]} tried {used[1]}"


class Sides:
    """How many starts of each table lead to records of each chance."""

    def __init__(self, tables: Tables, now: int):
        self.chances = {number: chance(record, now) for number, record in tables.records.items()}
        self.leading = [starts(table) for table in (tables.new, tables.tried)]
        self.all = [by_chance(leads, self.chances, leads) for leads in self.leading]
        self.searched = max(1, sum(bool(leads) for leads in self.leading))

    def searches(self, numbers: list[int]) -> list[int]:
        """How many of 2^64 searches of each table end at some records, at most."""
        return [at_most(whole, by_chance(leads, self.chances, numbers)) for leads, whole in zip(self.leading, self.all)]


def by_group(tables: Tables, table: dict[int, dict[int, int]], by: str, now: int) -> dict[object, dict[int, int]]:
    """How many starts lead to the slots of each group's records, by their chances. A slot has the record that its tables say:
    those of a listing may say another one in each slot of a peer."""
    found: dict[object, dict[int, int]] = {}
    for bucket, slot, gap in leading(table):
        record = tables.occupant(table, bucket, slot)
        own, likely = found.setdefault(key(tables, by, record), {}), chance(record, now)
        own[likely] = own.get(likely, 0) + gap
    return found


def risk(tables: Tables, by: str, now: int = RESTARTED) -> str:
    """The numbers of the tables, and a line for each group."""
    firsts: dict[object, Record] = {}
    for record in sorted(tables.records.values(), key=lambda record: record.number):
        firsts.setdefault(key(tables, by, record), record)
    sides = Sides(tables, now)
    theirs = [by_group(tables, table, by, now) for table in (tables.new, tables.tried)]
    rows = []
    for own, first in firsts.items():
        new, tried = (at_most(whole, groups.get(own, {})) for whole, groups in zip(sides.all, theirs))
        picks = millionths(new + tried, sides.searched * WHOLE)
        rows.append((-picks, own, f"{by} {name(tables, by, first)}: {parts_of(new, tried, sides.searched)}"))
    return "\n".join([heading(tables), *(line for _, _, line in sorted(rows, key=lambda row: row[:2]))])


def groups_with(tables: Tables, sides: Sides, theirs) -> list[int]:
    """How many picks return a peer of each group that has one of theirs, at most, of all that `searched` tables have."""
    members: dict[bytes, list[int]] = {}
    for number, record in tables.records.items():
        members.setdefault(group(record.peer.address, tables.asmap), []).append(number)
    own = [numbers for numbers in members.values() if any(theirs(tables.records[number]) for number in numbers)]
    return [sum(sides.searches(numbers)) for numbers in own]


def all_theirs(shares: list[int], whole: int) -> int:
    """Of 2^62 lists of tries, how many open all connections to these groups, at most, by what part of the picks each has."""
    total, least = sum(shares), sorted(shares)
    left = TRY_LISTS
    for opened in range(CONNECTIONS if total < whole else 0):
        low = sum(least[:opened]) if opened <= len(least) else total
        left = -(-left * (total - low) // (whole - low))
    return left


def read_set(line: bytes) -> Subnet | int | None:
    """The set of addresses that a line names: a subnet or the number of an AS, None if it is passed over; raises Fault."""
    if not line or line.startswith(b"#"):
        return None
    if line.startswith(b"AS"):
        found = read_number(line[2:], 2 ** 32 - 1) or None
    else:
        found = read_subnet(line, False)
    if found is None:
        raise Fault("peer")
    return found


def is_in(tables: Tables, own: Subnet | int, record: Record) -> bool:
    """Whether a set has the address of a record's peer."""
    address = record.peer.address
    return has(own, address, tables.asmap.number_of(address))


def sets_risk(tables: Tables, sets: list[Subnet | int], now: int = RESTARTED) -> str:
    """The numbers of the tables, a line for the peers of each set, one for those of all, and one for all connections."""
    sides = Sides(tables, now)

    def among(some, record: Record) -> bool:
        return any(is_in(tables, own, record) for own in some)

    def parts(some) -> str:
        numbers = [number for number, record in tables.records.items() if among(some, record)]
        return parts_of(*sides.searches(numbers), sides.searched)
    lines = [f"set {set_text(own)}: {parts([own])}" for own in sets]
    shares = groups_with(tables, sides, lambda record: among(sets, record))
    ten = millionths(all_theirs(shares, sides.searched * WHOLE), TRY_LISTS)
    return "\n".join([heading(tables), *lines, f"union: {parts(sets)}", f"all ten at most {percent(ten)}"])
