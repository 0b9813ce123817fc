"""The difference of two asmaps, as the prefixes whose number changes.

A cursor stands for the addresses that begin with certain bits: it is ("return", number), ("jump",
left part, right part, default) or ("match", bits, tree, default).
"""

from typing import NamedTuple

from addresses import IPV4_IN_IPV6, Peer, peer_text
from asmap import ADDRESS_BITS, Asmap, Row
from places import group
from prefixes import IPV4_LENGTH, MAXIMUM_ROWS, row_text

MAXIMUM_CHANGES = MAXIMUM_ROWS


class Change(NamedTuple):
    """A prefix whose addresses have one number in the old asmap and another one in the new."""

    path: str
    old: int
    new: int

    def prefix(self) -> str:
        """The prefix as it is printed."""
        row = Row(int(self.path.ljust(ADDRESS_BITS, "0"), 2), len(self.path), 0)
        return row_text(row).partition(" ")[0]

    def line(self) -> str:
        """The change as it is printed."""
        if self.new == 0:
            return f"# {self.prefix()} was AS{self.old}"
        old = f"AS{self.old}" if self.old else "unassigned"
        return f"{self.prefix()} AS{self.new} # was {old}"

    def is_ipv4(self) -> bool:
        """Whether the addresses are IPv4 addresses in their IPv6 form."""
        carried = f"{int.from_bytes(IPV4_IN_IPV6, 'big'):0{IPV4_LENGTH}b}"
        return self.path.startswith(carried)


def cursor_at(tree: tuple, default: int) -> tuple:
    """The cursor at a tree."""
    while tree[0] == "default":
        _, default, tree = tree
    return tree if tree[0] == "return" else (*tree, default)


def sides(cursor: tuple) -> tuple[tuple, tuple]:
    """The cursors after a zero-bit and after a one-bit."""
    if cursor[0] == "return":
        return cursor, cursor
    if cursor[0] == "jump":
        _, left, right, default = cursor
        return cursor_at(left, default), cursor_at(right, default)
    _, bits, tree, default = cursor
    wanted = ("match", bits[1:], tree, default) if bits[1:] else cursor_at(tree, default)
    other = ("return", default)
    return (other, wanted) if bits[0] == "1" else (wanted, other)


def changes(old: tuple, new: tuple) -> list[Change]:
    """The largest prefixes on which both trees are constant and differ, in order."""
    found: list[Change] = []

    def give(path: str, pair: tuple[int, int]):
        if pair[0] != pair[1]:
            found.append(Change(path, *pair))

    def go(path: str, old: tuple, new: tuple) -> tuple[int, int] | None:
        """The pair of numbers of all addresses, or None after their changes were found."""
        if old[0] == new[0] == "return":
            return old[1], new[1]
        before = len(found)
        pairs = []
        for bit, old_side, new_side in zip("01", sides(old), sides(new)):
            pairs.append(go(path + bit, old_side, new_side))
            if pairs[-1]:
                give(path + bit, pairs[-1])
        if pairs[0] and pairs[0] == pairs[1]:
            del found[before:]
            return pairs[0]
        return None

    pair = go("", cursor_at(old, 0), cursor_at(new, 0))
    if pair:
        give("", pair)
    return found


def lines_of(found: list[Change]) -> list[str]:
    """The changes as they are printed, and the line of how many addresses they are."""
    counts = {True: 0, False: 0}
    for change in found:
        counts[change.is_ipv4()] += 1 << ADDRESS_BITS - len(change.path)
    total = f"# {counts[True]} IPv4 addresses changed; {counts[False]} IPv6 addresses changed"
    return [change.line() for change in found] + [total]


def group_changes(old: Asmap, new: Asmap, peers: list[Peer]) -> list[str]:
    """A line for each of the peers whose group changes, and one of how many these are."""
    lines = []
    for peer in peers:
        before, after = (group(peer.address, asmap).hex() for asmap in (old, new))
        if before != after:
            lines.append(f"# {peer_text(peer)} group {after} was {before}")
    return [*lines, f"# {len(lines)} of {len(peers)} records change their group"]
