"""The file banlist.json."""

from typing import NamedTuple

from addresses import (
    CJDNS, I2P, INTERNAL, IPV4, IPV6, ONION, Address, address_text, from_sixteen, ipv4_text,
    ipv6_text, read_address, read_ipv4, read_ipv6,
)
from json_text import Integer, Members, read_json, written_json
from names import name_of, read_name
from text import Fault, read_number

MAXIMUM_BYTES = 33_554_432
MAXIMUM_BANS = 100_000
LARGEST_TIME = 4294967295
OWN_NAMES = ("address", "ban_created", "banned_until", "version")
WHOLE = (ONION, I2P, CJDNS)
ORDER = (IPV4, IPV6, ONION, I2P, CJDNS)


class Subnet(NamedTuple):
    """A network, the first address of a subnet, and the number of its leading bits."""

    network: str
    data: bytes
    length: int

    def covers(self, address: Address) -> bool:
        """Whether the subnet has an address."""
        return address.network == self.network and cleared(address.data, self.length) == self.data


class Ban(NamedTuple):
    """The time when a ban was made, and that when it is over."""

    made: int
    until: int


class BanList(NamedTuple):
    """A list, the members of its file, and whether it is read and written as Bitcoin Core does. `found` has the members of the elements
    of each subnet besides those of a ban, and `others` the elements that are no bans."""

    bans: dict[Subnet, Ban]
    members: list[tuple]
    found: dict[Subnet, list[tuple]]
    others: list
    core: bool


def cleared(data: bytes, length: int) -> bytes:
    """The bytes with only their first bits left."""
    shift = 8 * len(data) - length
    return (int.from_bytes(data, "big") >> shift << shift).to_bytes(len(data), "big")


def read_subnet(written: bytes, core: bool) -> Subnet | None:
    """The subnet that a text writes."""
    address = read_name(written) if core else read_address(written)
    if address is not None and address.network in WHOLE:
        return Subnet(address.network, address.data, 8 * len(address.data))
    host, slash, length_text = written.partition(b"/")
    data = read_ipv4(host)
    if data is not None:
        network = IPV4
    else:
        data = read_ipv6(host)
        if data is None:
            return None
        network, data = from_sixteen(data)
        if network != IPV6:
            return None
    length = read_number(length_text, 8 * len(data)) if slash else 8 * len(data)
    if length is None:
        return None
    data = cleared(data, length)
    if network == IPV6 and from_sixteen(data).network == INTERNAL:
        return None
    return Subnet(network, data, length)


def subnet_name(subnet: Subnet) -> str:
    """The name of a subnet: only IPv4 and IPv6 have a length."""
    length = f"/{subnet.length}" if subnet.network in (IPV4, IPV6) else ""
    return name_of(Address(subnet.network, subnet.data)) + length


def subnet_text(subnet: Subnet, core: bool) -> str:
    """A subnet as it is printed."""
    if core:
        return subnet_name(subnet)
    if subnet.network == IPV4:
        return f"{ipv4_text(subnet.data)}/{subnet.length}"
    if subnet.network == IPV6:
        return f"{ipv6_text(subnet.data)}/{subnet.length}"
    return address_text(Address(subnet.network, subnet.data))


def read_element(element, core: bool) -> tuple[Subnet, Ban] | None:
    """The subnet and the ban of an element that counts."""
    if not isinstance(element, dict):
        return None
    version, address = element.get("version"), element.get("address")
    times = [element.get("ban_created"), element.get("banned_until")]
    if not isinstance(version, Integer) or version != 1 or type(address) is not str:
        return None
    if not all(isinstance(time, Integer) for time in times):
        return None
    subnet = read_subnet(address.encode(), core)
    if subnet is None:
        return None
    return subnet, Ban(*(int(min(max(time, 0), LARGEST_TIME)) for time in times))


def read_list(data: bytes, core: bool) -> BanList:
    """The list of a file, in its order; raises Fault."""
    value = read_json(data)
    elements = value.get("banned_nets") if isinstance(value, dict) else None
    if type(elements) is not list:
        raise Fault("form")
    read = [(element, read_element(element, core)) for element in elements]
    pairs = [pair for _, pair in read if pair is not None]
    if len(pairs) > MAXIMUM_BANS:
        raise Fault("too-many")
    found: dict[Subnet, list[tuple]] = {}
    for element, pair in read:
        if pair is not None:
            found.setdefault(pair[0], []).extend(part for part in element.pairs if part[0] not in OWN_NAMES)
    return BanList(dict(pairs), value.pairs, found, [element for element, pair in read if pair is None], core)


def place(pair: tuple[Subnet, Ban]) -> tuple:
    """Where Bitcoin Core has a ban in its list: by network, address and length."""
    network, data, length = pair[0]
    return ORDER.index(network), data, length


def written_list(listed: BanList) -> bytes:
    """The file of a list."""
    pairs = sorted(listed.bans.items(), key=place) if listed.core else listed.bans.items()
    elements: list = []
    for subnet, own in pairs:
        values = (subnet_text(subnet, listed.core), own.made, own.until, 1)
        besides = listed.found.get(subnet, []) if listed.core else []
        elements.append(Members([*zip(OWN_NAMES, values), *besides]))
    if not listed.core:
        return written_json(Members([("banned_nets", elements)])).encode()
    return written_json(Members(with_list(listed.members, elements + listed.others))).encode()


def with_list(members: list[tuple], elements: list) -> list[tuple]:
    """The members of a file, with a list in the place of the first one that has its name, and no other one of it."""
    names = [name for name, _ in members]
    at = names.index("banned_nets") if "banned_nets" in names else len(names)
    after = [part for part in members[at:] if part[0] != "banned_nets"]
    return [*members[:at], ("banned_nets", elements), *after]


def ban(listed: BanList, subnet: Subnet, now: int, until: int) -> str:
    """Bans a subnet; the answer, after which the list is only valid if it is `ban added`."""
    bans = listed.bans
    for own in [own for own, old in bans.items() if old.until + listed.core <= now]:
        del bans[own]
    if subnet in bans and bans[subnet].until >= until:
        return "ban kept"
    if subnet not in bans and len(bans) >= MAXIMUM_BANS:
        return "ban full"
    bans[subnet] = Ban(now, until)
    return "ban added"


def banned(listed: BanList, address: Address, now: int) -> str:
    """The first ban that covers an address and ends after a time."""
    for subnet, own in listed.bans.items():
        if subnet.covers(address) and own.until > now:
            return f"banned {subnet_text(subnet, listed.core)} {own.until}"
    return "free"


def has(own: Subnet | int, address: Address, number: int) -> bool:
    """Whether a set has an address that the autonomous system of the number announces."""
    return number == own if isinstance(own, int) else own.covers(address)


def set_text(own: Subnet | int) -> str:
    """How a set is printed."""
    return f"AS{own}" if isinstance(own, int) else subnet_text(own, False)
