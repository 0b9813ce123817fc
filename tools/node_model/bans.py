"""banlist.json as a node of Bitcoin Core reads and writes it, from memory of banman.cpp, addrdb.cpp, net_types.cpp, netbase.cpp
and univalue of release 29."""
import ipaddress
import json

from addresses import IPV4, IPV6
from names import name_of, read_address


class Dropped(Exception):
    """Why a node drops a whole list."""


class Members(list):
    """The members of an object, in their order."""

    def first(self, name):
        return next((value for key, value in self if key == name), None)


class Number(str):
    """The text of a number."""


def whole(value, bits):
    """`getInt`."""
    if not isinstance(value, Number) or not value.removeprefix("-").isdigit():
        raise Dropped("no integer")
    if not -1 << bits - 1 <= int(value) < 1 << bits - 1:
        raise Dropped("out of range")
    return int(value)


def subnet(text):
    """`LookupSubNet` and `CSubNet::ToString`; None if the text is no subnet."""
    host, slash, mask = text.partition("/")
    address = read_address(host)
    if address is None or slash and address.network not in (IPV4, IPV6):
        return None
    if address.network not in (IPV4, IPV6):
        return name_of(address)
    bits = 8 * len(address.data)
    try:
        length = bits if not slash else int(mask) if mask.isdigit() else None
        if length is None:
            number = int.from_bytes(ipaddress.ip_address(mask).packed, "big")
            length = number.bit_count()
            if number != (1 << bits) - (1 << bits - length):
                return None
        return str(ipaddress.ip_network((address.data, length), strict=False))
    except ValueError:
        return None


def read(text):
    """The bans of a list, each subnet with its two times."""
    try:
        value = json.loads(text, object_pairs_hook=Members, parse_int=Number, parse_float=Number)
    except ValueError:
        raise Dropped("no JSON") from None
    if not isinstance(value, Members) or len({name for name, _ in value}) < len(value):
        raise Dropped("members")
    listed, found = value.first("banned_nets"), {}
    if isinstance(listed, Members):
        listed = [value for _, value in listed]
    if not isinstance(listed, list):
        raise Dropped("no list")
    for each in listed:
        if not isinstance(each, Members):
            raise Dropped("element")
        if whole(each.first("version"), 32) != 1:
            continue
        name = each.first("address")
        if not isinstance(name, str) or isinstance(name, Number):
            raise Dropped("address")
        banned = subnet(name)
        if banned is not None:
            found[banned] = whole(each.first("ban_created"), 64), whole(each.first("banned_until"), 64)
    return found


def written(bans):
    listed = [{"version": 1, "ban_created": created, "banned_until": until, "address": name}
              for name, (created, until) in bans.items()]
    return json.dumps({"banned_nets": listed}) + "\n"


def after_sweep(bans, now):
    """`SweepBanned`."""
    return {name: times for name, times in bans.items() if now <= times[1]}
