"""Addresses and records as a node of Bitcoin Core writes them for people, from memory of netaddress.cpp, netbase.cpp and
rpc/net.cpp of release 29."""
import ipaddress
from base64 import b32decode, b32encode
from hashlib import sha3_256

from addresses import CJDNS, I2P, INTERNAL, INTERNAL_PREFIX, IPV4, IPV6, MAPPED, ONION, Address

NAMES = ["not_publicly_routable", "ipv4", "ipv6", "onion", "i2p", "cjdns", "internal"]
COUNTED = [IPV4, IPV6, ONION, I2P, CJDNS]


def name_of(address):
    """`ToStringAddr`."""
    if address.network in (IPV4, IPV6, CJDNS):
        return str(ipaddress.ip_address(address.data))
    letters = address.data
    if address.network == ONION:
        letters += sha3_256(b".onion checksum" + letters + b"\3").digest()[:2] + b"\3"
    suffix = {ONION: ".onion", I2P: ".b32.i2p", INTERNAL: ".internal"}[address.network]
    return b32encode(letters).decode().lower().rstrip("=") + suffix


def read_address(text, reaches_cjdns=False):
    """`LookupHost`, with `MaybeFlipIPv6toCJDNS` for a node that reaches CJDNS; None if the text is no address."""
    for suffix, network, letters in ((".onion", ONION, 56), (".b32.i2p", I2P, 52)):
        label = text.lower().removesuffix(suffix)
        if label != text.lower():
            data = b32decode(label.upper() + "=" * (-len(label) % 8))[:32] if len(label) == letters else b""
            address = Address(network, data)
            return address if len(data) == 32 and name_of(address) == text.lower() else None
    try:
        data = ipaddress.ip_address(text).packed
    except ValueError:
        return None
    if len(data) == 4 or data[:12] == MAPPED:
        return Address(IPV4, data[-4:])
    if data[:6] == INTERNAL_PREFIX:
        return Address(INTERNAL, data[6:])
    return Address(CJDNS if reaches_cjdns and data[0] == 0xFC else IPV6, data)


def described(info, groups):
    """What `getrawaddrman` says of a record."""
    said = {"address": name_of(info.address), "port": info.port, "services": info.services, "time": info.time,
            "network": NAMES[info.address.net_class()], "source": name_of(info.source),
            "source_network": NAMES[info.source.net_class()]}
    numbers = {"mapped_as": groups.asn(info.address), "source_mapped_as": groups.asn(info.source)}
    return said | {name: number for name, number in numbers.items() if number}


def counts(node):
    """`getaddrmaninfo`."""
    def of(infos):
        tried = sum(info.is_tried for info in infos)
        return {"new": len(infos) - tried, "tried": tried, "total": len(infos)}

    infos = list(node.infos.values())
    routable = [info for info in infos if info.address.is_routable()]
    by_network = {NAMES[network]: of([it for it in routable if it.address.network == network]) for network in COUNTED}
    return by_network | {"all_networks": of(infos)}
