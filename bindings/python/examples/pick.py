"""Opens a peers.dat, takes a message, and picks a peer to connect to: pick.py PEERS.DAT.

    PYTHONPATH=bindings/python ADDRMAN_LIBRARY=bin/lib/libaddrman.so.1 python3 bindings/python/examples/pick.py FILE
"""
import secrets
import sys
import time

import addrman


def words(count: int) -> list[int]:
    return [secrets.randbits(64) for _ in range(count)]


def pick(known: addrman.AddrMan, now: int):
    """Picks a peer. Where the random words do not suffice, they are kept, and more follow them."""
    drawn: list[int] = []
    while True:
        drawn += words(300)
        try:
            return known.select(False, addrman.ALL_NETS, drawn, now)
        except addrman.Error as fault:
            if fault.code != addrman.EXHAUSTED or len(drawn) > addrman.MAX_RECORDS:
                raise


def main() -> int:
    now = int(time.time())
    with open(sys.argv[1], "rb") as file:
        try:
            known = addrman.AddrMan.load(file.read(), addrman.MAIN, (secrets.randbits(64), secrets.randbits(64)))
        except addrman.Refused as fault:
            print(f"{sys.argv[1]}: {fault}", file=sys.stderr)
            return 1
    with known:
        # An addrv2 message of one entry: 8.8.8.8:8333, seen now, with the services 9.
        payload = b"\1" + now.to_bytes(4, "little") + bytes([9, 1, 4, 8, 8, 8, 8, 0x20, 0x8D])
        print("added %d of %d" % known.take_message(True, payload, "1.2.3.4", words(1), now))
        for attempt in range(1, 101):
            picked = pick(known, now)
            if picked and known.judge(*picked, now, attempt) == "take":
                print("connect to", picked[0])
                return 0
    return 1


sys.exit(main())
