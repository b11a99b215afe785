#!/usr/bin/env python3
"""A bad link between two programs on UDP: datagrams are lost, sent twice, and held back until later ones were sent.

    relay.py A_PORT A_PEER B_PORT B_PEER [--lose P] [--repeat P] [--hold P] [--seed N] [--idle SECONDS] [--capture FILE]

What comes to 127.0.0.1:A_PORT goes to 127.0.0.1:B_PEER from B_PORT, and what comes to B_PORT goes to A_PEER from
A_PORT. P are shares from 0 to 1. What becomes of the nth datagram of a direction is the same for the same seed. A
datagram that is held back is sent after one to four later ones, or when none comes. The relay ends by itself where
nothing comes for SECONDS. It writes what it did, and with --capture each datagram that it sent to a pcap file, as a
CFDP PDU in UDP. It needs Python 3.9 or later and its standard library.
"""

from __future__ import annotations

import argparse
import dataclasses
import random
import select
import socket
import struct
import sys
import time
from typing import BinaryIO, Optional

#: A held datagram waits no longer than this, in seconds.
LONGEST_HOLD = 0.02


@dataclasses.dataclass(frozen=True)
class Shares:
    """How many of the datagrams are lost, sent twice and held back, from 0 to 1."""

    lose: float
    repeat: float
    hold: float


class Direction:
    """One direction of the link: what becomes of each datagram."""

    def __init__(self, shares: Shares, seed: str) -> None:
        self._shares = shares
        self._random = random.Random(seed)
        self._held: list[tuple[int, float, bytes]] = []
        self.came = self.lost = self.repeated = self.held = 0

    def passes(self, octets: bytes, now: float) -> list[bytes]:
        """What is sent on, now that this datagram came."""
        self.came += 1
        draws = [self._random.random() for _ in range(3)]
        later = self._random.randint(1, 4)
        out = self._due(now)
        if draws[0] < self._shares.lose:
            self.lost += 1
            return out
        copies = 1
        if draws[1] < self._shares.repeat:
            self.repeated += 1
            copies = 2
        if draws[2] < self._shares.hold:
            self.held += 1
            self._held.append((self.came + later, now + LONGEST_HOLD, octets))
            copies -= 1
        return out + [octets] * copies

    def waits(self, now: float) -> list[bytes]:
        """What is sent on though nothing came."""
        return self._due(now)

    @property
    def is_empty(self) -> bool:
        """Whether nothing is held back."""
        return not self._held

    def _due(self, now: float) -> list[bytes]:
        due = [it for it in self._held if it[0] <= self.came or it[1] <= now]
        self._held = [it for it in self._held if it not in due]
        return [octets for _, _, octets in due]


class Capture:
    """A pcap file of IPv4 and UDP (link type 101), without checksums."""

    def __init__(self, file: BinaryIO) -> None:
        self._file = file
        file.write(struct.pack("<IHHiIII", 0xA1B2C3D4, 2, 4, 0, 0, 65535, 101))

    def add(self, octets: bytes, source: int, destination: int) -> None:
        """One datagram, with its ports."""
        udp = struct.pack(">HHHH", source, destination, 8 + len(octets), 0)
        address = socket.inet_aton("127.0.0.1")
        ip = struct.pack(">BBHHHBBH4s4s", 0x45, 0, 28 + len(octets), 0, 0, 64, 17, 0, address, address)
        now = time.time()
        whole = ip + udp + octets
        self._file.write(struct.pack("<IIII", int(now), int(now % 1 * 1e6), len(whole), len(whole)) + whole)


def opened(port: int) -> socket.socket:
    """A socket that hears on this port, with room for many datagrams."""
    link = socket.socket(socket.AF_INET, socket.SOCK_DGRAM)
    link.setsockopt(socket.SOL_SOCKET, socket.SO_RCVBUF, 4 * 1024 * 1024)
    link.bind(("127.0.0.1", port))
    link.setblocking(False)
    return link


def relay(given: argparse.Namespace, capture: Optional[Capture]) -> tuple[Direction, Direction]:
    """Relays until nothing comes for `given.idle` seconds, and returns what was done each way."""
    shares = Shares(given.lose, given.repeat, given.hold)
    a, b = opened(given.a_port), opened(given.b_port)
    there, back = Direction(shares, f"{given.seed} there"), Direction(shares, f"{given.seed} back")
    ways = {a: (there, b, given.b_port, given.b_peer), b: (back, a, given.a_port, given.a_peer)}
    print("ready", flush=True)
    last = time.monotonic()
    while time.monotonic() - last < given.idle:
        quiet = there.is_empty and back.is_empty
        ready, _, _ = select.select([a, b], [], [], 0.2 if quiet else LONGEST_HOLD / 4)
        now = time.monotonic()
        for link, (way, out, port, peer) in ways.items():
            passed = way.waits(now)
            if link in ready:
                last = now
                try:
                    passed += way.passes(link.recv(65536), now)
                except ConnectionRefusedError:
                    pass
            for octets in passed:
                if capture:
                    capture.add(octets, port, peer)
                try:
                    out.sendto(octets, ("127.0.0.1", peer))
                except ConnectionRefusedError:
                    pass
    a.close()
    b.close()
    return there, back


def main() -> int:
    """The command: see the head of this file."""
    words = argparse.ArgumentParser(description="A bad link between two programs on UDP on this computer.")
    for port in ("a_port", "a_peer", "b_port", "b_peer"):
        words.add_argument(port, type=int)
    for share in ("--lose", "--repeat", "--hold"):
        words.add_argument(share, type=float, default=0.0)
    words.add_argument("--seed", type=int, default=1)
    words.add_argument("--idle", type=float, default=5.0)
    words.add_argument("--capture")
    given = words.parse_args()
    if given.capture:
        with open(given.capture, "wb") as file:
            ways = relay(given, Capture(file))
    else:
        ways = relay(given, None)
    for name, way in zip(("there", "back"), ways):
        print(f"{name}: {way.came} came, {way.lost} lost, {way.repeated} sent twice, {way.held} held back")
    return 0


if __name__ == "__main__":
    sys.exit(main())
