#!/usr/bin/env python3
"""A CFDP sender on UDP, for both classes: one PDU in each datagram.

    send.py PORT PEER_PORT FILE:DESTINATION [FILE:DESTINATION ..] [--class 1|2] [--segment OCTETS] [--crc] [--seconds N]
        [--number N]

It hears on 127.0.0.1:PORT and sends to 127.0.0.1:PEER_PORT. It is written from CCSDS 727.0-B-5 alone and has nothing
of this repository's library in it, so that each can be held against the other. In acknowledged mode (class 2) it
sends the Metadata PDU, the file and the EOF PDU, answers NAK PDUs, sends the EOF PDU again until it is acknowledged,
and acknowledges the Finished PDU. In unacknowledged mode (class 1) it sends each PDU once, and with closure it waits
for the Finished PDU. The transactions are numbered from N. Without it N comes from the clock: a receiver that runs on
does not take a number again. It needs Python 3.9 or later and its standard library.
"""

from __future__ import annotations

import argparse
import binascii
import dataclasses
import select
import socket
import struct
import sys
import time
from collections import deque
from enum import IntEnum
from typing import Iterable, Iterator, Optional


class Directive(IntEnum):
    """Directive codes (section 5.2)."""

    EOF = 4
    FINISHED = 5
    ACK = 6
    METADATA = 7
    NAK = 8
    PROMPT = 9
    KEEP_ALIVE = 12


class Action(IntEnum):
    """Action codes of filestore requests (section 5.4.1)."""

    CREATE_FILE = 0
    DELETE_FILE = 1
    RENAME_FILE = 2
    APPEND_FILE = 3
    REPLACE_FILE = 4
    CREATE_DIRECTORY = 5
    REMOVE_DIRECTORY = 6
    DENY_FILE = 7
    DENY_DIRECTORY = 8


#: The actions whose request has a second file name.
WITH_TWO_NAMES = {Action.RENAME_FILE, Action.APPEND_FILE, Action.REPLACE_FILE}


@dataclasses.dataclass(frozen=True)
class Request:
    """A filestore request: what is to be done at the receiver once the file is there."""

    action: Action
    first: str
    second: str = ""

    def octets(self) -> bytes:
        """The request as a TLV field (section 5.4.1)."""
        value = bytes([self.action << 4]) + lv(self.first)
        if self.action in WITH_TWO_NAMES:
            value += lv(self.second)
        return bytes([0, len(value)]) + value


@dataclasses.dataclass(frozen=True)
class Response:
    """A filestore response of a Finished PDU (section 5.4.2). The status 0 is 'successful' for every action."""

    action: Action
    status: int


@dataclasses.dataclass(frozen=True)
class Finished:
    """What a Finished PDU says (section 5.2.3)."""

    condition: int
    incomplete: bool
    file_status: int
    responses: tuple[Response, ...]


def lv(text: str) -> bytes:
    """A name as a length and its octets (section 5.1)."""
    octets = text.encode()
    return bytes([len(octets)]) + octets


def modular_checksum(octets: bytes) -> int:
    """The modular checksum (checksum procedures): the sum of the file's words of four octets, modulo 2^32."""
    padded = octets + bytes(-len(octets) % 4)
    return sum(word for (word,) in struct.iter_unpack(">I", padded)) % 2**32


def crc16(octets: bytes) -> int:
    """The CRC of a PDU (CRC procedures): x^16 + x^12 + x^5 + 1, with all bits set at the start."""
    return binascii.crc_hqx(octets, 0xFFFF)


@dataclasses.dataclass(frozen=True)
class Header:
    """The fixed header of a PDU (section 5.1): IDs and numbers of one octet, and files below 2^32 octets."""

    is_file_data: bool
    toward_sender: bool
    unacknowledged: bool
    has_crc: bool
    source: int
    number: int
    destination: int

    def pdu(self, data: bytes) -> bytes:
        """A whole PDU with this data field."""
        first = 0x20 | self.is_file_data << 4 | self.toward_sender << 3 | self.unacknowledged << 2 | self.has_crc << 1
        length = len(data) + (2 if self.has_crc else 0)
        octets = bytes([first]) + length.to_bytes(2, "big") + bytes([0x01])  # an ID of one octet, a number of two
        octets += bytes([self.source]) + self.number.to_bytes(2, "big") + bytes([self.destination]) + data
        return octets + crc16(octets).to_bytes(2, "big") if self.has_crc else octets


class BadPdu(ValueError):
    """Octets are no PDU for this sender."""


def read_pdu(octets: bytes) -> tuple[Header, bytes]:
    """The header and the data field of a PDU."""
    if len(octets) < 4 or octets[0] >> 5 != 1:
        raise BadPdu("the version is not 001, or there are fewer than 4 octets")
    first = octets[0]
    id_length = (octets[3] >> 4 & 7) + 1
    number_length = (octets[3] & 7) + 1
    start = 4 + 2 * id_length + number_length
    end = start + int.from_bytes(octets[1:3], "big")
    if len(octets) != end:
        raise BadPdu("the length is not that of the header")
    has_crc = bool(first & 2)
    if has_crc:
        end -= 2
        if crc16(octets[:end]) != int.from_bytes(octets[end:], "big"):
            raise BadPdu("the CRC is wrong")
    at = 4
    source = int.from_bytes(octets[at : at + id_length], "big")
    number = int.from_bytes(octets[at + id_length : at + id_length + number_length], "big")
    destination = int.from_bytes(octets[at + id_length + number_length : start], "big")
    header = Header(bool(first & 16), bool(first & 8), bool(first & 4), has_crc, source, number, destination)
    return header, octets[start:end]


def read_ack(data: bytes) -> int:
    """The directive code of the PDU that an ACK PDU's data field acknowledges (section 5.2.4)."""
    if len(data) != 3:
        raise BadPdu("an ACK PDU that has not three octets")
    return data[1] >> 4


def read_nak(data: bytes) -> list[tuple[int, int]]:
    """The segment requests of a NAK PDU's data field (section 5.2.6), after the scope."""
    if len(data) < 9 or (len(data) - 9) % 8 != 0:
        raise BadPdu("a NAK PDU with a cut segment request")
    words = [int.from_bytes(data[at : at + 4], "big") for at in range(9, len(data), 4)]
    return list(zip(words[0::2], words[1::2]))


def read_response(value: bytes) -> Response:
    """The action and the status of a filestore response (section 5.4.2), without its names."""
    if not value or value[0] >> 4 > max(Action):
        raise BadPdu("a filestore response without an action")
    return Response(Action(value[0] >> 4), value[0] & 15)


def read_finished(data: bytes) -> Finished:
    """What the data field of a Finished PDU says (section 5.2.3)."""
    if len(data) < 2:
        raise BadPdu("a cut Finished PDU")
    responses = []
    rest = data[2:]
    while rest:
        end = 2 + rest[1] if len(rest) > 1 else 2
        if len(rest) < end:
            raise BadPdu("a cut TLV field")
        if rest[0] == 1:
            responses.append(read_response(rest[2:end]))
        rest = rest[end:]
    return Finished(data[1] >> 4, bool(data[1] & 4), data[1] & 3, tuple(responses))


@dataclasses.dataclass
class Upload:
    """One transaction of the sender."""

    number: int
    source_name: str
    destination: str
    octets: bytes
    requests: tuple[Request, ...]
    unacknowledged: bool
    closure: bool
    segment: int
    checksum: int
    #: Where the first pass over the file is; -1 before the Metadata PDU, and None after the EOF PDU.
    at: Optional[int] = -1
    #: What was asked for again: the offsets, or None for the Metadata PDU.
    again: deque = dataclasses.field(default_factory=deque)
    eof_due: Optional[float] = None
    eof_count: int = 0
    eof_acknowledged: bool = False
    finished: Optional[Finished] = None
    finished_count: int = 0
    gave_up: bool = False

    @property
    def has_file(self) -> bool:
        """Whether it brings a file, and not only requests."""
        return bool(self.destination)

    @property
    def is_over(self) -> bool:
        """Whether nothing more is awaited."""
        if self.gave_up:
            return True
        if self.unacknowledged and not self.closure:
            return self.at is None
        return self.finished is not None


class Sender:
    """The sending entity: octets and the time in seconds go in, PDUs come out. It has no socket and no clock."""

    def __init__(
        self,
        entity: int = 1,
        peer: int = 2,
        *,
        has_crc: bool = False,
        interval: float = 0.1,
        limit: int = 200,
        window: int = 8,
        first: int = 1,
    ) -> None:
        """Sends as this entity to that one. `interval` seconds after an EOF PDU without its acknowledgement it is sent
        again, at most `limit` times. At most `window` transactions are under way at once. The first one has the
        sequence number `first`, and each next one has one more: 65,535 at most."""
        self.entity = entity
        self.peer = peer
        self.has_crc = has_crc
        self.interval = interval
        self.limit = limit
        self.window = window
        self.first = first
        self.uploads: dict[int, Upload] = {}
        self._acks: deque[bytes] = deque()
        self._turn = 0

    def put(
        self,
        octets: bytes = b"",
        destination: str = "",
        requests: Iterable[Request] = (),
        *,
        acknowledged: bool = True,
        closure: bool = True,
        segment: int = 1000,
    ) -> int:
        """Begins a transaction (a Put request, section 3.4.1) and returns its sequence number. Without a destination it
        brings no file."""
        number = self.first + len(self.uploads)
        source_name = f"upload-{number}" if destination else ""
        checksum = modular_checksum(octets)
        self.uploads[number] = Upload(
            number, source_name, destination, octets, tuple(requests), not acknowledged, closure, segment, checksum
        )
        return number

    def next_pdu(self, now: float) -> Optional[bytes]:
        """The PDU that is to be sent next, if there is one: acknowledgements, then what was asked for again, then what
        is new."""
        if self._acks:
            return self._acks.popleft()
        under_way = [upload for upload in self.uploads.values() if not upload.is_over][: self.window]
        for upload in under_way:
            if upload.again:
                what = upload.again.popleft()
                return self._metadata(upload) if what is None else self._file_data(upload, *what)
        for upload in under_way:
            if upload.eof_due is not None and upload.eof_due <= now:
                return self._eof(upload, now)
        new = [upload for upload in under_way if upload.at is not None]
        if not new:
            return None
        self._turn += 1
        return self._first_pass(new[self._turn % len(new)], now)

    def received(self, octets: bytes, now: float) -> None:
        """The octets of a PDU came. Raises BadPdu where they are none for this sender, with nothing changed."""
        header, data = read_pdu(octets)
        if header.is_file_data or not header.toward_sender or header.source != self.entity or not data:
            raise BadPdu("the PDU is not for this sender")
        upload = self.uploads.get(header.number)
        if upload is None:
            raise BadPdu("there is no such transaction")
        if data[0] == Directive.ACK:
            if read_ack(data) == Directive.EOF:
                upload.eof_acknowledged = True
                upload.eof_due = None
        elif data[0] == Directive.NAK:
            self._asked(upload, read_nak(data))
        elif data[0] == Directive.FINISHED:
            upload.finished = read_finished(data)
            upload.finished_count += 1
            upload.eof_due = None
            if not upload.unacknowledged:
                self._acks.append(self._ack_finished(upload, upload.finished))

    @property
    def is_over(self) -> bool:
        """Whether all transactions are over and acknowledged."""
        return not self._acks and all(upload.is_over for upload in self.uploads.values())

    # What follows writes PDUs.

    def _header(self, upload: Upload, is_file_data: bool) -> Header:
        return Header(is_file_data, False, upload.unacknowledged, self.has_crc, self.entity, upload.number, self.peer)

    def _metadata(self, upload: Upload) -> bytes:
        closure = upload.closure and upload.unacknowledged  # it has no meaning in acknowledged mode
        data = bytes([Directive.METADATA, closure << 6]) + len(upload.octets).to_bytes(4, "big")
        data += lv(upload.source_name) + lv(upload.destination)
        return self._header(upload, False).pdu(data + b"".join(request.octets() for request in upload.requests))

    def _file_data(self, upload: Upload, start: int, end: int) -> bytes:
        return self._header(upload, True).pdu(start.to_bytes(4, "big") + upload.octets[start:end])

    def _eof(self, upload: Upload, now: float) -> bytes:
        upload.eof_count += 1
        if not upload.unacknowledged:
            upload.gave_up = upload.eof_count > self.limit
            upload.eof_due = None if upload.gave_up else now + self.interval
        data = bytes([Directive.EOF, 0]) + upload.checksum.to_bytes(4, "big") + len(upload.octets).to_bytes(4, "big")
        return self._header(upload, False).pdu(data)

    def _ack_finished(self, upload: Upload, finished: Finished) -> bytes:
        data = bytes([Directive.ACK, Directive.FINISHED << 4 | 1, finished.condition << 4 | 1])
        return self._header(upload, False).pdu(data)

    def _first_pass(self, upload: Upload, now: float) -> bytes:
        at = upload.at
        assert at is not None
        if at < 0:
            upload.at = 0
            return self._metadata(upload)
        if at < len(upload.octets):
            upload.at = min(at + upload.segment, len(upload.octets))
            return self._file_data(upload, at, upload.at)
        upload.at = None
        return self._eof(upload, now)

    def _asked(self, upload: Upload, requests: list[tuple[int, int]]) -> None:
        """Answers a NAK PDU (lost segment procedures): each segment that is asked for once, also where it is asked for
        twice."""
        waiting = set(upload.again)
        for what in self._pieces(upload, requests):
            if what not in waiting:
                waiting.add(what)
                upload.again.append(what)

    @staticmethod
    def _pieces(upload: Upload, requests: list[tuple[int, int]]) -> Iterator[Optional[tuple[int, int]]]:
        for start, end in requests:
            if start == 0 and end == 0:
                yield None
            for at in range(start, min(end, len(upload.octets)), upload.segment):
                yield at, min(at + upload.segment, end, len(upload.octets))


def run(
    sender: Sender, link: socket.socket, peer: tuple[str, int], seconds: float, linger: float, pace: float = 0.0
) -> None:
    """Sends over a UDP socket until all transactions are over and no PDU came for `linger` seconds, or for `seconds`
    seconds at most. `pace` is the least time between two PDUs, in seconds."""
    link.setblocking(False)
    begun = heard = time.monotonic()
    sent = 0.0
    while time.monotonic() - begun < seconds:
        now = time.monotonic()
        if sender.is_over and now - heard > linger:
            return
        octets = sender.next_pdu(now) if now - sent >= pace else None
        if octets is not None:
            link.sendto(octets, peer)
            sent = now
        wait = 0.0 if octets is not None else max(min(pace, 0.02), 0.0005)
        while select.select([link], [], [], wait)[0]:
            wait = 0.0
            heard = time.monotonic()
            try:
                sender.received(link.recv(65536), heard)
            except BadPdu as why:
                print(f"dropped: {why}", file=sys.stderr)
            except ConnectionRefusedError:
                pass


def main() -> int:
    """The command: see the head of this file."""
    words = argparse.ArgumentParser(description="Sends files by CFDP over UDP on this computer.")
    words.add_argument("port", type=int)
    words.add_argument("peer_port", type=int)
    words.add_argument("files", nargs="+", metavar="FILE:DESTINATION")
    words.add_argument("--class", dest="transfer_class", type=int, choices=(1, 2), default=2)
    words.add_argument("--segment", type=int, default=1000, help="octets of the file in each PDU")
    words.add_argument("--crc", action="store_true", help="PDUs have a CRC")
    words.add_argument("--seconds", type=float, default=60.0, help="how long it tries")
    words.add_argument("--number", type=int, help="the first sequence number, 0 to 65535; else one of the clock")
    given = words.parse_args()
    first = int(time.time()) % 60_000 + 1 if given.number is None else given.number
    sender = Sender(has_crc=given.crc, first=first)
    for pair in given.files:
        name, _, destination = pair.partition(":")
        with open(name, "rb") as file:
            sender.put(file.read(), destination, acknowledged=given.transfer_class == 2, segment=given.segment)
    with socket.socket(socket.AF_INET, socket.SOCK_DGRAM) as link:
        link.bind(("127.0.0.1", given.port))
        run(sender, link, ("127.0.0.1", given.peer_port), given.seconds, linger=1.0, pace=0.0001)
    failed = 0
    for upload in sender.uploads.values():
        end = upload.finished
        print(f"{sender.entity}/{upload.number} {upload.destination}: {end if end else 'no Finished PDU'}")
        failed += not upload.is_over or (end is not None and end.condition != 0)
    return 1 if failed else 0


if __name__ == "__main__":
    sys.exit(main())
