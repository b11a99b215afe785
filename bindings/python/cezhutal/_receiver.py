"""The receiver in acknowledged and unacknowledged mode: `include/cfdp_receiver.h`."""

from __future__ import annotations

import dataclasses
from ctypes import byref, c_size_t, c_uint8, c_uint64
from enum import IntEnum
from types import TracebackType
from typing import Any, Iterator, Optional, Type

from ._answers import check, is_there
from ._engine import Engine, Filestore
from ._library import LIBRARY, HandleStruct, IndicationStruct, MibStruct, ReportStruct, Transaction
from ._library import buffer_of, filled, fitting
from ._replies import Reply, reply_of


class Handler(IntEnum):
    """What is done at a fault (fault handling procedures)."""

    CANCEL = 1
    IGNORE = 2
    ABANDON = 3


class NakMode(IntEnum):
    """When lost segments are asked for (lost segment procedures): after the EOF PDU, or also when a gap begins."""

    DEFERRED = 1
    IMMEDIATE = 2


class Became(IntEnum):
    """What became of an input (`enum cfdp_became`)."""

    NOTHING = 0
    NOT_OURS = 1
    REPLIED = 2
    NOT_FOR_US = 3
    TABLE_FULL = 4
    DUPLICATE = 5
    IDLE = 6
    UNKNOWN = 7
    HELD = 8
    FAULTED = 9
    ACKNOWLEDGED = 10
    ANSWERED = 11
    CANCELLED = 12
    EXPIRED = 13
    KEPT_ALIVE = 14
    IGNORED = 15
    FINISHED = 16
    CLOSED = 17
    LIST_BEGUN = 18
    SOURCES_FULL = 19
    TOO_FAR_AHEAD = 20


class IndicationKind(IntEnum):
    """Indications (section 3.4)."""

    METADATA_RECV = 1
    FILE_SEGMENT_RECV = 2
    EOF_RECV = 3
    TRANSACTION_FINISHED = 4
    FAULT = 5
    ABANDONED = 6


@dataclasses.dataclass(frozen=True)
class Retries:
    """A timer after which a PDU is sent again: its interval in ticks, the expiry that is a fault (1 to 1000), and what
    is done then."""

    interval: int
    limit: int
    handler: Handler = Handler.CANCEL


@dataclasses.dataclass(frozen=True)
class Watch:
    """A timer after which something is looked after: its interval in ticks, and what is done at the fault."""

    interval: int
    handler: Handler = Handler.CANCEL


@dataclasses.dataclass(frozen=True)
class Mib:
    """What the management information base (section 8) says of the receiver. Times are in ticks of the caller's clock.

    keep_alive: the time between Keep Alive PDUs; 0: none is sent. has_crc: PDUs that are sent have a CRC.
    longest_nak: how many octets a NAK PDU has at most, 72 to 65535. most_ahead: how far ahead of the latest moment
    another one may be; 0: there is no limit.
    """

    ack: Retries = Retries(1000, 10)
    nak: Retries = Retries(1000, 10)
    check: Watch = Watch(1000)
    inactivity: Watch = Watch(60000)
    keep_alive: int = 0
    nak_mode: NakMode = NakMode.DEFERRED
    has_crc: bool = False
    longest_nak: int = 1000
    most_ahead: int = 0

    def struct(self) -> MibStruct:
        """As the library takes it. Raises ValueError where a number has no room there."""
        return filled(
            MibStruct,
            ack_interval=self.ack.interval,
            ack_limit=self.ack.limit,
            ack_handler=self.ack.handler,
            nak_interval=self.nak.interval,
            nak_limit=self.nak.limit,
            nak_handler=self.nak.handler,
            check_interval=self.check.interval,
            check_handler=self.check.handler,
            inactivity_interval=self.inactivity.interval,
            inactivity_handler=self.inactivity.handler,
            keep_alive_interval=self.keep_alive,
            nak_mode=self.nak_mode,
            has_crc=self.has_crc,
            longest_nak=self.longest_nak,
            most_ahead=self.most_ahead,
        )


@dataclasses.dataclass(frozen=True)
class Indication:
    """What the user is notified of, and the numbers that it brings. A number that its kind has no use for is 0.

    length is the size of the file at METADATA_RECV, and the octets of the segment at FILE_SEGMENT_RECV.
    """

    kind: IndicationKind
    transaction: Transaction
    condition: int
    incomplete: bool
    file_status: int
    closure: bool
    checksum_type: int
    offset: int
    length: int


@dataclasses.dataclass(frozen=True)
class Report:
    """What became of an input: the PDUs that are to be sent now, what the user is notified of, and the reply of the
    entity where it was asked."""

    became: Became
    transaction: Transaction
    pdus: tuple[bytes, ...]
    indication: Optional[Indication]
    reply: Optional[Reply]


class Receiver:
    """A receiver over an engine, which is the receiver's from then on. Its memory is given back by `free`, or at the
    end of a `with` block.

    A driver calls `receive` with what comes, or `expire` when the `deadline` has passed, and then goes through
    `work_off`. It sends the PDUs of each report. A moment `now` that is not 0 to 2^64 - 1 raises ValueError.
    """

    def __init__(self, engine: Engine, mib: Mib) -> None:
        """Raises ValueError for a number that has no room in the library's struct; NoEngine; BadHandler, BadNakMode,
        BadInterval, BadLimit or BadLongestNak; HasTransactions; or NoMemory, after which the engine is freed."""
        self.handle = HandleStruct()
        struct = mib.struct()
        check(LIBRARY.cfdp_receiver_new(byref(self.handle), byref(engine.handle), byref(struct)))
        self.filestore = Filestore(self.handle, "cfdp_receiver_")
        self._out = (c_uint8 * max(16490, mib.longest_nak))()

    def __enter__(self) -> Receiver:
        return self

    def __exit__(
        self, kind: Optional[Type[BaseException]], why: Optional[BaseException], trace: Optional[TracebackType]
    ) -> None:
        LIBRARY.cfdp_receiver_free(byref(self.handle))  # it may be freed by now

    def free(self) -> None:
        """Frees the receiver. Raises NoEngine where it was freed."""
        check(LIBRARY.cfdp_receiver_free(byref(self.handle)))

    def receive(self, now: int, octets: bytes) -> Report:
        """The octets of one whole PDU came. Raises BadCrc or the first other fault of the octets; or NoMemory for a
        Metadata PDU."""
        return self._call_at(LIBRARY.cfdp_receiver_receive, now, buffer_of(octets), len(octets))

    def expire(self, now: int) -> Report:
        """Time has passed: the first timer that is due is served."""
        return self._call_at(LIBRARY.cfdp_receiver_expire, now)

    def work(self, now: int) -> Report:
        """The next item of the first transaction that has one is performed."""
        return self._call_at(LIBRARY.cfdp_receiver_work, now)

    def finish(self, now: int) -> Report:
        """The outcome of the first transaction that is over is taken. Raises NoMemory."""
        return self._call_at(LIBRARY.cfdp_receiver_finish, now)

    def cancel(self, now: int, transaction: Transaction) -> Report:
        """The user cancels a transaction."""
        return self._call_at(LIBRARY.cfdp_receiver_cancel, now, transaction.source, transaction.number)

    def forget_closed(self) -> Report:
        """The names of the transactions that were closed last are forgotten."""
        return self._call(LIBRARY.cfdp_receiver_forget_closed)

    def move_clock(self, now: int) -> Report:
        """The caller's clock was set, back or ahead: it is `now` by now. What is left of each timer stays."""
        return self._call_at(LIBRARY.cfdp_receiver_move_clock, now)

    def work_off(self, now: int) -> Iterator[Report]:
        """Performs all items and takes all outcomes: the report of each. There is none at a moment too far ahead."""
        for call in (self.work, self.finish):
            while True:
                report = call(now)
                if report.became in (Became.NOTHING, Became.TOO_FAR_AHEAD):
                    break
                yield report

    def deadline(self) -> Optional[int]:
        """The moment from which on a timer is due, if one runs."""
        moment = c_uint64()
        return moment.value if is_there(LIBRARY.cfdp_receiver_deadline(byref(self.handle), byref(moment))) else None

    def _call_at(self, call: Any, now: int, *words: Any) -> Report:
        return self._call(call, fitting("now", now, 64), *words)

    def _call(self, call: Any, *words: Any) -> Report:
        struct = ReportStruct()
        check(call(byref(self.handle), *words, byref(struct)))
        return Report(
            Became(struct.became),
            struct.transaction.value(),
            tuple(self._pdu(number) for number in range(struct.pdus)),
            _indication(struct.indication),
            reply_of(struct.reply) if struct.reply.kind else None,
        )

    def _pdu(self, number: int) -> bytes:
        count = c_size_t()
        check(LIBRARY.cfdp_receiver_write(byref(self.handle), number, self._out, len(self._out), byref(count)))
        return bytes(self._out[: count.value])


def _indication(struct: IndicationStruct) -> Optional[Indication]:
    if struct.kind == 0:
        return None
    return Indication(
        IndicationKind(struct.kind),
        struct.transaction.value(),
        struct.condition,
        bool(struct.incomplete),
        struct.file_status,
        bool(struct.closure),
        struct.checksum_type,
        struct.offset,
        struct.length,
    )
