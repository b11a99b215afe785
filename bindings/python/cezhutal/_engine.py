"""The entity without timers: `include/cfdp.h`."""

from __future__ import annotations

import dataclasses
from ctypes import byref, c_size_t, c_uint8
from types import TracebackType
from typing import Any, Callable, Iterator, Optional, Sequence, Type

from ._answers import check, is_there
from ._library import (
    LIBRARY,
    ConfigStruct,
    Entry,
    EntryKind,
    EntryStruct,
    HandleStruct,
    PathStruct,
    ReplyStruct,
    Transaction,
    TransactionStruct,
    buffer_of,
    filled,
    path_struct,
    path_text,
)
from ._replies import Reply, reply_of

#: The octets of the longest Finished PDU.
_LONGEST_FINISHED = 16488


@dataclasses.dataclass(frozen=True)
class Config:
    """What the management information base (section 8) says of the entity.

    entity: its entity ID. blocks: of 128 octets, in the filestore, 16 to 65536. cap: how many octets a file of
    unbounded size may have, at most 7864320. checks: how often a check timer may expire, 1 to 1000. protected: at
    most 8 paths; what exists at or below one of them is neither changed nor removed by a request. A str instead of a
    list raises TypeError: it would be a path for each of its letters.
    """

    entity: int
    blocks: int = 4096
    cap: int = 7864320
    checks: int = 10
    protected: Sequence[str] = ()

    def __post_init__(self) -> None:
        if isinstance(self.protected, str):
            raise TypeError(f"protected is the str {self.protected!r}, and not a sequence of paths")

    def struct(self) -> ConfigStruct:
        """As the library takes it. Raises ValueError where a number has no room there."""
        return filled(ConfigStruct, entity=self.entity, cap=self.cap, blocks=self.blocks, checks=self.checks)


class Filestore:
    """What an engine and a receiver tell of their filestore."""

    def __init__(self, handle: HandleStruct, prefix: str) -> None:
        self._handle = handle
        self._calls = {
            name: getattr(LIBRARY, prefix + name) for name in ("look_up", "read", "next", "destination_name")
        }

    def look_up(self, path: str) -> Optional[Entry]:
        """What exists at a path, if anything. Raises BadPath."""
        entry = EntryStruct()
        if not is_there(self._calls["look_up"](byref(self._handle), byref(path_struct(path)), byref(entry))):
            return None
        return Entry(path, EntryKind(entry.kind), entry.checksum, entry.size)

    def read(self, path: str) -> bytes:
        """The octets of a file. Raises Nothing where no file exists at the path, and BadPath."""
        out = (c_uint8 * 65536)()
        count = c_size_t()
        octets = bytearray()
        struct = path_struct(path)
        while True:
            check(self._calls["read"](byref(self._handle), byref(struct), len(octets), out, len(out), byref(count)))
            if count.value == 0:
                return bytes(octets)
            octets += memoryview(out)[: count.value]

    def entries(self) -> Iterator[Entry]:
        """All directories and files in path order, a directory before what is below it."""
        path, entry = PathStruct(), EntryStruct()
        while is_there(self._calls["next"](byref(self._handle), byref(path), byref(entry))):
            yield Entry(path_text(path), EntryKind(entry.kind), entry.checksum, entry.size)

    def destination_name(self, transaction: Transaction) -> str:
        """The destination file name of a transaction's Metadata PDU, empty if it brings no file. Raises Nothing if it
        is not known."""
        out = (c_uint8 * 256)()
        count = c_size_t()
        name = self._calls["destination_name"]
        check(name(byref(self._handle), transaction.source, transaction.number, out, len(out), byref(count)))
        return bytes(out[: count.value]).decode(errors="surrogateescape")


class Engine:
    """A receiving entity without timers. Its memory is given back by `free`, or at the end of a `with` block."""

    def __init__(self, config: Config) -> None:
        """Raises ValueError for a number that has no room in the library's struct; BadPath or TooManyPrefixes for the
        protected paths, and then BadBlocks, BadCap or BadChecks; or NoMemory."""
        self.handle = HandleStruct()
        paths = (PathStruct * max(len(config.protected), 1))(*map(path_struct, config.protected))
        struct = config.struct()
        check(LIBRARY.cfdp_new(byref(self.handle), byref(struct), paths, len(config.protected)))
        self.filestore = Filestore(self.handle, "cfdp_")

    def __enter__(self) -> Engine:
        return self

    def __exit__(
        self, kind: Optional[Type[BaseException]], why: Optional[BaseException], trace: Optional[TracebackType]
    ) -> None:
        LIBRARY.cfdp_free(byref(self.handle))  # it may be a receiver's by now

    def free(self) -> None:
        """Frees the engine. Raises NoEngine where it was freed, or is a receiver's."""
        check(LIBRARY.cfdp_free(byref(self.handle)))

    def put_directory(self, path: str) -> None:
        """Puts a directory at a path before the first PDU. Raises BadPath, HasTransactions, Exists, NoParent,
        FilestoreFull or NoMemory."""
        self._put(path, EntryKind.DIRECTORY, b"")

    def put_file(self, path: str, octets: bytes) -> None:
        """Puts a file at a path before the first PDU, as `put_directory` puts a directory."""
        self._put(path, EntryKind.FILE, octets)

    def _put(self, path: str, kind: EntryKind, octets: bytes) -> None:
        check(LIBRARY.cfdp_put(byref(self.handle), byref(path_struct(path)), kind, buffer_of(octets), len(octets)))

    def receive(self, octets: bytes) -> Reply:
        """Takes the octets of one whole PDU. Raises NotOurs, the first fault of the octets, or NoMemory for a Metadata
        PDU."""
        struct = ReplyStruct()
        check(LIBRARY.cfdp_receive(byref(self.handle), buffer_of(octets), len(octets), byref(struct)))
        return reply_of(struct)

    def step(self, transaction: Transaction) -> Reply:
        """The next item of a transaction is performed: its file is installed, or a request is performed."""
        return self._event(LIBRARY.cfdp_step, transaction)

    def cancel(self, transaction: Transaction) -> Reply:
        """A transaction is cancelled (transaction cancellation procedures)."""
        return self._event(LIBRARY.cfdp_cancel, transaction)

    def check(self, transaction: Transaction) -> Reply:
        """A transaction's check timer expired (timer procedures)."""
        return self._event(LIBRARY.cfdp_check, transaction)

    def _event(self, call: Callable[..., int], transaction: Transaction) -> Reply:
        struct = ReplyStruct()
        check(call(byref(self.handle), transaction.source, transaction.number, byref(struct)))
        return reply_of(struct)

    def take(self, transaction: Transaction) -> Reply:
        """The outcome of a transaction that is over is taken: `finished` of the reply has the octets of the Finished
        PDU, if one is to be sent."""
        struct, count = ReplyStruct(), c_size_t()
        out = (c_uint8 * _LONGEST_FINISHED)()
        name = (transaction.source, transaction.number)
        check(LIBRARY.cfdp_take(byref(self.handle), *name, out, len(out), byref(count), byref(struct)))
        return reply_of(struct, bytes(out[: count.value]))

    def next_runnable(self) -> Optional[Transaction]:
        """The first transaction, in order of admission, whose items are being performed, if there is one."""
        return self._next(LIBRARY.cfdp_next_runnable)

    def next_outcome(self) -> Optional[Transaction]:
        """The first transaction, in order of admission, whose outcome can be taken, if there is one."""
        return self._next(LIBRARY.cfdp_next_outcome)

    def _next(self, call: Any) -> Optional[Transaction]:
        struct = TransactionStruct()
        return struct.value() if is_there(call(byref(self.handle), byref(struct))) else None
