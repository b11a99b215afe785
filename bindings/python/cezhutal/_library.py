"""The shared library and its structs, as `include/cfdp.h` and `include/cfdp_receiver.h` declare them."""

from __future__ import annotations

import ctypes
import dataclasses
import os
import pathlib
from ctypes import POINTER, c_int64, c_size_t, c_uint8, c_uint32, c_uint64, c_void_p
from enum import IntEnum
from typing import Type, TypeVar, Union


class ReplyKind(IntEnum):
    """Which reply it is (`enum cfdp_reply_kind`)."""

    NONE = 0
    ADMITTED = 1
    REFUSED = 2
    STORED = 3
    DROPPED = 4
    COMPLETE = 5
    WAITING = 6
    FAULTED = 7
    PERFORMED = 8
    INSTALLED = 9
    FINISHED = 10
    CANCELLED = 11
    TAKEN = 12
    DUPLICATE = 13
    UNKNOWN = 14
    IDLE = 15
    NOT_FOR_US = 16
    TABLE_FULL = 17


class Refusal(IntEnum):
    """Why a list of filestore requests is refused (`enum cfdp_refusal`)."""

    NONE = 0
    TOO_MANY_REQUESTS = 1
    BAD_DESTINATION = 2
    BAD_REQUEST_PATH = 3
    CONFLICT = 4
    DESTINATION_NOT_ALLOWED = 5
    WOULD_FAIL = 6
    TOO_LONG = 7
    NO_ROOM = 8


class EntryKind(IntEnum):
    """A file or a directory of the filestore (`enum cfdp_entry_kind`)."""

    FILE = 1
    DIRECTORY = 2


def fitting(name: str, value: int, bits: int) -> int:
    """The value. Raises ValueError where it does not fit in the library's number of `bits` bits: ctypes would cut
    it."""
    most = 2**bits - 1
    if not 0 <= value <= most:
        raise ValueError(f"{name} is {value}, which is not 0 to {most}")
    return value


@dataclasses.dataclass(frozen=True)
class Transaction:
    """The name of a transaction (section 5.1): its source entity ID and its transaction sequence number. Raises
    ValueError where one of them is not 0 to 2^64 - 1."""

    source: int
    number: int

    def __post_init__(self) -> None:
        fitting("source", self.source, 64)
        fitting("number", self.number, 64)

    def __str__(self) -> str:
        return f"{self.source}/{self.number}"


@dataclasses.dataclass(frozen=True)
class Entry:
    """A directory or a file of the filestore. A directory's checksum and size are 0."""

    path: str
    kind: EntryKind
    checksum: int
    size: int


class HandleStruct(ctypes.Structure):
    """`struct cfdp_engine` and `struct cfdp_receiver`."""

    _fields_ = [("mark", c_uint32), ("at", c_void_p)]


class ConfigStruct(ctypes.Structure):
    """`struct cfdp_config`."""

    _fields_ = [("entity", c_uint64), ("cap", c_uint64), ("blocks", c_uint32), ("checks", c_uint32)]


class PathStruct(ctypes.Structure):
    """`struct cfdp_path`."""

    _fields_ = [("length", c_uint32), ("octets", c_uint8 * 776)]


class TransactionStruct(ctypes.Structure):
    """`struct cfdp_transaction`."""

    _fields_ = [("source", c_uint64), ("number", c_uint64)]

    def value(self) -> Transaction:
        """As a value of its own."""
        return Transaction(self.source, self.number)


class ReplyStruct(ctypes.Structure):
    """`struct cfdp_reply`."""

    _fields_ = [
        ("kind", c_uint32),
        ("refusal", c_uint32),
        ("blocks", c_uint32),
        ("steps", c_uint32),
        ("spare", c_uint32),
        ("request", c_uint32),
        ("status", c_uint32),
        ("condition", c_uint32),
        ("source", c_uint64),
        ("number", c_uint64),
        ("other_source", c_uint64),
        ("other_number", c_uint64),
    ]


class EntryStruct(ctypes.Structure):
    """`struct cfdp_entry`."""

    _fields_ = [("kind", c_uint32), ("checksum", c_uint32), ("size", c_uint64)]


class MibStruct(ctypes.Structure):
    """`struct cfdp_mib`."""

    _fields_ = [
        (name, c_uint32)
        for name in (
            "ack_interval ack_limit ack_handler nak_interval nak_limit nak_handler "
            "check_interval check_handler inactivity_interval "
            "inactivity_handler keep_alive_interval nak_mode has_crc longest_nak most_ahead"
        ).split()
    ]


class IndicationStruct(ctypes.Structure):
    """`struct cfdp_indication`."""

    _fields_ = [
        ("kind", c_uint32),
        ("condition", c_uint32),
        ("incomplete", c_uint32),
        ("file_status", c_uint32),
        ("closure", c_uint32),
        ("checksum_type", c_uint32),
        ("transaction", TransactionStruct),
        ("offset", c_uint64),
        ("length", c_uint64),
    ]


class ReportStruct(ctypes.Structure):
    """`struct cfdp_report`."""

    _fields_ = [
        ("pdus", c_uint32),
        ("became", c_uint32),
        ("transaction", TransactionStruct),
        ("reply", ReplyStruct),
        ("indication", IndicationStruct),
    ]


_Struct = TypeVar("_Struct", bound=ctypes.Structure)


def filled(kind: Type[_Struct], **numbers: int) -> _Struct:
    """A struct with these numbers. Raises ValueError for the first one that its field has no room for."""
    for name, field, *_ in kind._fields_:
        fitting(name, numbers[name], 8 * ctypes.sizeof(field))
    return kind(**numbers)


_HANDLE, _PATH, _ENTRY, _REPLY = POINTER(HandleStruct), POINTER(PathStruct), POINTER(EntryStruct), POINTER(ReplyStruct)
_OCTETS, _SIZE, _NAME, _REPORT = POINTER(c_uint8), POINTER(c_size_t), POINTER(TransactionStruct), POINTER(ReportStruct)

#: The parameters of each function that the package calls. A transaction is two numbers.
_ID = [c_uint64, c_uint64]
_CALLS = {
    "cfdp_new": [_HANDLE, POINTER(ConfigStruct), _PATH, c_size_t],
    "cfdp_put": [_HANDLE, _PATH, c_uint32, _OCTETS, c_size_t],
    "cfdp_free": [_HANDLE],
    "cfdp_receive": [_HANDLE, _OCTETS, c_size_t, _REPLY],
    "cfdp_step": [_HANDLE, *_ID, _REPLY],
    "cfdp_cancel": [_HANDLE, *_ID, _REPLY],
    "cfdp_check": [_HANDLE, *_ID, _REPLY],
    "cfdp_take": [_HANDLE, *_ID, _OCTETS, c_size_t, _SIZE, _REPLY],
    "cfdp_next_runnable": [_HANDLE, _NAME],
    "cfdp_next_outcome": [_HANDLE, _NAME],
    "cfdp_steps_spent": [_HANDLE, *_ID, POINTER(c_uint32)],
    "cfdp_blocks_spent": [_HANDLE, *_ID, POINTER(c_int64)],
    "cfdp_destination_name": [_HANDLE, *_ID, _OCTETS, c_size_t, _SIZE],
    "cfdp_look_up": [_HANDLE, _PATH, _ENTRY],
    "cfdp_read": [_HANDLE, _PATH, c_uint64, _OCTETS, c_size_t, _SIZE],
    "cfdp_next": [_HANDLE, _PATH, _ENTRY],
    "cfdp_reply_text": [_REPLY, _OCTETS, c_size_t, _OCTETS, c_size_t, _SIZE],
    "cfdp_receiver_new": [_HANDLE, _HANDLE, POINTER(MibStruct)],
    "cfdp_receiver_free": [_HANDLE],
    "cfdp_receiver_receive": [_HANDLE, c_uint64, _OCTETS, c_size_t, _REPORT],
    "cfdp_receiver_expire": [_HANDLE, c_uint64, _REPORT],
    "cfdp_receiver_work": [_HANDLE, c_uint64, _REPORT],
    "cfdp_receiver_finish": [_HANDLE, c_uint64, _REPORT],
    "cfdp_receiver_cancel": [_HANDLE, c_uint64, *_ID, _REPORT],
    "cfdp_receiver_forget_closed": [_HANDLE, _REPORT],
    "cfdp_receiver_move_clock": [_HANDLE, c_uint64, _REPORT],
    "cfdp_receiver_deadline": [_HANDLE, POINTER(c_uint64)],
    "cfdp_receiver_write": [_HANDLE, c_size_t, _OCTETS, c_size_t, _SIZE],
    "cfdp_receiver_look_up": [_HANDLE, _PATH, _ENTRY],
    "cfdp_receiver_read": [_HANDLE, _PATH, c_uint64, _OCTETS, c_size_t, _SIZE],
    "cfdp_receiver_next": [_HANDLE, _PATH, _ENTRY],
    "cfdp_receiver_destination_name": [_HANDLE, *_ID, _OCTETS, c_size_t, _SIZE],
}


def _load() -> ctypes.CDLL:
    where = os.environ.get("CEZHUTAL_LIBRARY") or str(pathlib.Path(__file__).with_name("libcezhutal.so"))
    try:
        library = ctypes.CDLL(where)
    except OSError as why:
        raise ImportError(f"{why}: bindings/python/link makes the library, or CEZHUTAL_LIBRARY names it") from why
    for name, parameters in _CALLS.items():
        call = getattr(library, name)
        call.argtypes = parameters
        call.restype = c_uint32
    for name in ("cfdp_engine_octets", "cfdp_receiver_octets"):
        call = getattr(library, name)
        call.argtypes = []
        call.restype = c_size_t
        if call() != ctypes.sizeof(HandleStruct):
            raise ImportError(f"{where} is of another version of the library")
    return library


#: The library.
LIBRARY = _load()


def buffer_of(octets: Union[bytes, bytearray, memoryview]) -> ctypes.Array[c_uint8]:
    """The octets in memory of their own, and one octet where there is none: the library takes no NULL."""
    return (c_uint8 * max(len(octets), 1)).from_buffer_copy(bytes(octets) or b"\0")


def path_struct(path: str) -> PathStruct:
    """A path as a struct, with octets that are no UTF-8 as `path_text` gives them. One that is too long gets the length
    that the library refuses."""
    octets = path.encode(errors="surrogateescape")
    struct = PathStruct(length=min(len(octets), 777))
    ctypes.memmove(struct.octets, octets, min(len(octets), 776))
    return struct


def path_text(struct: PathStruct) -> str:
    """The path of a struct. Octets that are no UTF-8 are kept as surrogates."""
    return bytes(struct.octets[: struct.length]).decode(errors="surrogateescape")
