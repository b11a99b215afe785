"""A CFDP receiving entity (CCSDS 727.0-B-5) for Python: the proved library of `include/cfdp.h` and
`include/cfdp_receiver.h`, by ctypes.

    from cezhutal import Config, Engine, Mib, Receiver

    with Engine(Config(entity=2, blocks=4096)) as engine:
        engine.put_directory("app")
        with Receiver(engine, Mib()) as receiver:
            report = receiver.receive(now, pdu)
            for octets in report.pdus:
                link.sendto(octets, peer)

`bindings/python/link` makes the shared library beside this file; CEZHUTAL_LIBRARY names another one. Every answer of
the library but 'done' raises an exception of its own, a subclass of `Refused`; after it nothing has changed, unless
the call says otherwise. A number that a field of the library has no room for raises ValueError. One thread at a time
uses an engine or a receiver. The package has nothing but the standard library of Python 3.9 or later.
"""

from ._answers import (
    BadBlocks,
    BadCap,
    BadChecks,
    BadCrc,
    BadDirective,
    BadHandler,
    BadInterval,
    BadLimit,
    BadLongestNak,
    BadNakMode,
    BadPath,
    BadTlv,
    BadVersion,
    CrcNotSupported,
    Exists,
    FilestoreFull,
    HasEngine,
    HasTransactions,
    LengthMismatch,
    NoEngine,
    NoMemory,
    NoParent,
    NotOurs,
    Nothing,
    Refused,
    RequestTooLong,
    TooManyPrefixes,
    TooShort,
    Truncated,
)
from ._engine import Config, Engine
from ._library import Entry, EntryKind, Refusal, ReplyKind, Transaction
from ._receiver import Became, Handler, Indication, IndicationKind, Mib, NakMode, Receiver, Report, Retries, Watch
from ._replies import Reply

__all__ = [
    "BadBlocks",
    "BadCap",
    "BadChecks",
    "BadCrc",
    "BadDirective",
    "BadHandler",
    "BadInterval",
    "BadLimit",
    "BadLongestNak",
    "BadNakMode",
    "BadPath",
    "BadTlv",
    "BadVersion",
    "Became",
    "Config",
    "CrcNotSupported",
    "Engine",
    "Entry",
    "EntryKind",
    "Exists",
    "FilestoreFull",
    "Handler",
    "HasEngine",
    "HasTransactions",
    "Indication",
    "IndicationKind",
    "LengthMismatch",
    "Mib",
    "NakMode",
    "NoEngine",
    "NoMemory",
    "NoParent",
    "NotOurs",
    "Nothing",
    "Receiver",
    "Refusal",
    "Refused",
    "Reply",
    "ReplyKind",
    "Report",
    "RequestTooLong",
    "Retries",
    "TooManyPrefixes",
    "TooShort",
    "Transaction",
    "Truncated",
    "Watch",
]
