"""What a call of the library answers, as exceptions: one for each answer but 'done'."""

from __future__ import annotations


class Refused(Exception):
    """A call was refused. Nothing has changed, unless the call says otherwise."""

    #: The number in `enum cfdp_answer`.
    answer = -1


class NoEngine(Refused):
    """There is no engine, or no receiver: it was freed, or is a receiver's by now."""

    answer = 1


class HasEngine(Refused):
    """There is an engine, or a receiver, already."""

    answer = 2


class NoMemory(Refused):
    """Out of memory. The same call can be made again."""

    answer = 3


class TooShort(Refused):
    """What was asked for does not fit in the buffer."""

    answer = 4


class Nothing(Refused):
    """There is no such thing."""

    answer = 5


class BadPath(Refused):
    """The octets of a path spell none."""

    answer = 6


class HasTransactions(Refused):
    """A transaction is known, so that nothing can be put into the filestore, and no receiver made."""

    answer = 7


class Exists(Refused):
    """Something exists at the path."""

    answer = 8


class NoParent(Refused):
    """The path's parent does not exist, or is a file."""

    answer = 9


class FilestoreFull(Refused):
    """The filestore has too few free blocks."""

    answer = 10


class BadBlocks(Refused):
    """The filestore has not 16 to 65536 blocks."""

    answer = 16


class BadCap(Refused):
    """The cap is above 7864320 octets."""

    answer = 17


class BadChecks(Refused):
    """The check limit is not 1 to 1000."""

    answer = 18


class TooManyPrefixes(Refused):
    """More than 8 prefixes are to be protected."""

    answer = 20


class BadHandler(Refused):
    """No fault handler has this number."""

    answer = 21


class BadNakMode(Refused):
    """No mode of asking for lost segments has this number."""

    answer = 22


class BadInterval(Refused):
    """An interval is 0."""

    answer = 23


class BadLimit(Refused):
    """A limit is not 1 to 1000."""

    answer = 24


class BadLongestNak(Refused):
    """The longest NAK PDU has not 72 to 65535 octets."""

    answer = 25


class NotOurs(Refused):
    """The PDU is not for the receiver of a file."""

    answer = 32


class Truncated(Refused):
    """The octets end before the PDU does."""

    answer = 33


class BadVersion(Refused):
    """The version is not 001."""

    answer = 34


class CrcNotSupported(Refused):
    """The PDU says that it has a CRC. A receiver takes such PDUs, an engine does not."""

    answer = 35


class LengthMismatch(Refused):
    """Octets come after the data field, or it is shorter than its fixed part."""

    answer = 36


class BadDirective(Refused):
    """No directive has this code."""

    answer = 37


class BadTlv(Refused):
    """A TLV field is cut, or its value is not what its type asks for."""

    answer = 38


class RequestTooLong(Refused):
    """A filestore request has a value of 255 octets, which no response can repeat."""

    answer = 39


class BadCrc(Refused):
    """The CRC of the PDU is wrong."""

    answer = 40


_BY_NUMBER = {kind.answer: kind for kind in Refused.__subclasses__()}


def check(answer: int) -> None:
    """Raises the exception of an answer, and returns where it is 'done'."""
    if answer != 0:
        raise _BY_NUMBER[answer]()


def is_there(answer: int) -> bool:
    """Whether something is there: raises the exception of any answer but 'done' and 'nothing'."""
    if answer == Nothing.answer:
        return False
    check(answer)
    return True
