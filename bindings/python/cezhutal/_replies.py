"""A reply of the entity."""

from __future__ import annotations

import dataclasses
from ctypes import byref, c_size_t, c_uint8

from ._answers import check
from ._library import LIBRARY, Refusal, ReplyKind, ReplyStruct, Transaction, buffer_of


@dataclasses.dataclass(frozen=True)
class Reply:
    """A reply of the entity, and the numbers that it brings. A number that its kind has no use for is 0.

    `finished` has the octets of the Finished PDU where the reply is of the kind TAKEN and one is to be sent.
    """

    kind: ReplyKind
    transaction: Transaction
    refusal: Refusal
    blocks: int
    steps: int
    spare: int
    request: int
    status: int
    condition: int
    other: Transaction
    finished: bytes

    @property
    def text(self) -> str:
        """The line that `cfdpsim replay` writes of the reply. It takes memory, and is made when it is asked for.
        Raises NoMemory, after which it can be asked for again."""
        struct = ReplyStruct(
            self.kind,
            self.refusal,
            self.blocks,
            self.steps,
            self.spare,
            self.request,
            self.status,
            self.condition,
            self.transaction.source,
            self.transaction.number,
            self.other.source,
            self.other.number,
        )
        out = (c_uint8 * max(128, 64 + 2 * len(self.finished)))()
        count = c_size_t()
        octets = buffer_of(self.finished)
        text = LIBRARY.cfdp_reply_text
        check(text(byref(struct), octets, len(self.finished), out, len(out), byref(count)))
        return bytes(out[: count.value]).decode()


def reply_of(struct: ReplyStruct, finished: bytes = b"") -> Reply:
    """A reply as a value. It takes none of the library's memory."""
    return Reply(
        ReplyKind(struct.kind),
        Transaction(struct.source, struct.number),
        Refusal(struct.refusal),
        struct.blocks,
        struct.steps,
        struct.spare,
        struct.request,
        struct.status,
        struct.condition,
        Transaction(struct.other_source, struct.other_number),
        finished,
    )
