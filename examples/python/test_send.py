#!/usr/bin/env python3
"""Tests of the sender: `python3 examples/python/test_send.py`. What is damaged is passed over. `.ci/clients` runs it,
and `.ci/link` has the sender on a link. The octets are written by hand from CCSDS 727.0-B-5, section 5.2."""

from __future__ import annotations

import contextlib
import copy
import io
import pathlib
import socket
import sys
import unittest

sys.dont_write_bytecode = True
sys.path.insert(0, str(pathlib.Path(__file__).resolve().parent))
from send import Action, BadPdu, Finished, Header, Request, Response, Sender, run  # noqa: E402

#: Data fields toward the sender that are whole.
ACK_EOF = "064001"
NAK = "08 00000000 00000003 00000000 00000000 00000001 00000003"  # the Metadata PDU, and the octets 1 and 2
FINISHED = "0502 0105 00 0161 00 00"  # complete, retained; file 'a' was created
AT_FAULT = "0544 0105 10 0161 00 00 060102"  # condition code 4, incomplete, discarded; file 'a' deleted; entity 2

#: Data fields of which something is missing or has no meaning.
DAMAGED = {
    "no directive code": "",
    "an ACK PDU of its directive code alone": "06",
    "an ACK PDU without a condition code": "0640",
    "an ACK PDU with an octet too many": "06400100",
    "a NAK PDU of its directive code alone": "08",
    "a NAK PDU with a cut scope": "08 00000000 000000",
    "a NAK PDU with a cut segment request": "08 00000000 00000003 00000001",
    "a Finished PDU of its directive code alone": "05",
    "a TLV field of its type alone": "0502 01",
    "a TLV field of its type alone, after another one": "0502 0105 00 0161 00 00 06",
    "a TLV field with a cut value": "0502 0105 00 0161 00",
    "a filestore response without a value": "0502 0100",
    "a filestore response of the action 9": "0502 0105 90 0161 00 00",
}


def pdu(data: str, is_file_data: bool = False) -> bytes:
    """A PDU toward the sender of transaction 1/1."""
    return Header(is_file_data, True, False, False, 1, 1, 2).pdu(bytes.fromhex(data))


class SenderTest(unittest.TestCase):
    """A sender with one transaction, 1/1, which brings three octets and two requests."""

    def setUp(self) -> None:
        self.sender = Sender()
        requests = [Request(Action.CREATE_FILE, "a"), Request(Action.DELETE_FILE, "a")]
        self.upload = self.sender.uploads[self.sender.put(b"abc", "f", requests)]

    def test_whole_pdus_are_read(self) -> None:
        """What each says."""
        self.sender.received(pdu(ACK_EOF), 0.0)
        self.assertTrue(self.upload.eof_acknowledged)
        self.sender.received(pdu(NAK), 0.0)
        self.assertEqual(list(self.upload.again), [None, (1, 3)])
        for data, wanted in (
            (FINISHED, Finished(0, False, 2, (Response(Action.CREATE_FILE, 0),))),
            (AT_FAULT, Finished(4, True, 0, (Response(Action.DELETE_FILE, 0),))),
        ):
            with self.subTest(data):
                self.sender.received(pdu(data), 0.0)
                self.assertEqual(self.upload.finished, wanted)

    def test_damaged_pdus_are_refused(self) -> None:
        """Each raises BadPdu and changes nothing."""
        before = copy.deepcopy(self.upload)
        pdus = {name: pdu(data) for name, data in DAMAGED.items()}
        pdus["File Data that begins as an ACK PDU"] = pdu(ACK_EOF, is_file_data=True)
        for name, octets in pdus.items():
            with self.subTest(name):
                with self.assertRaises(BadPdu):
                    self.sender.received(octets, 0.0)
                self.assertEqual(self.upload, before)
                self.assertFalse(self.sender._acks)

    def test_no_octet_raises_anything_else(self) -> None:
        """Each beginning of a whole data field, and each PDU with one octet of another value."""
        for data in (ACK_EOF, NAK, FINISHED, AT_FAULT):
            field, whole = bytes.fromhex(data), pdu(data)
            octets = [pdu(field[:end].hex()) for end in range(len(field))]
            octets += [whole[:at] + bytes([it]) + whole[at + 1 :] for at in range(len(whole)) for it in range(256)]
            for it in octets:
                with self.subTest(it.hex()), contextlib.suppress(BadPdu):
                    self.sender.received(it, 0.0)

    def test_the_loop_passes_damaged_pdus_over(self) -> None:
        """It goes on until the whole Finished PDU has come, which is the last one."""
        with socket.socket(type=socket.SOCK_DGRAM) as link, socket.socket(type=socket.SOCK_DGRAM) as peer:
            for it in (link, peer):
                it.bind(("127.0.0.1", 0))
            for data in [*DAMAGED.values(), FINISHED]:
                peer.sendto(pdu(data), link.getsockname())
            with contextlib.redirect_stderr(io.StringIO()) as said:
                run(self.sender, link, peer.getsockname(), seconds=10.0, linger=0.0)
        self.assertTrue(self.sender.is_over)
        self.assertEqual(self.upload.finished_count, 1)
        self.assertEqual(said.getvalue().count("dropped: "), len(DAMAGED))


if __name__ == "__main__":
    unittest.main()
