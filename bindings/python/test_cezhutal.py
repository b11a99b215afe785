#!/usr/bin/env python3
"""Tests of the Python package: `python3 bindings/python/test_cezhutal.py`, after bindings/python/link. The PDUs and
what is answered to them are those of the C examples and of examples/update.replay. `.ci/clients` runs it."""

from __future__ import annotations

import dataclasses
import pathlib
import re
import sys
import unittest

HERE = pathlib.Path(__file__).resolve().parent
sys.dont_write_bytecode = True
sys.path.insert(0, str(HERE))
import cezhutal  # noqa: E402
from cezhutal import (
    Became,
    Config,
    Engine,
    EntryKind,
    Handler,
    IndicationKind,
    Mib,
    NakMode,
    Receiver,
    Refusal,
    ReplyKind,
)  # noqa: E402
from cezhutal import Retries, Transaction, Watch  # noqa: E402

ROOT = HERE.parent.parent
EXAMPLES = ROOT / "examples"

#: Transaction 1/5: a file of 15 octets, its Metadata, its octets, its EOF PDU, and the acknowledgement of its Finished
#: PDU.
METADATA = bytes.fromhex("20000a0001050207400000000f01730166")
DATA = bytes.fromhex("3000130001050200000000000102030405060708090a0b0c0d0e")
EOF = bytes.fromhex("20000a000105020400181c20150000000f")
ACK_FINISHED = bytes.fromhex("20000300010502065102")


class EngineTest(unittest.TestCase):
    """The entity without timers."""

    def test_the_update_is_replayed(self) -> None:
        """examples/update.replay, line by line: the text of each reply is that of examples/update.out."""
        said = []
        with Engine(Config(entity=2, blocks=64, cap=2400, checks=2)) as engine:
            for line in (EXAMPLES / "update.replay").read_text().splitlines():
                said += self._play(engine, line.split())
            entries = list(engine.filestore.entries())
        wanted = (EXAMPLES / "update.out").read_text()
        self.assertEqual("".join(said), wanted[: wanted.index("store used")])
        wanted_entries = [("app", EntryKind.DIRECTORY, 0), ("app/prog", EntryKind.FILE, 24)]
        self.assertEqual([(it.path, it.kind, it.size) for it in entries], wanted_entries)
        self.assertEqual(entries[1].checksum, 0xDA38405C)

    @staticmethod
    def _play(engine: Engine, words: list[str]) -> list[str]:
        if not words or words[0] in ("#", "config", "list"):
            return []
        if words[0] == "pdu":
            return [engine.receive(bytes.fromhex(words[1])).text]
        if words[0] == "run":
            said = []
            while (name := engine.next_runnable()) is not None:
                said.append(engine.step(name).text)
            return said
        calls = {"step": engine.step, "check": engine.check, "cancel": engine.cancel, "take": engine.take}
        return [calls[words[0]](Transaction(int(words[1]), int(words[2]))).text]

    def test_files_are_put_and_read(self) -> None:
        """What is put is there, and each reason for which it can't be put has its exception."""
        with Engine(Config(entity=2, blocks=16, cap=2400, checks=2)) as engine:
            engine.put_directory("app")
            engine.put_file("app/prog", b"the old image")
            engine.put_file("empty", b"")
            self.assertEqual(engine.filestore.read("app/prog"), b"the old image")
            self.assertEqual(engine.filestore.read("empty"), b"")
            self.assertIsNone(engine.filestore.look_up("app/new"))
            for path, wanted in (
                ("app", cezhutal.Exists),
                ("no/where", cezhutal.NoParent),
                ("a//b", cezhutal.BadPath),
                ("x" * 800, cezhutal.BadPath),
            ):
                with self.subTest(path=path[:10]), self.assertRaises(wanted):
                    engine.put_directory(path)
            with self.assertRaises(cezhutal.FilestoreFull):
                engine.put_file("large", bytes(10000))
            with self.assertRaises(cezhutal.Nothing):
                engine.filestore.read("app")
            engine.receive(METADATA)
            with self.assertRaises(cezhutal.HasTransactions):
                engine.put_directory("late")
            self.assertEqual(engine.filestore.destination_name(Transaction(1, 5)), "f")

    def test_a_name_that_is_no_utf_8(self) -> None:
        """What the filestore and a Metadata PDU say of it is a path again."""
        with Engine(Config(entity=2, blocks=64, protected=["\udcfe"])) as engine:
            for octets in (METADATA[:-1] + b"\xff", DATA, EOF):
                engine.receive(octets)
            self.assertEqual(engine.filestore.destination_name(Transaction(1, 5)), "\udcff")
            engine.step(Transaction(1, 5))
            (entry,) = engine.filestore.entries()
            self.assertEqual((entry.path, entry.size), ("\udcff", 15))
            self.assertEqual(engine.filestore.look_up(entry.path), entry)
            self.assertEqual(engine.filestore.read(entry.path), bytes(range(15)))

    def test_bad_configurations_are_refused(self) -> None:
        """Each has its exception."""
        for config, wanted in (
            (Config(2, blocks=15), cezhutal.BadBlocks),
            (Config(2, cap=7864321), cezhutal.BadCap),
            (Config(2, checks=0), cezhutal.BadChecks),
            (Config(2, protected=[".."]), cezhutal.BadPath),
            (Config(2, protected=[f"p{number}" for number in range(9)]), cezhutal.TooManyPrefixes),
        ):
            with self.subTest(wanted=wanted), self.assertRaises(wanted):
                Engine(config)

    def test_paths_that_are_a_str(self) -> None:
        """Its letters are not taken for paths."""
        with self.assertRaisesRegex(TypeError, "^protected is the str 'boot', and not a sequence of paths$"):
            Config(2, protected="boot")

    def test_numbers_that_have_no_room(self) -> None:
        """Each is named, with its range: it is not cut."""
        for name, value, bits, call in (
            ("entity", -1, 64, lambda it: Engine(Config(it))),
            ("cap", 2**64 + 5, 64, lambda it: Engine(Config(2, cap=it))),
            ("blocks", 2**32 + 64, 32, lambda it: Engine(Config(2, blocks=it))),
            ("checks", 2**32 + 2, 32, lambda it: Engine(Config(2, checks=it))),
            ("ack_interval", -5, 32, lambda it: Mib(ack=Retries(it, 3)).struct()),
            ("ack_limit", 2**32 + 1, 32, lambda it: Mib(ack=Retries(1, it)).struct()),
            ("ack_handler", 2**32 + 1, 32, lambda it: Mib(ack=Retries(1, 1, it)).struct()),
            ("nak_limit", 2**32 + 1, 32, lambda it: Mib(nak=Retries(1, it)).struct()),
            ("check_interval", 2**32, 32, lambda it: Mib(check=Watch(it)).struct()),
            ("inactivity_interval", -1, 32, lambda it: Mib(inactivity=Watch(it)).struct()),
            ("keep_alive_interval", -1, 32, lambda it: Mib(keep_alive=it).struct()),
            ("nak_mode", 2**32 + 1, 32, lambda it: Mib(nak_mode=it).struct()),
            ("longest_nak", 2**32 + 72, 32, lambda it: Mib(longest_nak=it).struct()),
            ("source", -1, 64, lambda it: Transaction(it, 5)),
            ("number", 2**64, 64, lambda it: Transaction(1, it)),
        ):
            with self.subTest(name):
                with self.assertRaises(ValueError) as caught:
                    call(value)
                self.assertEqual(str(caught.exception), f"{name} is {value}, which is not 0 to {2**bits - 1}")

    def test_the_largest_numbers_have_room(self) -> None:
        """What a field has room for is judged by the library."""
        with Engine(Config(2**64 - 1, blocks=64)) as engine:
            self.assertEqual(engine.receive(METADATA).kind, ReplyKind.NOT_FOR_US)
            self.assertEqual(
                engine.check(Transaction(2**64 - 1, 2**64 - 1)).text, f"{2**64 - 1}/{2**64 - 1} unknown\n"
            )
        with self.assertRaises(cezhutal.BadBlocks):
            Engine(Config(2, blocks=2**32 - 1))

    def test_octets_that_are_no_pdu(self) -> None:
        """Each fault has its exception."""
        with Engine(Config(entity=2, blocks=64)) as engine:
            for octets, wanted in (
                (b"", cezhutal.Truncated),
                (EOF[:-1], cezhutal.Truncated),
                (b"\x44", cezhutal.BadVersion),
                (b"\x26", cezhutal.CrcNotSupported),
                (EOF + b"\0", cezhutal.LengthMismatch),
                (bytes.fromhex("200001000105020f"), cezhutal.BadDirective),
                (bytes([EOF[0] | 0x08]) + EOF[1:], cezhutal.NotOurs),  # it goes toward the sender
                (bytes.fromhex("20000b00010502070000000000000002ff61"), cezhutal.BadTlv),  # one octet of 255
                # create a file with a name of 253 octets
                (bytes.fromhex("20010900010502070000000000000000ff00fd") + b"a" * 253, cezhutal.RequestTooLong),
            ):
                with self.subTest(wanted=wanted), self.assertRaises(wanted):
                    engine.receive(octets)

    def test_a_freed_engine(self) -> None:
        """It answers so."""
        engine = Engine(Config(entity=2))
        engine.free()
        with self.assertRaises(cezhutal.NoEngine):
            engine.receive(EOF)
        with self.assertRaises(cezhutal.NoEngine):
            engine.free()


class ReceiverTest(unittest.TestCase):
    """Acknowledged mode."""

    MIB = Mib(ack=Retries(50, 2, Handler.ABANDON), nak=Retries(40, 3), longest_nak=100)

    def test_a_file_is_asked_for_and_acknowledged(self) -> None:
        """The Metadata PDU and the file are lost at first."""
        engine = Engine(Config(entity=2, blocks=64, cap=2400, checks=2))
        with Receiver(engine, self.MIB) as receiver:
            with self.assertRaises(cezhutal.NoEngine):
                engine.free()
            self.assertIsNone(receiver.deadline())
            report = receiver.receive(100, EOF)
            nak = "2800190001050208000000000000000f0000000000000000000000000000000f"
            self.assertEqual([it.hex() for it in report.pdus], ["28000300010502064001", nak])
            self.assertEqual(report.became, Became.HELD)
            assert report.indication is not None
            self.assertEqual(report.indication.kind, IndicationKind.EOF_RECV)
            self.assertEqual(receiver.deadline(), 140)
            self.assertEqual([it.hex() for it in receiver.expire(140).pdus], [nak])
            report = receiver.receive(150, METADATA)
            assert report.reply is not None and report.indication is not None
            self.assertEqual(report.reply.text, "1/5 admitted blocks 2 steps 2\n")
            self.assertEqual(report.indication.length, 15)
            self.assertEqual(receiver.filestore.destination_name(Transaction(1, 5)), "f")
            report = receiver.receive(160, DATA)
            assert report.reply is not None
            self.assertEqual(report.reply.kind, ReplyKind.COMPLETE)
            reports = list(receiver.work_off(160))
            self.assertEqual([it.became for it in reports], [Became.REPLIED, Became.FINISHED])
            self.assertEqual([it.hex() for it in reports[1].pdus], ["280002000105020502"])
            assert reports[1].indication is not None
            end = reports[1].indication
            self.assertEqual((end.condition, end.incomplete, end.file_status), (0, False, 2))
            self.assertEqual(receiver.receive(170, ACK_FINISHED).became, Became.ACKNOWLEDGED)
            self.assertEqual(receiver.receive(180, METADATA).became, Became.DUPLICATE)
            self.assertEqual(receiver.filestore.read("f"), bytes(range(15)))

    def test_a_moment_that_has_no_room(self) -> None:
        """It is named, and the receiver's clock is as before."""
        with Receiver(Engine(Config(entity=2, blocks=64)), self.MIB) as receiver:
            for name, call in (
                ("receive", lambda now: receiver.receive(now, EOF)),
                ("expire", receiver.expire),
                ("work", receiver.work),
                ("finish", receiver.finish),
                ("cancel", lambda now: receiver.cancel(now, Transaction(1, 5))),
                ("move_clock", receiver.move_clock),
            ):
                for now in (-1, 2**64):
                    with self.subTest(name, now=now), self.assertRaisesRegex(ValueError, f"^now is {now}, which is"):
                        call(now)
            receiver.receive(100, EOF)
            self.assertEqual(receiver.deadline(), 140)

    def test_a_clock_that_is_set(self) -> None:
        """After one wrong reading, far ahead, the timer runs on; with a limit the reading changes nothing."""
        with Receiver(Engine(Config(entity=2, blocks=64)), self.MIB) as receiver:
            receiver.receive(100, EOF)
            self.assertEqual(receiver.expire(2**64 - 1).became, Became.EXPIRED)
            self.assertEqual(receiver.move_clock(110).became, Became.NOTHING)
            self.assertEqual(receiver.deadline(), 150)
            self.assertEqual(receiver.move_clock(5).became, Became.NOTHING)
            self.assertEqual(receiver.deadline(), 45)
            self.assertEqual(receiver.expire(44).became, Became.NOTHING)
            self.assertEqual(receiver.expire(45).became, Became.EXPIRED)
        limited = dataclasses.replace(self.MIB, most_ahead=1000)
        with Receiver(Engine(Config(entity=2, blocks=64)), limited) as receiver:
            self.assertEqual(receiver.receive(1001, EOF).became, Became.TOO_FAR_AHEAD)
            receiver.move_clock(2**40)
            self.assertEqual(receiver.receive(2**40 + 1000, EOF).became, Became.HELD)
            self.assertEqual(receiver.expire(2**64 - 1).became, Became.TOO_FAR_AHEAD)
            self.assertEqual(list(receiver.work_off(2**64 - 1)), [])
            self.assertEqual(receiver.deadline(), 2**40 + 1040)

    def test_a_pdu_with_a_crc(self) -> None:
        """One that is wrong has its exception."""
        with Receiver(Engine(Config(entity=2, blocks=64)), Mib(has_crc=True, nak_mode=NakMode.IMMEDIATE)) as receiver:
            with self.assertRaises(cezhutal.BadCrc):
                receiver.receive(0, bytes.fromhex("22000c000105020400181c20150000000f1234"))

    def test_bad_numbers_are_refused_and_the_engine_stays(self) -> None:
        """Each has its exception."""
        with Engine(Config(entity=2, blocks=64)) as engine:
            for mib, wanted in (
                (Mib(ack=Retries(0, 1)), cezhutal.BadInterval),
                (Mib(nak=Retries(1, 0)), cezhutal.BadLimit),
                (Mib(longest_nak=71), cezhutal.BadLongestNak),
                (Mib(ack=Retries(1, 1, 9)), cezhutal.BadHandler),  # type: ignore[arg-type]
                (Mib(nak_mode=9), cezhutal.BadNakMode),  # type: ignore[arg-type]
            ):
                with self.subTest(wanted=wanted), self.assertRaises(wanted):
                    Receiver(engine, mib)
            engine.receive(METADATA)
            with self.assertRaises(cezhutal.HasTransactions):
                Receiver(engine, Mib())


def enums_of(header: str) -> dict[str, dict[str, int]]:
    """The enumerations of a header of C: the names of each without what they all begin with, and their numbers."""
    text = re.sub(r"/\*.*?\*/", "", (ROOT / "include" / header).read_text(), flags=re.DOTALL)
    found = {}
    for name, body in re.findall(r"^enum cfdp_(\w+) \{(.*?)\};", text, flags=re.DOTALL | re.MULTILINE):
        start = f"CFDP_{name.removesuffix('_kind').removesuffix('_mode').upper()}_"
        numbers = re.findall(r"(\w+) = (\d+)", body)
        found[name] = {word.removeprefix(start): int(number) for word, number in numbers}
    return found


class HeadersTest(unittest.TestCase):
    """The package against include/cfdp.h and include/cfdp_receiver.h."""

    ENUMS = {
        "reply_kind": ReplyKind,
        "refusal": Refusal,
        "entry_kind": EntryKind,
        "handler": Handler,
        "nak_mode": NakMode,
        "became": Became,
        "indication_kind": IndicationKind,
    }

    def test_the_enumerations_are_those_of_the_headers(self) -> None:
        """The same names have the same numbers."""
        headers = enums_of("cfdp.h") | enums_of("cfdp_receiver.h")
        del headers["phase_kind"]  # no call of the package says a phase
        del headers["indication_kind"]["NONE"]  # None in a report of the package
        answers = {"DONE": 0}
        for kind in cezhutal.Refused.__subclasses__():
            answers[re.sub("(?<!^)([A-Z])", r"_\1", kind.__name__).upper()] = kind.answer
        package = {name: {it.name: it.value for it in kind} for name, kind in self.ENUMS.items()}
        self.assertEqual(package | {"answer": answers}, headers)

    def test_each_name_of_the_package_is_given_out(self) -> None:
        """Each exception and each enumeration, and type checkers see that the package has types."""
        for kind in [*cezhutal.Refused.__subclasses__(), *self.ENUMS.values()]:
            with self.subTest(kind.__name__):
                self.assertIn(kind.__name__, cezhutal.__all__)
        self.assertTrue((HERE / "cezhutal/py.typed").is_file())


if __name__ == "__main__":
    unittest.main()
