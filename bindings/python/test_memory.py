#!/usr/bin/env python3
"""Tests of the Python package where the library is out of memory. `.ci/clients` runs it: CEZHUTAL_LIBRARY names a
library that is linked with bindings/python/refusing.c."""

from __future__ import annotations

import contextlib
import ctypes
import pathlib
import sys
import unittest
from typing import Iterator

HERE = pathlib.Path(__file__).resolve().parent
sys.dont_write_bytecode = True
sys.path.insert(0, str(HERE))
import cezhutal  # noqa: E402
from cezhutal import Became, Config, Engine, Mib, Receiver, Reply, ReplyKind, Transaction  # noqa: E402
from cezhutal._library import LIBRARY  # noqa: E402
from test_cezhutal import DATA, EOF, METADATA  # noqa: E402

CONFIG = Config(entity=2, blocks=64, cap=2400, checks=2)
NAME = Transaction(1, 5)


@contextlib.contextmanager
def memory_refused() -> Iterator[None]:
    """While this runs, the library gets no memory."""
    refuses = ctypes.c_int.in_dll(LIBRARY, "refuses")
    refuses.value = 1
    try:
        yield
    finally:
        refuses.value = 0


class MemoryTest(unittest.TestCase):
    """What takes no memory goes on without it, and what takes some changes nothing where it is refused."""

    def check_text(self, reply: Reply, text: str) -> None:
        """A text takes memory, but it can be asked for later."""
        with memory_refused(), self.assertRaises(cezhutal.NoMemory):
            reply.text
        self.assertEqual(reply.text, text)

    def test_an_engine_takes_a_file(self) -> None:
        """Only its Metadata PDU takes memory."""
        with memory_refused(), self.assertRaises(cezhutal.NoMemory):
            Engine(CONFIG)
        with Engine(CONFIG) as engine:
            with memory_refused(), self.assertRaises(cezhutal.NoMemory):
                engine.put_directory("app")
            with memory_refused(), self.assertRaises(cezhutal.NoMemory):
                engine.receive(METADATA)
            self.assertEqual(engine.receive(METADATA).kind, ReplyKind.ADMITTED)
            for name, call, text in (
                ("File Data", lambda: engine.receive(DATA), "1/5 stored\n"),
                ("EOF", lambda: engine.receive(EOF), "1/5 complete\n"),
                ("step", lambda: engine.step(NAME), "1/5 installed\n"),
                ("check", lambda: engine.check(NAME), "1/5 idle\n"),
                ("cancel", lambda: engine.cancel(NAME), "1/5 idle\n"),
                ("take", lambda: engine.take(NAME), "1/5 finished 280002000105020502\n"),
            ):
                with self.subTest(name):
                    with memory_refused():
                        reply = call()
                    self.check_text(reply, text)
            self.assertEqual([it.path for it in engine.filestore.entries()], ["f"])

    def test_a_receiver_takes_a_file(self) -> None:
        """Only its Metadata PDU and its outcome take memory."""
        engine = Engine(CONFIG)
        with memory_refused(), self.assertRaises(cezhutal.NoMemory):
            Receiver(engine, Mib())
        with self.assertRaises(cezhutal.NoEngine):
            engine.free()
        with Receiver(Engine(CONFIG), Mib()) as receiver:
            with memory_refused(), self.assertRaises(cezhutal.NoMemory):
                receiver.receive(1, METADATA)
            self.assertEqual(receiver.receive(1, METADATA).became, Became.REPLIED)
            for name, call, text, pdus in (
                ("File Data", lambda: receiver.receive(2, DATA), "1/5 stored\n", []),
                ("EOF", lambda: receiver.receive(3, EOF), "1/5 complete\n", ["28000300010502064001"]),
                ("work", lambda: receiver.work(4), "1/5 installed\n", []),
            ):
                with self.subTest(name):
                    with memory_refused():
                        report = call()
                    self.assertEqual([it.hex() for it in report.pdus], pdus)
                    assert report.reply is not None
                    self.check_text(report.reply, text)
            self.assertEqual(receiver.filestore.read("f"), bytes(range(15)))
            with memory_refused(), self.assertRaises(cezhutal.NoMemory):
                receiver.finish(5)
            self.assertEqual([it.hex() for it in receiver.finish(5).pdus], ["280002000105020502"])


if __name__ == "__main__":
    unittest.main()
