"""Streams and messages that threads share."""

import copy
import os
import pathlib
import pickle
import subprocess
import sys
import threading
import unittest

import support
import pgmsg
import samples
from pgmsg import ClientStream, NoData, Relay

HAMMER = support.TOP / "tests" / "hammer.py"

PACKAGE = pathlib.Path(pgmsg.__file__).parent.parent

# How long another thread has for a call that it should wait with.
A_WHILE = 0.1


class TestThreads(unittest.TestCase):
    def test_a_second_of_calls(self):
        variables = {**os.environ, "PYTHONPATH": os.pathsep.join([str(PACKAGE), os.environ.get("PYTHONPATH", "")])}
        words = [sys.executable, "-B", "-X", "dev", "-W", "error", HAMMER]
        found = subprocess.run(words, env=variables, capture_output=True, text=True, timeout=60)
        self.assertEqual((found.returncode, found.stderr), (0, ""))

    def test_a_call_waits_for_one_of_another_thread(self):
        message = NoData().write()
        for call, due in [(lambda s: s.feed(b"Z"), message + b"Z"), (list, b""), (ClientStream.rows, message)]:
            stream = ClientStream()
            stream.feed(message)
            with stream._lock:
                other = threading.Thread(target=call, args=(stream,))
                other.start()
                other.join(A_WHILE)
                self.assertTrue(other.is_alive())
            other.join()
            self.assertEqual(stream.held, due)


class InnerStream(ClientStream):
    """A stream into whose calls another one comes, as from the handler of a signal."""

    def _read(self, tag, body):
        for call in (lambda: self.feed(b"Z"), lambda: next(iter(self)), self.rows, lambda: self.held):
            with self.test.assertRaisesRegex(RuntimeError, "this InnerStream is in use"):
                call()
        return super()._read(tag, body)


class InnerRelay(Relay):
    """A relay of that kind."""

    def _front_of(self, data):
        self.test.assertRaises(RuntimeError, self.next, b"Z")
        return super()._front_of(data)


class TestInnerCalls(unittest.TestCase):
    def test_they_are_refused(self):
        for made in (InnerStream(), InnerRelay(100)):
            made.test = self
            for _ in range(2):
                if isinstance(made, Relay):
                    self.assertEqual(made.pass_on(NoData().write()), NoData().write())
                else:
                    made.feed(NoData().write())
                    self.assertEqual(list(made), [NoData()])


class TestCopies(unittest.TestCase):
    def test_messages_are_copied_and_pickled(self):
        for message, _ in samples.ALL:
            for made in (copy.copy(message), copy.deepcopy(message), pickle.loads(pickle.dumps(message))):
                self.assertEqual(made, message)

    def test_streams_are_not(self):
        for call in (copy.deepcopy, pickle.dumps):
            self.assertRaises(TypeError, call, ClientStream())


if __name__ == "__main__":
    unittest.main()
