"""Each call with its requests for memory refused in turn.

The library has to be linked with c/tests/refusing.c, as tests/system/python.sh does it: so no `test_` begins the name
of this file.
"""

import ctypes
import unittest

import support  # noqa: F401
import samples
import test_faults
import test_messages
from pgmsg import Fault, fault
from pgmsg._library import _binding

MANY_REQUESTS = 1000

refusing = ctypes.PyDLL(_binding.__file__)
refusing.refuse_nth.argtypes = [ctypes.c_size_t]
refusing.was_refused.restype = ctypes.c_bool


class TestRefusedMemory(unittest.TestCase):
    def each_refused(self, call):
        """What a call raises, once for each of its requests for memory, which is refused."""
        for nth in range(1, MANY_REQUESTS):
            refusing.refuse_nth(nth)
            raised = None
            try:
                call()
            except (MemoryError, Fault) as error:
                raised = error
            if not refusing.was_refused():
                return
            yield raised
        self.fail("a call makes requests without end")

    def test_messages(self):
        for message, data in samples.ALL:
            frame = test_messages.frame_of(message, data)
            for call in (message.write, lambda: type(message).read(frame)):
                for raised in self.each_refused(call):
                    self.assertIsInstance(raised, MemoryError)
            self.assertEqual(message.write(), data)

    def test_faults(self):
        for reader, body, code, _, words in test_faults.REPORTED:
            for raised in self.each_refused(lambda: test_faults.call_of(reader)(body)):
                if not isinstance(raised, MemoryError):
                    # Without memory for the words these are the shorter ones of the code. The tag of a server's
                    # message is looked up first, with a request of its own.
                    self.assertIs(raised.code, code)
                    self.assertIn(str(raised), (str(fault.refusal(code)), words))


if __name__ == "__main__":
    unittest.main()
