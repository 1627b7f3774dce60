"""What the tests share."""

import pathlib
import sys

TOP = pathlib.Path(__file__).resolve().parent.parent

# At the end: a package on PYTHONPATH comes first, such as that of a wheel.
sys.path.append(str(TOP))


def tagged(tag, body):
    """A message with this tag and body."""
    return bytes([tag]) + (len(body) + 4).to_bytes(4, "big") + body
