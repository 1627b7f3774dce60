"""What threads may share."""

from __future__ import annotations

import threading
from typing import Any, Callable, TypeVar

Result = TypeVar("Result")


class Shared:
    """An object whose calls wait for one another.

    A call that comes into one of its own thread, as from the handler of a signal, can't wait: it is a RuntimeError.
    """

    def __init__(self) -> None:
        self._lock = threading.RLock()
        self._is_called = False

    def _alone(self, call: Callable[..., Result], *args: Any) -> Result:
        """What a call gives while no other is at work."""
        with self._lock:
            if self._is_called:
                raise RuntimeError(f"this {type(self).__name__} is in use by the call that this one came into")
            self._is_called = True
            try:
                return call(*args)
            finally:
                self._is_called = False
