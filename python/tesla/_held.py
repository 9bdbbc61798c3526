"""What receivers, senders and followers have in common: a slot of the library, under a lock."""
import ctypes
import threading

from ._errors import failed
from ._library import calls
from ._structures import Slot

TOP = 1 << 64


class Held:
    """What stands in a slot. It is a context manager that closes it, and a lock is held around each call of the library."""

    # The first word of the names of its functions.
    _kind = ""

    def __init__(self):
        self._lock, self._slot = threading.Lock(), Slot()
        self._at = ctypes.addressof(self._slot)

    def close(self) -> None:
        """Gives all memory back. What is closed stays closed."""
        with self._lock:
            calls[f"{self._kind}_close"](self._at)

    def _call(self, name, *arguments):
        """A call that is done, or is an exception."""
        with self._lock:
            status = calls[f"{self._kind}_{name}"](self._at, *arguments)
        if status:
            raise failed(status)

    def __enter__(self):
        return self

    def __exit__(self, *_) -> None:
        self.close()

    def __del__(self) -> None:
        if hasattr(self, "_at"):
            calls[f"{self._kind}_close"](self._at)
