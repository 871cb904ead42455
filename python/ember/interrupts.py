"""Ctrl-C while a program is started, or its folder is removed."""
from __future__ import annotations

import signal
import threading
from types import FrameType
from typing import Any, Callable, Optional


class Interrupts:
    """Holds up SIGINT inside of its `with`, so that no KeyboardInterrupt comes between two steps that belong together.

    Python handles signals in the main thread alone, so it does nothing in another thread; nor where SIGINT is ignored, or ends the
    process. A mask of the main thread wouldn't do: the system would give the signal to another thread, and Python would still call
    the handler in the main thread.
    """

    def __init__(self) -> None:
        handler = signal.getsignal(signal.SIGINT)
        is_main = threading.current_thread() is threading.main_thread()
        self._handler: Optional[Callable[[int, Optional[FrameType]], Any]] = handler if is_main and callable(handler) else None
        self._came = False

    def _note(self, number: int, frame: Optional[FrameType]) -> None:
        self._came = True

    def hold(self) -> None:
        """Holds up SIGINT from here on."""
        if self._handler:
            signal.signal(signal.SIGINT, self._note)

    def let_through(self) -> None:
        """Handles SIGINT at once from here on, and one that was held up now. So it may raise what the handler raises."""
        if self._handler:
            signal.signal(signal.SIGINT, self._handler)
            came, self._came = self._came, False
            if came:
                self._handler(signal.SIGINT, None)

    def __enter__(self) -> Interrupts:
        self.hold()
        return self

    def __exit__(self, *_: object) -> None:
        self.let_through()
