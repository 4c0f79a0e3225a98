"""A progress bar on standard error, shown only if that is a terminal."""
from __future__ import annotations

import sys
import time
from typing import Any, Optional, TextIO

WIDTH = 30


class Bar:
    """Called with how much is done and, if that is known, of how much, it shows both at most ten times a second. `with` ends its line.

    Give it as `progress` to a long call:

        with colmjurr.Bar("range", "bytes") as bar:
            points = channel.range(progress=bar)
    """

    def __init__(self, what: str, unit: str = "", stream: Optional[TextIO] = None, is_shown: Optional[bool] = None):
        self.what, self.unit = what, unit
        self.stream = sys.stderr if stream is None else stream
        self.is_shown = self.stream.isatty() if is_shown is None else is_shown
        self.begun = time.monotonic()
        self.shown_at = 0.0
        self.last: tuple[int, Optional[int]] = (0, None)

    def __enter__(self) -> "Bar":
        return self

    def __exit__(self, *error: Any) -> None:
        if self.is_shown and self.shown_at:
            self._show(*self.last)
            self.stream.write("\n")
            self.stream.flush()

    def clear(self) -> None:
        """Removes the bar from its line, so that another line can be written there. The next call shows it again."""
        if self.is_shown and self.shown_at:
            self.stream.write("\r\x1b[K")
            self.stream.flush()

    def __call__(self, done: int, of: Optional[int] = None) -> None:
        self.last = done, of
        now = time.monotonic()
        if self.is_shown and now - self.shown_at >= 0.1:
            self.shown_at = now
            self._show(done, of)

    def _show(self, done: int, of: Optional[int]) -> None:
        rate = done / max(time.monotonic() - self.begun, 1e-6)
        if of:
            full = min(WIDTH, WIDTH * done // of)
            bar = f"[{'#' * full}{'.' * (WIDTH - full)}] {100 * done // of:3d} %"
        else:
            bar = f"{done:,} {self.unit}"
        self.stream.write(f"\r{self.what}: {bar}, {rate:,.0f} {self.unit}/s\x1b[K")
        self.stream.flush()
