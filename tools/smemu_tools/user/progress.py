"""A line that says how far a script has come: on a terminal, rewritten in place, from the third
second on."""
from __future__ import annotations

import sys
import time

SECONDS, BETWEEN = 3, 0.5


class Progress:
    """How far a script has come."""

    def __init__(self) -> None:
        self.is_shown = sys.stderr.isatty()
        self.next = time.monotonic() + SECONDS

    def show(self, text: str) -> None:
        """Shows a text in the place of the one before."""
        if self.is_shown and time.monotonic() >= self.next:
            print(f"\033[K{text}", end="\r", file=sys.stderr, flush=True)
            self.next = time.monotonic() + BETWEEN

    def clear(self) -> None:
        """Takes it away, before something else is written."""
        if self.is_shown:
            print("\033[K", end="", file=sys.stderr, flush=True)
