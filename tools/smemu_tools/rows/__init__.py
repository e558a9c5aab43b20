"""What makes the rows of crates/smemu_rows."""
from __future__ import annotations

from typing import Any
from smemu_tools import TOP

# the crate of the rows
HERE = TOP / "crates" / "smemu_rows"


def random_bytes(chance: Any, count: Any) -> Any:
    """So many bytes at random."""
    return chance.getrandbits(8 * count).to_bytes(count, "little") if count else b""


def without(name: Any, end: Any) -> Any:
    """A name without an end that it may have."""
    return name[:-len(end)] if name.endswith(end) else name
