"""What the bodies that are read from the program have in common."""
from __future__ import annotations

import io
from typing import List

from .limits import CHUNK


class RawFile(io.RawIOBase):
    """A file that is read, and to its end in large pieces."""

    def readable(self) -> bool:
        return True

    def readall(self) -> bytes:
        parts: List[bytes] = []
        while piece := self.read(CHUNK):
            parts.append(piece)
        return b"".join(parts)
