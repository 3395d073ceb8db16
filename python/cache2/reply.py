"""What was asked for, and is answered later."""
from __future__ import annotations

from typing import Any, List, Optional

from .conversation import Conversation, Pending
from .errors import Cache2Error


class Reply:
    """The reply to one call, which may be several commands. `result` waits for it, and raises what was refused."""

    def __init__(self, talk: Conversation, pendings: List[Pending]) -> None:
        self._talk = talk
        self._pendings = pendings
        self.is_seen = False

    @property
    def is_done(self) -> bool:
        """Whether the reply was read."""
        return self._pendings[-1].is_done

    @property
    def error(self) -> Optional[Cache2Error]:
        """What was refused, as far as it was read. The first refusal is the cause of those after it."""
        return next((pending.error for pending in self._pendings if pending.error), None)

    def wait(self) -> None:
        with self._talk.lock:
            self._talk.wait(self._pendings[-1])

    def result(self) -> Any:
        self.wait()
        self.is_seen = True
        if self.error:
            raise self.error
        return self._pendings[-1].result
