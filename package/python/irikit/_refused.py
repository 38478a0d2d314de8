"""What is raised where a text is refused."""
from __future__ import annotations

from typing import Any

from ._numbers import MEMORY, Fault, Status, TemplateFault

_WORDS = {
    Status.UNKNOWN: "PRESERVING is a mode of normalize and is_normalized alone",
    Status.BAD_VARIABLE: "a text that isn't UTF-8",
    Status.NO_HOST: "no host to replace",
}


class Refused(ValueError):
    """A text is refused. `status` says which one; `fault` is its first fault from the left, and None where it has none of its own; `place`
    is where that is, in bytes of UTF-8, of a template and of a field, the index of a variable that isn't UTF-8, and otherwise None."""

    status: Status
    fault: Fault | TemplateFault | None
    place: int | None

    def __init__(
        self, status: Status, fault: Fault | TemplateFault | None = None, place: int | None = None, words: str | None = None
    ) -> None:
        super().__init__(words or (_WORDS[status] if fault is None else str(fault)))
        self.status, self.fault, self.place = status, fault, place

    def __reduce__(self) -> tuple[Any, ...]:
        return type(self), (self.status, self.fault, self.place, str(self))


def refusal(status: int, detail: int) -> Exception:
    """The exception for a call's status and detail."""
    if status == MEMORY:
        return MemoryError()
    return Refused(Status(status), None if Status(status) in _WORDS else Fault(detail))
