"""Texts, as they are passed to the library and come back from it."""
from __future__ import annotations

import functools
from array import array
from mmap import mmap
from typing import Any, Callable, Iterable, Union

from ._library import declared, room, size_t
from ._numbers import OK, SHORT
from ._refused import refusal


class Immutable:
    """What is equal, hashed, shown, copied and pickled by what it was made of, which never changes."""

    __slots__ = ("_made_of",)
    _made_of: tuple[Any, ...]

    def __eq__(self, other: object) -> bool:
        return isinstance(other, Immutable) and type(other) is type(self) and other._made_of == self._made_of

    def __hash__(self) -> int:
        return hash(self._made_of)

    def __reduce__(self) -> tuple[Any, ...]:
        return type(self), self._made_of

    def __repr__(self) -> str:
        shown = [repr(one.decode("utf-8", "backslashreplace") if isinstance(one, bytes) else one) for one in self._made_of]
        return f"{type(self).__name__}({', '.join(shown)})"


@functools.total_ordering
class Identifier(Immutable):
    """A text that is one of a grammar, whatever grammar that is. Those of one grammar are ordered by their texts."""

    __slots__ = ()

    def __bytes__(self) -> bytes:
        return self._made_of[0]  # type: ignore[no-any-return]

    def __str__(self) -> str:
        return bytes(self).decode()

    def __lt__(self, other: Any) -> bool:
        if type(other) is not type(self):
            return NotImplemented
        return bytes(self) < bytes(other)


Text = Union[str, bytes, bytearray, memoryview, Identifier]


def bytes_of(text: Text) -> bytes:
    """A text in UTF-8. A lone surrogate becomes bytes that aren't UTF-8, and so the library refuses it. Whatever class the text is of, they
    are of `bytes` itself, so that they have the length that they say."""
    if isinstance(text, str):
        return str.encode(text, "utf-8", "surrogatepass")
    if isinstance(text, Identifier):
        text = bytes(text)
    if type(text) is bytes:
        return text
    if isinstance(text, bytes):
        return bytes.__getitem__(text, slice(None))
    if isinstance(text, bytearray):
        return bytes(bytearray.__getitem__(text, slice(None)))
    if isinstance(text, memoryview):
        if text.ndim == 1 and text.itemsize == 1:
            return text.tobytes()
        raise TypeError(f"a text is wanted, as str or as bytes, and not a memoryview of the shape {text.shape} and format {text.format}")
    raise TypeError(f"a text is wanted, as str or as bytes, and not {type(text).__name__}")


def several(texts: Iterable[Text]) -> list[Text]:
    """Texts, and not the characters of one."""
    if isinstance(texts, (str, bytes, bytearray, memoryview, array, mmap)):
        raise TypeError(f"a list of texts is wanted, and not {type(texts).__name__}")
    return list(texts)


def of_kind(number: Any, kind: type) -> Any:
    """A number, where it is of the kind of numbers that is wanted."""
    if type(number) is not kind:
        raise TypeError(f"a {kind.__name__} is wanted, and not {number!r}")
    return number


def written(size: int, call: Callable[..., int], *given: Any) -> bytes:
    """What a call writes, in so much room, or in as much as it asks for."""
    while True:
        out, detail = room(size), size_t()
        status = call(*given, out, size, detail)
        if status == OK:
            return out[: detail.value]  # type: ignore[no-any-return]
        if status != SHORT:
            raise refusal(status, detail.value)
        size = detail.value


def writing(name: str, numbers: int, texts: int = 1) -> Callable[..., bytes]:
    """A call that takes so many numbers and then so many texts, and writes a text."""
    call = declared(name, "number " * numbers + "text " * texts + "text sizes")

    def write(*given: Any) -> bytes:
        passed, size = [*given[:numbers]], 8
        for text in given[numbers:]:
            text = bytes_of(text)
            size += len(text)
            passed += (text, len(text))
        return written(size, call, *passed)

    return write
