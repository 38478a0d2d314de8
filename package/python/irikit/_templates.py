"""URI templates (RFC 6570)."""
from __future__ import annotations

import ctypes
import math
import struct
from decimal import Decimal
from itertools import accumulate, chain
from typing import Any, Mapping, Sequence

from ._library import declared, room, size_t
from ._numbers import BAD_TEXT, LIST, OK, PAIRS, SHORT, STRING, UNDEFINED, URI, Grammar, Status, TemplateFault, Value
from ._refused import Refused
from ._texts import Identifier, Immutable, Text, bytes_of, of_kind

_expand = declared("expand", "number text many text sizes sizes")
_template_variables = declared("template_variables", "text sizes size sizes sizes")


class Template(Immutable):
    """A URI template (RFC 6570, level 4), as `uritemplate.URITemplate` is one. Any number of threads may use one object.

    >>> search = Template("/search{?q,page}{&labels*}")
    >>> search.variables
    ('q', 'page', 'labels')
    >>> search.expand({"q": "two words", "labels": ["a", "b"]}, page=2)
    '/search?q=two%20words&page=2&labels=a&labels=b'

    Raises `Refused` where the text has a fault, whose `place` is its place in bytes.
    """

    __slots__ = ("_variables",)

    def __init__(self, text: Text, grammar: Grammar = URI) -> None:
        self._made_of = bytes_of(text), of_kind(grammar, Grammar)
        self._variables = tuple(variables(text))

    @property
    def variables(self) -> tuple[str, ...]:
        """The names of the variables, from left to right, each as often as it stands there."""
        return self._variables

    def expand(self, values: Mapping[Any, Any] | None = None, /, **more: Any) -> str:
        """The expansion by values of variables, as the function `expand` gives it."""
        text, grammar = self._made_of
        return _expanded(text, grammar, values, more)


def variables(template: Text) -> list[str]:
    """The names of a template's variables, from left to right, each as often as it stands there.

    >>> variables("/search{?q,n*}")
    ['q', 'n']

    Raises `Refused` where the template has a fault, whose `place` is its place in bytes.
    """
    text = bytes_of(template)
    most = len(text) // 2
    slots, detail, place = (size_t * (2 * most))(), size_t(), size_t()
    status = _template_variables(text, len(text), slots, most, detail, place)
    if status != OK:
        raise Refused(BAD_TEXT, TemplateFault(detail.value), place.value)
    places = zip(slots[: 2 * detail.value : 2], slots[1 : 2 * detail.value : 2])
    return [text[offset : offset + size].decode() for offset, size in places]


def expand(
    template: Text, values: Mapping[Any, Any] | None = None, /, *, grammar: Grammar = URI, **more: Any
) -> str:
    """The expansion of a URI template (RFC 6570, level 4), as the package `uritemplate` has it.

    >>> expand("/search{?q,page}{&labels*}", {"q": "two words", "labels": ["a", "b"]}, page=2)
    '/search?q=two%20words&page=2&labels=a&labels=b'

    A value is a text, a number, a sequence of these, a mapping or a list of pairs of these, or None, which stands for no value. A number
    is its decimal text, as `str` writes it. Of two with one name that among `more` counts.

    Raises `Refused` where the template has a fault, whose `place` is its place in bytes, or a text isn't UTF-8; `TypeError` where a
    value is of another type.
    """
    return _expanded(bytes_of(template), of_kind(grammar, Grammar), values, more)


def _expanded(text: bytes, grammar: Grammar, values: Mapping[Any, Any] | None, more: dict[str, Any]) -> str:
    if not isinstance(values, (dict, Mapping, type(None))):
        raise TypeError(f"a mapping of variables is wanted, and not {type(values).__name__}")
    given = {bytes_of(name): value for name, value in [*({} if values is None else values).items(), *more.items()]}
    array, detail, place, size = _variables(given), size_t(), size_t(), len(text) + 256
    while True:
        out = room(size)
        status = _expand(grammar, text, len(text), array, len(given), out, size, detail, place)
        if status == OK:
            return str(out[: detail.value], "utf-8")
        if status == BAD_TEXT:
            raise Refused(BAD_TEXT, TemplateFault(detail.value), place.value)
        if status != SHORT:
            raise Refused(Status(status), None, place.value)
        size = detail.value


def _variables(given: dict[bytes, Any]) -> Any:
    """In one buffer: an irikit_variable of the header for each variable, an irikit_text for each text, and the texts themselves, names
    first."""
    texts, kinds = [*given], []
    for name, value in given.items():
        kind, some = _kind_and_texts(name, value)
        kinds.append((kind, len(texts), len(some)))
        texts += some
    wide, piece = ctypes.sizeof(size_t), b"".join(texts)
    variables_size, texts_size = wide * 5 * len(given), wide * 2 * len(texts)
    held = room(variables_size + texts_size + len(piece))
    items = ctypes.addressof(held) + variables_size
    slots = [*zip(accumulate(map(len, texts), initial=items + texts_size), map(len, texts))]
    words = [word for slot, (kind, at, count) in zip(slots, kinds) for word in (*slot, kind, items + wide * 2 * at, count)]
    words += chain.from_iterable(slots)
    struct.pack_into(f"{len(words)}N{len(piece)}s", held, 0, *words, piece)
    return held


def _kind_and_texts(name: bytes, value: Any) -> tuple[Value, list[bytes]]:
    """A value, as the library takes it."""
    if value is None:
        return UNDEFINED, []
    if isinstance(value, (str, bytes, bytearray, memoryview, Identifier)):
        return STRING, [bytes_of(value)]
    if isinstance(value, (int, float, Decimal)):
        return STRING, [_one(name, value)]
    if isinstance(value, (list, tuple, Sequence)):
        items = [*value]
        pairs = [item for item in items if isinstance(item, tuple) and len(item) == 2]
        if not pairs or len(pairs) < len(items):
            return LIST, [_one(name, item) for item in items if item is not None]
    elif isinstance(value, (dict, Mapping)):
        pairs = [*value.items()]
    else:
        return STRING, [_one(name, value)]
    return PAIRS, [_one(name, text) for key, item in pairs if item is not None for text in (key, item)]


def _one(name: bytes, value: Any) -> bytes:
    """A text, or the decimal text of a number."""
    try:
        if isinstance(value, int) and not isinstance(value, bool):
            return b"%d" % value
        if isinstance(value, float) and math.isfinite(value):
            value = float.__repr__(value)
        if isinstance(value, Decimal) and value.is_finite():
            value = Decimal.__str__(value)
        return bytes_of(value)
    except TypeError:
        raise TypeError(f"the variable {name.decode(errors='replace')!r} has a {type(value).__name__}, which is no text and no number") from None
