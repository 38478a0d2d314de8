"""Lines, answered one by one in few calls."""
from __future__ import annotations

from typing import Any, Callable

from ._library import address, declared, room, size_t
from ._numbers import NORMAL, OK, SHORT, URI, Grammar, Mode
from ._refused import refusal
from ._texts import Text, bytes_of, of_kind

_canonical_pairs = declared("canonical_pairs", "number number many text sizes sizes")

# Room for answers to many lines, at first: so that all of it stays in the processor's cache.
_ANSWERS = 1 << 17


def answered(call: Callable[..., int], lines: Text, *given: Any, wide: int = 0) -> bytes:
    """The answers of a call to lines, which may be so much longer than these. The end of the text ends the last line."""
    lines = bytes_of(lines)
    if lines and not lines.endswith(b"\n"):
        lines += b"\n"
    start, end = address(lines), len(lines)
    at, pieces, out, used, detail, status = 0, [], room(min(_ANSWERS, 64 + 4 * (wide + end))), size_t(), size_t(), int(SHORT)
    while status == SHORT:
        status = call(*given, start + at, end - at, out, len(out), used, detail)
        if status not in (OK, SHORT):
            raise refusal(status, detail.value)
        pieces.append(out[: detail.value])
        at += used.value
        if not used.value:
            out = room(2 * len(out))
    return b"".join(pieces)


def pairs(lines: Text, grammar: Grammar = URI, mode: Mode = NORMAL) -> bytes:
    """The answers to lines, each a page, a tab and a link on it, in UTF-8: `ok TEXT` by the link's canonical text, `bad WORDS` for its
    first fault, `base WORDS` for the page's, and `bad line` where there is no tab. Each is that of its own line alone, so lists of pairs
    may be cut at any LF. An LF ends a line, and the end of the text the last one; one CR before either isn't part of the line.

    >>> pairs("http://a/b\\tc\\nhttp://h/\\t%\\n//h/\\tc")
    b'ok http://a/c\\nbad invalid path\\nbase expected an absolute IRI but got a relative IRI\\n'
    """
    return answered(_canonical_pairs, lines, of_kind(grammar, Grammar), of_kind(mode, Mode))
