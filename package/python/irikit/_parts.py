"""References taken apart, and put together."""
from __future__ import annotations

import struct
from typing import Any, NamedTuple

from ._library import address, declared, size_t
from ._forms import fault
from ._numbers import BAD_TEXT, IRI, OK, REFERENCE, URI, Grammar, Kind, Part
from ._refused import Refused
from ._texts import Text, bytes_of, of_kind, written

_split = declared("split", "number text sizes sizes")
_build = declared("build", "number number many text sizes")
_NOWHERE = size_t(-1).value
_SLOTS = size_t * 16
# The parts in the order of their slots.
SCHEME, AUTHORITY, PATH, QUERY, FRAGMENT, USERINFO, HOST, PORT = range(0, 16, 2)


def slots_of(text: bytes, grammar: Grammar) -> Any:
    """Where the parts of a reference stand, or None where it is none."""
    slots = _SLOTS()
    return slots if _split(grammar, text, len(text), slots, size_t()) == OK else None


def _slots_of_reference(text: bytes, grammar: Grammar) -> Any:
    slots = slots_of(text, grammar)
    if slots is None:
        raise Refused(BAD_TEXT, fault(text, REFERENCE, grammar))
    return slots


def part_of(text: bytes, slots: Any, part: int) -> str | None:
    """A part of a reference, or None where it isn't there."""
    start = slots[part]
    return None if start == _NOWHERE else text[start : start + slots[part + 1]].decode()


class SplitResult(NamedTuple):
    """The parts of a reference, as `urllib.parse.urlsplit` names them. One that isn't there is None; the path always is."""

    scheme: str | None
    netloc: str | None
    path: str
    query: str | None
    fragment: str | None

    def _in_netloc(self, part: int) -> str | None:
        if self.netloc is None:
            return None
        text = bytes_of("//" + self.netloc)
        return part_of(text, _slots_of_reference(text, IRI), part)

    @property
    def userinfo(self) -> str | None:
        """What stands before the `@` of the netloc.

        >>> split("ftp://me:secret@h/").userinfo
        'me:secret'
        """
        return self._in_netloc(USERINFO)

    @property
    def username(self) -> str | None:
        """The userinfo up to its first colon."""
        return None if self.userinfo is None else self.userinfo.partition(":")[0]

    @property
    def password(self) -> str | None:
        """What follows the first colon of the userinfo."""
        return None if self.userinfo is None or ":" not in self.userinfo else self.userinfo.partition(":")[2]

    @property
    def hostname(self) -> str | None:
        """The host in lower case and without the brackets of an IP address; None where it is empty.

        >>> split("//[2001:DB8::7]:8042/").hostname
        '2001:db8::7'
        """
        return (self._in_netloc(HOST) or "").strip("[]").lower() or None

    @property
    def port(self) -> int | None:
        """The port as a number; None where it is empty. Raises `ValueError` where it has more digits than `int` reads.

        >>> split("//h:8042").port, split("//h:").port
        (8042, None)
        """
        port = self._in_netloc(PORT)
        return int(port) if port else None

    def geturl(self) -> str:
        """The parts put together (RFC 3986 section 5.3): of a text that was split, that text.

        >>> split("//h?").geturl()
        '//h?'
        """
        return "".join((
            "" if self.scheme is None else self.scheme + ":", "" if self.netloc is None else "//" + self.netloc, self.path,
            "" if self.query is None else "?" + self.query, "" if self.fragment is None else "#" + self.fragment,
        ))


# What `help` says of a field, in place of its number.
for _field, _words in (
    ("scheme", "The scheme (RFC 3986 section 3.1)."), ("netloc", "The authority (section 3.2)."), ("path", "The path (section 3.3)."),
    ("query", "The query (section 3.4), without its `?`."), ("fragment", "The fragment (section 3.5), without its `#`."),
):
    getattr(SplitResult, _field).__doc__ = _words


def split(text: Text, grammar: Grammar = URI) -> SplitResult:
    """The parts of a reference, a tuple as `urllib.parse.urlsplit` gives, but that what isn't there is None.

    >>> split("foo://example.com:8042/over/there?name=ferret")
    SplitResult(scheme='foo', netloc='example.com:8042', path='/over/there', query='name=ferret', fragment=None)

    Raises `Refused` where the text is no reference.
    """
    passed = bytes_of(text)
    slots = _slots_of_reference(passed, of_kind(grammar, Grammar))
    scheme, netloc, path, query, fragment = [part_of(passed, slots, part) for part in (SCHEME, AUTHORITY, PATH, QUERY, FRAGMENT)]
    return SplitResult(scheme, netloc, path or "", query, fragment)


def build(
    *,
    scheme: Text | None = None,
    userinfo: Text | None = None,
    host: Text | None = None,
    port: Text | int | None = None,
    path: Text | None = None,
    query: Text | None = None,
    fragment: Text | None = None,
    kind: Kind = REFERENCE,
    grammar: Grammar = URI,
) -> str:
    """A text built from parts (RFC 3986 section 5.3), each without the delimiters around it, but a host with its brackets; None for one
    that is absent. A port may be a number.

    >>> build(scheme="http", host="a", port=8042, path="/b")
    'http://a:8042/b'

    Raises `Refused` where the parts make no text of the kind.
    """
    digits = b"%d" % port if isinstance(port, int) and not isinstance(port, bool) else port
    parts = (scheme, userinfo, host, digits, path, query, fragment)
    given = [(part, bytes_of(text)) for part, text in zip(Part, parts) if text is not None]  # type: ignore[arg-type]
    words = [word for part, text in given for word in (part, address(text), len(text))]
    array = struct.pack(f"{len(words)}N", *words)
    size = sum(len(text) for _, text in given) + 8
    return written(size, _build, of_kind(grammar, Grammar), of_kind(kind, Kind), array, len(given)).decode()
