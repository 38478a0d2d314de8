"""What is wrong with a text, and its forms."""
from __future__ import annotations

from ._library import declared, size_t
from ._numbers import (
    BAD_TEXT, IN_SEGMENT, NORMAL, NOT_NORMAL, OK, REFERENCE, URI, Fault, Grammar, Kind, Mode, Place,
)
from ._refused import refusal
from ._texts import Identifier, Text, bytes_of, of_kind, writing

_validate = declared("validate", "number number text sizes")
_fault_part = declared("fault_part", "number size text sizes sizes")
_is_normalized = declared("is_normalized", "number number text sizes")
_normalize = writing("normalize", 2)
_steps = writing("steps", 2)
_canonical_to_uri = writing("canonical_to_uri", 1, 2)
_map_to_uri = writing("map_to_uri", 0)
_encode = writing("encode", 2)
_decode = writing("decode", 0)


def fault(text: Text, kind: Kind = REFERENCE, grammar: Grammar = URI) -> Fault | None:
    """A text's first fault from the left, or None where it is of the kind. `str` of a fault is its words.

    >>> fault("../g"), fault("../g", WITH_SCHEME)
    (None, Fault.UNEXPECTED_RELATIVE)
    >>> str(fault("//[::1"))
    'invalid host'
    """
    passed, detail = bytes_of(text), size_t()
    status = _validate(of_kind(grammar, Grammar), of_kind(kind, Kind), passed, len(passed), detail)
    if status not in (OK, BAD_TEXT):
        raise refusal(status, detail.value)
    return Fault(detail.value) if status == BAD_TEXT else None


def faulty_part(text: Text, kind: Kind = REFERENCE, grammar: Grammar = URI) -> slice | None:
    """The place of the part that has a text's first fault, as a slice of that text; None where it is of the kind.

    >>> text = "http://me@h h:8/"
    >>> text[faulty_part(text)]
    'h h'
    """
    number, passed, part = fault(text, kind, grammar), bytes_of(text), (size_t * 2)()
    if number is None:
        return None
    _fault_part(kind, number, passed, len(passed), part, size_t())
    ends = part[0], part[0] + part[1]
    if isinstance(text, (str, Identifier)):
        return slice(*[len(passed[:end].decode("utf-8", "surrogatepass")) for end in ends])
    return slice(*ends)


def normalize(text: Text, mode: Mode = NORMAL, grammar: Grammar = URI) -> str:
    """The normal form of a text with a scheme (RFC 3986 section 6.2.2; by scheme rules section 6.2.3).

    >>> normalize("HTTP://a:80/%7e"), normalize("HTTP://a:80", BY_SCHEME)
    ('http://a:80/~', 'http://a/')

    Raises `Refused` where the text is no URI of the grammar.
    """
    return _normalize(of_kind(grammar, Grammar), of_kind(mode, Mode), text).decode()


def is_normalized(text: Text, mode: Mode = NORMAL, grammar: Grammar = URI) -> bool:
    """Whether a text with a scheme is its own normal form.

    >>> is_normalized("http://a/%2F"), is_normalized("http://a/%2f")
    (True, False)

    Raises `Refused` where the text is no URI of the grammar.
    """
    passed, detail = bytes_of(text), size_t()
    status = _is_normalized(of_kind(grammar, Grammar), of_kind(mode, Mode), passed, len(passed), detail)
    if status not in (OK, NOT_NORMAL):
        raise refusal(status, detail.value)
    return bool(status == OK)


def steps(text: Text, mode: Mode = NORMAL, grammar: Grammar = URI) -> list[str]:
    """The steps, in words, that lead a text with a scheme to its normal form, from left to right. A place counts the bytes of its part,
    as the steps before leave it.

    >>> steps("Http://a/%7eb/../c"), steps("http://a:80", BY_SCHEME)
    (['scheme letter 0', 'decode path 1', 'dot segments'], ['default port', 'empty path'])

    Raises `Refused` where the text is no URI of the grammar.
    """
    return _steps(of_kind(grammar, Grammar), of_kind(mode, Mode), text).decode().split("\n")[:-1]


def canonicalize_to_uri(base: Text, reference: Text, mode: Mode = NORMAL) -> str:
    """The canonical text of a reference of IRIs against a base, mapped to a URI (RFC 3987 section 3.1). A host past ASCII becomes
    percent-encoded octets too, and not Punycode.

    >>> canonicalize_to_uri("http://a/b/", "../r\u00e9sum\u00e9")
    'http://a/r%C3%A9sum%C3%A9'

    Raises `Refused` where the base is no IRI without a fragment, or the reference is none.
    """
    return _canonical_to_uri(of_kind(mode, Mode), base, reference).decode()


def map_to_uri(text: Text) -> str:
    """A reference of IRIs, mapped to one of URIs (RFC 3987 section 3.1).

    >>> map_to_uri("http://a/\u00e9")
    'http://a/%C3%A9'

    Raises `Refused` where the text is no reference of IRIs.
    """
    return _map_to_uri(text).decode()


def encode(text: Text, place: Place = IN_SEGMENT, grammar: Grammar = URI) -> str:
    """A raw text, percent-encoded for its place in a reference (RFC 3986 sections 2.1 and 2.4).

    >>> encode("50% off/a"), encode("a=b&c", IN_QUERY)
    ('50%25%20off%2Fa', 'a=b&c')

    Raises `Refused` where the text isn't UTF-8.
    """
    return _encode(of_kind(grammar, Grammar), of_kind(place, Place), text).decode()


def decode(text: Text) -> bytes:
    """The bytes that a text decodes to (the URL Standard, section 1.3). They needn't be UTF-8.

    >>> decode("50%25%20off%2Fa")
    b'50% off/a'
    """
    return _decode(text)
