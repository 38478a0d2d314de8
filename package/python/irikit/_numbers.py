"""The numbers of irikit.h, by name. No two of what a call takes or tells are one."""
import enum

from ._library import fault_words, template_fault_words, words


class _Number(int, enum.Enum):
    """A number that has a name, which is shown."""

    def __repr__(self) -> str:
        return f"{type(self).__name__}.{self.name}"

    def __str__(self) -> str:
        return repr(self)


class Status(_Number):
    """What a text is refused for."""

    OK = 0
    SHORT = 1
    NOT_NORMAL = 2
    BAD_TEXT = 3
    BAD_BASE = 4
    BAD_REFERENCE = 5
    UNKNOWN = 6
    BAD_VARIABLE = 7
    BAD_PART = 8
    NO_HOST = 9
    MEMORY = 10
    BAD_TOKEN = 11
    DISALLOWED = 12


class Grammar(_Number):
    """The grammar of a text: `URI` (RFC 3986, ASCII alone) or `IRI` (RFC 3987)."""

    URI = 100
    IRI = 101


class Mode(_Number):
    """The mode of a normal form: `NORMAL` (RFC 3986 section 6.2.2, and an empty port goes); `BY_SCHEME` (section 6.2.3: besides, the
    default port of http, https, ws, wss and ftp goes, and an empty path beside an authority becomes `/`); `PRESERVING`, as `NORMAL`, but
    a path without authority that doesn't begin with a slash keeps its dot segments: of `normalize` and `is_normalized` alone."""

    NORMAL = 200
    BY_SCHEME = 201
    PRESERVING = 202


class Kind(_Number):
    """The kind of a whole text (RFC 3986): `REFERENCE` (URI-reference), `WITH_SCHEME` (URI), `ABSOLUTE` (absolute-URI: with a scheme and
    without a fragment), `RELATIVE` (relative-ref: without a scheme)."""

    REFERENCE = 300
    WITH_SCHEME = 301
    ABSOLUTE = 302
    RELATIVE = 303


class Place(_Number):
    """The place of a reference that a text is encoded for, by what stands as it is there beside letters, digits, `-`, `.`, `_` and `~`:
    sub-delims in a registered name and in a user; those, `:` and `@` in a segment; `/` too in a path; `?` too in a query and a fragment;
    nothing else anywhere; every reserved character in a reference."""

    IN_REG_NAME = 400
    IN_USER = 401
    IN_SEGMENT = 402
    IN_PATH = 403
    IN_QUERY = 404
    IN_FRAGMENT = 405
    ANYWHERE = 406
    IN_REFERENCE = 407


class Fault(_Number):
    """What is wrong with a text; `str` of one is its words."""

    INVALID_SCHEME = 500
    INVALID_USERINFO = 501
    INVALID_HOST = 502
    INVALID_REG_NAME = 503
    INVALID_PORT = 504
    INVALID_PATH = 505
    INVALID_QUERY = 506
    INVALID_FRAGMENT = 507
    UNEXPECTED_FRAGMENT = 508
    UNEXPECTED_RELATIVE = 509
    INVALID_UTF8 = 510

    def __str__(self) -> str:
        return words(fault_words, self)


class TemplateFault(_Number):
    """What is wrong with a template (RFC 6570 section 2); `str` of one is its words."""

    EXPRESSION_NOT_CLOSED = 700
    INVALID_CHARACTER = 701
    INVALID_EXPRESSION = 702
    INVALID_PERCENT_ENCODING = 703
    INVALID_UTF8 = 704
    UNEXPECTED_VALUE_TYPE = 705
    UNSUPPORTED_OPERATOR = 706

    def __str__(self) -> str:
        return words(template_fault_words, self)


class Value(_Number):
    """The kind of a variable's value (RFC 6570 section 2.3)."""

    UNDEFINED = 600
    STRING = 601
    LIST = 602
    PAIRS = 603


class Part(_Number):
    """A part that a text is built from."""

    SCHEME = 800
    USERINFO = 801
    HOST = 802
    PORT = 803
    PATH = 804
    QUERY = 805
    FRAGMENT = 806


OK, SHORT, NOT_NORMAL, BAD_TEXT, BAD_BASE, BAD_REFERENCE, UNKNOWN, BAD_VARIABLE, BAD_PART, NO_HOST, MEMORY, BAD_TOKEN, DISALLOWED = list(Status)
UNDEFINED, STRING, LIST, PAIRS = list(Value)
URI, IRI = list(Grammar)
NORMAL, BY_SCHEME, PRESERVING = list(Mode)
REFERENCE, WITH_SCHEME, ABSOLUTE, RELATIVE = list(Kind)
IN_REG_NAME, IN_USER, IN_SEGMENT, IN_PATH, IN_QUERY, IN_FRAGMENT, ANYWHERE, IN_REFERENCE = list(Place)
