"""References against one base."""
from __future__ import annotations

import re
from typing import Iterable

from ._forms import fault
from ._library import declared, room, size_t
from ._lines import answered
from ._numbers import ABSOLUTE, BAD_BASE, NORMAL, OK, URI, Grammar, Mode
from ._refused import Refused, refusal
from ._texts import Immutable, Text, bytes_of, of_kind, several, writing

_resolve = writing("resolve", 1, 2)
_target = writing("target", 1, 2)
_canonical = declared("canonical", "number number text text text sizes")
_canonical_lines = declared("canonical_lines", "number number text many text sizes sizes")

# How many references of a list go into one call: so that all of it stays in the processor's cache.
_AT_ONCE = 4096
# An answer, with the text of one that is `ok`.
_ANSWER = re.compile("ok (.*)|bad .*")


class Links(Immutable):
    """References against one base, which is a URI of the grammar without a fragment. Any number of threads may use one object.

    >>> Links("http://a/b/c/d;p?q")
    Links('http://a/b/c/d;p?q', Grammar.URI)

    Raises `Refused` where the base is none.
    """

    __slots__ = ()

    def __init__(self, base: Text, grammar: Grammar = URI) -> None:
        self._made_of = bytes_of(base), grammar
        wrong = fault(base, ABSOLUTE, grammar)
        if wrong is not None:
            raise Refused(BAD_BASE, wrong)

    @property
    def base(self) -> bytes:
        """The base, in UTF-8."""
        return self._made_of[0]  # type: ignore[no-any-return]

    @property
    def grammar(self) -> Grammar:
        """The grammar of the base and of the references."""
        return self._made_of[1]  # type: ignore[no-any-return]

    def canonical_bytes(self, reference: Text, mode: Mode = NORMAL) -> bytes:
        """The canonical text of a reference, in UTF-8.

        >>> Links("http://a/b/c").canonical_bytes(b"%7e")
        b'http://a/b/~'

        Raises `Refused` where it is none.
        """
        base, grammar = self._made_of
        reference = bytes_of(reference)
        size = len(base) + len(reference) + 3
        out, detail = room(size), size_t()
        status = _canonical(
            grammar, of_kind(mode, Mode), base, len(base), reference, len(reference), out, size, detail
        )
        if status != OK:
            raise refusal(status, detail.value)
        return out[: detail.value]  # type: ignore[no-any-return]

    def canonical(self, reference: Text, mode: Mode = NORMAL) -> str:
        """The canonical text of a reference: resolved against the base (RFC 3986 section 5.2), in normal form.

        >>> Links("http://a/b/c").canonical("../D%7e")
        'http://a/D~'
        >>> Links("http://a/").canonical("//b:80", BY_SCHEME)
        'http://b/'
        >>> Links("http://a/").canonical("%4")
        Traceback (most recent call last):
        irikit.Refused: invalid path

        Raises `Refused` where it is none.
        """
        return self.canonical_bytes(reference, mode).decode()

    def resolve(self, reference: Text) -> str:
        """A reference resolved against the base (RFC 3986 section 5.2), not in normal form.

        >>> Links("http://A/b/c").resolve("../%7e")
        'http://A/%7e'

        Raises `Refused` where it is none.
        """
        base, grammar = self._made_of
        return _resolve(grammar, base, reference).decode()

    def target(self, reference: Text) -> str:
        """A reference resolved against the base (RFC 3986 section 5.2.2), with its dot segments.

        >>> Links("http://A/b/c").target("../%7e")
        'http://A/b/../%7e'

        Raises `Refused` where it is none.
        """
        base, grammar = self._made_of
        return _target(grammar, base, reference).decode()

    def answers(self, lines: Text, mode: Mode = NORMAL) -> bytes:
        """The answers to lines, in UTF-8: `ok TEXT` or `bad WORDS` for each. An LF ends a line, and the end of the text the last one;
        one CR before either isn't part of the line.

        >>> Links("http://a/b").answers("c\\n%\\n../d")
        b'ok http://a/c\\nbad invalid path\\nok http://a/d\\n'
        """
        base, grammar = self._made_of
        return answered(_canonical_lines, lines, grammar, of_kind(mode, Mode), base, len(base), wide=len(base))

    def canonical_many(self, references: Iterable[Text], mode: Mode = NORMAL) -> list[str | None]:
        """The canonical texts of references, in their order; None for each that is refused.

        >>> Links("http://a/b").canonical_many(["c", "%4", "../d"])
        ['http://a/c', None, 'http://a/d']
        """
        found: list[str | None] = []
        rest, mode = several(references), of_kind(mode, Mode)
        for at in range(0, len(rest), _AT_ONCE):
            some = rest[at : at + _AT_ONCE]
            lines = _lines(some)
            texts = _texts(self.answers(lines, mode).decode())
            # No reference has a CR or an LF, and a percent sign alone is none either.
            if b"\r" in lines or len(texts) != len(some):
                lines = _lines([b"%" if b"\r" in text or b"\n" in text else text for text in map(bytes_of, some)])
                texts = _texts(self.answers(lines, mode).decode())
            found += texts
        return found


def _lines(texts: list[Text]) -> bytes:
    """Texts in UTF-8, with an LF after each."""
    try:
        return "\n".join([*texts, ""]).encode("utf-8", "surrogatepass")  # type: ignore[list-item]
    except TypeError:
        return b"\n".join([*map(bytes_of, texts), b""])


def _texts(answers: str) -> list[str | None]:
    """The texts of answers; None for each that is `bad`. Where none is, a split takes two thirds of the time (2026-12-01)."""
    if answers.startswith("bad ") or "\nbad " in answers:
        return [text or None for text in _ANSWER.findall(answers)]
    return answers[3:-1].split("\nok ")  # type: ignore[return-value]


def canonical_many(
    base: Text, references: Iterable[Text], grammar: Grammar = URI, mode: Mode = NORMAL
) -> list[str | None]:
    """The canonical texts of references against one base, in their order; None for each that is refused.

    >>> canonical_many("http://a/b", ["c", "%4", "//h/%7e"])
    ['http://a/c', None, 'http://h/~']

    Raises `Refused` where the base is no URI without a fragment.
    """
    return Links(base, grammar).canonical_many(references, mode)


def resolve(base: Text, reference: Text, grammar: Grammar = URI) -> str:
    """A reference resolved against a base (RFC 3986 section 5.2), not in normal form.

    >>> resolve("http://A/b/c", "../%7e")
    'http://A/%7e'

    Raises `Refused` where the base is no URI without a fragment, or the reference is none.
    """
    return _resolve(of_kind(grammar, Grammar), base, reference).decode()
