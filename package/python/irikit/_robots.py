"""What the rules of a robots file allow (RFC 9309)."""
from __future__ import annotations

import re
from typing import Iterable

from ._forms import fault
from ._library import declared, size_t
from ._links import Links
from ._numbers import BAD_REFERENCE, DISALLOWED, MEMORY, NORMAL, REFERENCE, URI, Grammar, Mode
from ._refused import Refused
from ._run import INPUT, LINE
from ._texts import Immutable, Text, bytes_of, several, written

_rules = declared("robots_rules", "text text text sizes")
_allows = declared("robots_allows", "number text text sizes")


class Robots(Immutable):
    """What a robots file allows one crawler to fetch: its rules are read once. Any number of threads may use one object.

    >>> robots = Robots("User-agent: *\\nDisallow: /private\\nAllow: /private/face.png\\n", "examplebot")
    >>> robots.allows("http://example.com/private/face.png")
    True
    >>> robots.allows_many(["/private/x", "/", "%4"])
    [False, True, None]

    `text` is the file, and `token` the crawler's product token: letters, `_` and `-`. `site` is an address of the site whose file it
    is: links are read against it, and of links to other sites the file says nothing. Without it, only path and query of a link count,
    as `urllib.robotparser` has it. By the mode `BY_SCHEME` a default port is no other site. Fetching the file, `Crawl-delay` and `Sitemap` are left to the caller.

    Raises `ValueError` where the token is none, or a line of the file has more than a mebibyte; `Refused` where the site is no URI
    without a fragment.
    """

    __slots__ = ("_links", "_is_of_site", "_rules")

    def __init__(self, text: Text, token: str, site: Text | None = None, grammar: Grammar = URI, mode: Mode = NORMAL) -> None:
        if not re.fullmatch(r"[A-Za-z_-]+", token):
            raise ValueError(f"{token!r} is no product token: letters, `_` and `-` (RFC 9309 section 2.2.1)")
        self._links = Links("http://localhost/" if site is None else site, grammar)
        name, file = bytes_of(token), bytes_of(text)
        self._made_of = file, token, None if site is None else self._links.base, grammar, mode
        # A CR, an LF, or both end a line (RFC 9309 section 2.2), as for `splitlines` of bytes.
        if max(map(len, file.splitlines()), default=0) > LINE - 2 or len(file) > INPUT // 2:
            raise ValueError("a line of the file, or the file, is too long")
        # Scheme and authority of a canonical text: those of the site, or without one any authority.
        address = self._links.canonical_bytes("", mode)
        scheme, authority = re.match(rb"([^:]*:)(//[^/?#]*)?", address).groups()
        rest = rb"(?!//)" if authority is None else re.escape(authority) + rb"(?![^/?#])"
        origin = rb"[^:]*://" if site is None else re.escape(scheme) + rest
        self._is_of_site = re.compile(origin).match
        self._rules = written(len(file) + 64, _rules, name, len(name), file, len(file))

    def __repr__(self) -> str:
        text, *more = self._made_of
        return f"<Robots of {len(text)} bytes, {', '.join(map(repr, more))}>"

    def _verdict(self, target: bytes) -> bool | None:
        """What the rules say of a canonical text; None where it is of another site."""
        if not self._is_of_site(target):
            return None
        status = _allows(self._made_of[3], self._rules, len(self._rules), target, len(target), size_t())
        if status == MEMORY:
            raise MemoryError
        return status != DISALLOWED

    def allows(self, link: Text) -> bool | None:
        """Whether the link may be fetched; None where it is of another site than the file.

        >>> Robots("User-agent: *\\nDisallow: /\\n", "examplebot", "http://a/").allows("http://b/") is None
        True

        Raises `Refused` where it is no reference, or too long.
        """
        asked = bytes_of(link)
        if len(asked) > LINE - 2:
            wrong = fault(asked, REFERENCE, self._made_of[3])
            raise Refused(BAD_REFERENCE, wrong, None, None if wrong else "more than 1,048,574 bytes")
        return self._verdict(self._links.canonical_bytes(asked, self._made_of[4]))

    def allows_many(self, links: Iterable[Text]) -> list[bool | None]:
        """For each link, whether it may be fetched; None where it is of another site than the file, no reference, or too long."""
        asked = [one if len(one) <= LINE - 2 else b"%" for one in map(bytes_of, several(links))]
        return [None if target is None else self._verdict(target.encode()) for target in self._links.canonical_many(asked, self._made_of[4])]
