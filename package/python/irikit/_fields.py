"""The values of Link header fields (RFC 8288)."""
from __future__ import annotations

import re

from ._links import Links
from ._numbers import BAD_TEXT, BY_SCHEME, NORMAL, URI, Grammar, Mode
from ._refused import Refused
from ._run import BAD_ANSWER, LINE, run
from ._texts import Text, bytes_of

# A link as `irikit links` writes it: its target, and its parameters, each with a value in quotes or with none.
_LINK = re.compile(r'<([^>]*)>((?:; [^=;,]+(?:="(?:[^"\\]|\\.)*")?)*)(?:, |$)', re.S)
_PARAMETER = re.compile(r'; ([^=;,]+)(?:="((?:[^"\\]|\\.)*)")?', re.S)


def links(field: Text, base: Text, grammar: Grammar = URI, mode: Mode = NORMAL) -> list[dict[str, str]]:
    """The links of a Link header field, as `requests.utils.parse_header_links` gives them: a dict for each, with its target as `url`
    and its parameters by their names in lower case. The target is the canonical text against the base, the address of what was
    fetched. Of a parameter that comes twice the first counts, one without a value has the empty text, and one named url is left out.

    >>> links('<?page=3>;REL=next, </terms>; rel="license"; title="a, b"', "http://a/items?page=2")
    [{'url': 'http://a/items?page=3', 'rel': 'next'}, {'url': 'http://a/terms', 'rel': 'license', 'title': 'a, b'}]

    >>> links("<a>; url=b; rel=c", "http://a/")
    [{'url': 'http://a/a', 'rel': 'c'}]

    >>> links("<http://a:80>", "http://a/", mode=BY_SCHEME)
    [{'url': 'http://a/'}]

    Raises `Refused` where the base is no URI without a fragment, and where the field has a fault, whose `place` is its place in bytes.

    >>> links("<a>; rel=", "http://a/")
    Traceback (most recent call last):
    irikit.Refused: parameter value
    """
    against, value = Links(base, grammar), bytes_of(field)
    page = against.base
    # The mode is looked at.
    against.canonical_bytes("", mode)
    end = re.search(rb"[\r\n]", value)
    if end:
        raise Refused(BAD_TEXT, None, end.start(), "more than one line")
    for text in (page, value):
        if len(text) > LINE:
            raise Refused(BAD_TEXT, None, LINE, "more than 1,048,576 bytes")
    words = f"links {grammar.name.lower()}" + " scheme" * (mode is BY_SCHEME)
    output, status = run(words, page + b"\n" + value + b"\n")
    if status > BAD_ANSWER:
        raise MemoryError
    answer = output.decode()[:-1]
    if not answer.startswith("ok"):
        fault, _, place = answer[len("bad "):].rpartition(" at ")
        raise Refused(BAD_TEXT, None, int(place), fault)
    found = []
    for target, parameters in _LINK.findall(answer[len("ok "):]):
        link = {"url": target}
        for name, quoted in _PARAMETER.findall(parameters):
            link.setdefault(name, re.sub(r"\\(.)", r"\1", quoted, flags=re.S))
        found.append(link)
    return found
