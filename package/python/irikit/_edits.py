"""References with something of them changed."""
from __future__ import annotations

from ._numbers import URI, Grammar
from ._texts import Text, of_kind, writing

_mask_password = writing("mask_password", 1)
_remove_password = writing("remove_password", 1)
_replace_password = writing("replace_password", 1, 2)
_remove_fragment = writing("remove_fragment", 1)
_set_fragment = writing("set_fragment", 1, 2)
_replace_host = writing("replace_host", 1, 2)
_replace_reg_name = writing("replace_reg_name", 1, 2)


def mask_password(text: Text, grammar: Grammar = URI) -> str:
    """A reference without its password: what follows the first colon of its userinfo (RFC 3986 section 3.2.1).

    >>> mask_password("http://u:pw@h/")
    'http://u:@h/'

    Raises `Refused` where the text is no reference.
    """
    return _mask_password(of_kind(grammar, Grammar), text).decode()


def without_password(text: Text, grammar: Grammar = URI) -> str:
    """A reference without its password and the colon before it.

    >>> without_password("http://u:pw@h/")
    'http://u@h/'

    Raises `Refused` where the text is no reference.
    """
    return _remove_password(of_kind(grammar, Grammar), text).decode()


def with_password(text: Text, password: Text, grammar: Grammar = URI) -> str:
    """A reference with another text in place of its password, as it stands: `encode` by `IN_USER` makes one that may stand there. A
    reference without a colon in its userinfo stays as it is.

    >>> with_password("http://u:pw@h/", "***")
    'http://u:***@h/'

    Raises `Refused` where the text is no reference, or the password isn't UTF-8.
    """
    return _replace_password(of_kind(grammar, Grammar), text, password).decode()


def with_fragment(text: Text, fragment: Text | None, grammar: Grammar = URI) -> str:
    """A reference with another fragment, or with none where that is None (RFC 3986 section 3.5).

    >>> with_fragment("a?b#c", "d"), with_fragment("a?b#c", None)
    ('a?b#d', 'a?b')

    Raises `Refused` where the text is no reference, or the fragment is none.
    """
    of_kind(grammar, Grammar)
    return (_remove_fragment(grammar, text) if fragment is None else _set_fragment(grammar, text, fragment)).decode()


def with_host(text: Text, host: Text, names_only: bool = False, grammar: Grammar = URI) -> str:
    """A reference with another host (RFC 3986 section 3.2.2), an IP literal in its brackets; with `names_only` in place of a registered
    name alone.

    >>> with_host("http://a:80/", "[::1]")
    'http://[::1]:80/'

    Raises `Refused` where the text is no reference, where the host is none, or where the text has none to replace.
    """
    return (_replace_reg_name if of_kind(names_only, bool) else _replace_host)(of_kind(grammar, Grammar), text, host).decode()
