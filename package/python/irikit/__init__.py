"""Canonical texts of links, by a library whose every function is proved (RFC 3986, RFC 3987).

    >>> import irikit
    >>> links = irikit.Links("http://a/b/c/d;p?q")
    >>> links.canonical("../g")
    'http://a/b/g'
    >>> irikit.canonical_many("http://a/b/c/d;p?q", ["../g", "%4", "HTTP://B/%7Eu"])
    ['http://a/b/g', None, 'http://b/~u']

A text is passed as `str`, as bytes in UTF-8, or as a `Uri` or `Iri`. What is refused raises `Refused`, a `ValueError` whose words name the
first fault from the left; what is no text, or a number of another enum than the one that is wanted, is a `TypeError`:

    >>> links.canonical("%4")
    Traceback (most recent call last):
    irikit.Refused: invalid path

`grammar` is `URI` (RFC 3986, ASCII alone) or `IRI` (RFC 3987); `mode` is `NORMAL`, or `BY_SCHEME` for the rules of http, https, ws,
wss and ftp too: the default port goes, and an empty path beside an authority becomes `/`.

No call and no object keeps anything that another one writes, so any number of threads may share any of them.
"""
from ._edits import mask_password, with_fragment, with_host, with_password, without_password
from ._fields import links
from ._forms import canonicalize_to_uri, decode, encode, fault, faulty_part, is_normalized, map_to_uri, normalize, steps
from ._lines import pairs
from ._links import Links, canonical_many, resolve
from ._numbers import (
    ABSOLUTE, ANYWHERE, BY_SCHEME, IN_FRAGMENT, IN_PATH, IN_QUERY, IN_REFERENCE, IN_REG_NAME, IN_SEGMENT, IN_USER, IRI, NORMAL,
    PRESERVING, REFERENCE, RELATIVE, URI, WITH_SCHEME, Fault, Grammar, Kind, Mode, Place, Status, TemplateFault,
)
from ._parts import SplitResult, build, split
from ._refused import Refused
from ._robots import Robots
from ._run import run
from ._templates import Template, expand, variables
from ._uris import Iri, Uri

__all__ = [
    "ABSOLUTE", "ANYWHERE", "BY_SCHEME", "Fault", "Grammar", "IN_FRAGMENT", "IN_PATH", "IN_QUERY", "IN_REFERENCE", "IN_REG_NAME",
    "IN_SEGMENT", "IN_USER", "IRI", "Iri", "Kind", "Links", "Mode", "NORMAL", "PRESERVING", "Place", "REFERENCE", "RELATIVE", "Refused",
    "Robots", "SplitResult", "Status", "Template", "TemplateFault", "URI", "Uri", "WITH_SCHEME", "__version__", "build", "canonical_many",
    "canonicalize_to_uri", "decode", "encode", "expand", "fault", "faulty_part", "is_normalized", "links", "map_to_uri", "mask_password",
    "normalize", "pairs", "resolve", "run", "split", "steps", "variables", "with_fragment", "with_host", "with_password",
    "without_password",
]

# The package has its version from the program in the library, and Python's form of one that isn't released.
__version__ = run("--version", b"")[0].decode().split()[1].replace("~dev", ".dev0")

# So are they named where they are shown, and where they end a program.
for _name in __all__:
    if isinstance(globals().get(_name), type):
        globals()[_name].__module__ = __name__
