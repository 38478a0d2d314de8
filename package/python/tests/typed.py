"""Calls by the types of the package; a line with `type: ignore` is one that they refuse."""
import collections

import irikit

links: irikit.Links = irikit.Links(b"http://a/", irikit.IRI)
text: str = links.canonical("b", irikit.BY_SCHEME)
many: list[str | None] = irikit.canonical_many("http://a/", ["b", b"c"], irikit.Grammar.IRI, irikit.Mode.NORMAL)
answers: bytes = irikit.pairs(b"a:\tb", irikit.IRI, irikit.BY_SCHEME)
parts = irikit.split(text)
host: str | None = parts.hostname
port: int | None = parts.port
built: str = irikit.build(scheme="a", host=host, port=port, kind=irikit.ABSOLUTE)
expanded: str = irikit.expand("{v}", collections.ChainMap({"v": ["a", 1]}), w=2)
names: tuple[str, ...] = irikit.Template("{v}").variables
robots = irikit.Robots("", "bot")
allowed: bool | None = robots.allows(text)
found: list[dict[str, str]] = irikit.links("<a>", "http://a/")
output, status = irikit.run("canon uri", b"a:")
decoded: bytes = irikit.decode(output + bytes([status]))
uri: irikit.Uri = irikit.Uri("a:b").join("c").canonical().with_fragment(None)
where: str | None = uri.host
sites: dict[irikit.Uri, int | None] = {one: one.port for one in sorted([uri])}
fault: irikit.Fault | None = irikit.fault(uri, irikit.WITH_SCHEME)
part: slice | None = irikit.faulty_part("a")
try:
    irikit.normalize(uri)
except irikit.Refused as error:
    which: irikit.Status = error.status
    why: irikit.Fault | irikit.TemplateFault | None = error.fault

links.canonical(1)  # type: ignore[arg-type]
irikit.Links("a:", irikit.BY_SCHEME)  # type: ignore[arg-type]
irikit.normalize("a:", 1)  # type: ignore[arg-type]
irikit.build(authority="a")  # type: ignore[call-arg]
irikit.build(path=1)  # type: ignore[arg-type]
irikit.canonical_many("http://a/", 1)  # type: ignore[arg-type]
parts.path = None  # type: ignore[misc, assignment]
uri.path = "c"  # type: ignore[misc]
iri: irikit.Iri = uri  # type: ignore[assignment]
