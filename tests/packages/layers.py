"""The requests of tests/packages/layers by the package for Python, in as many threads as the first argument says, which share every object."""
import datetime
import functools
import sys
import threading

import irikit
from irikit import BY_SCHEME, IRI, NORMAL, PRESERVING, URI, Kind, Place, Refused, Status

GRAMMARS = {"uri": URI, "iri": IRI}
MODES = {"normal": NORMAL, "scheme": BY_SCHEME, "preserving": PRESERVING}
KINDS = dict(zip(["reference", "with-scheme", "absolute", "relative"], Kind))
PLACES = dict(zip(["reg-name", "user", "segment", "path", "query", "fragment", "anywhere", "reference"], Place))
WHOSE = {Status.BAD_TEXT: "text", Status.BAD_BASE: "base", Status.BAD_REFERENCE: "reference", Status.UNKNOWN: "number",
         Status.BAD_VARIABLE: "variable", Status.BAD_PART: "part", Status.NO_HOST: "host"}
PARTS = ["scheme", "userinfo", "host", "port", "path", "query", "fragment"]
# What is no text, by the number after the `!`.
WRONG = [7, 10**9, None, {"a"}, datetime.date(2026, 1, 1), True, 1.5, ["a"], BY_SCHEME, object()]
links = functools.lru_cache(None)(irikit.Links)


def text(word):
    """The text of a word: a `str` where it is one, with a lone surrogate where it has its three bytes."""
    if word[0] == "!":
        return WRONG[int(word[1:])]
    if word == "~":
        return None
    made = b"" if word == "." else bytes.fromhex(word)
    try:
        return made.decode(errors="surrogatepass")
    except UnicodeDecodeError:
        return made


def coded(made):
    made = made if isinstance(made, bytes) else str(made).encode()
    return made.hex() or "."


def fault(texts, option, grammar):
    found = irikit.fault(texts[0], KINDS[option], grammar)
    if found is None:
        return "ok"
    data = texts[0] if isinstance(texts[0], bytes) else texts[0].encode(errors="surrogatepass")
    part = irikit.faulty_part(data, KINDS[option], grammar)
    return f"no text {coded(str(found))}" + (f" {part.start} {part.stop - part.start}" if part else "")


def split(texts, option, grammar):
    found = irikit.split(texts[0], grammar)
    parts = [found.scheme, found.netloc, found.path, found.query, found.fragment, found.userinfo, None, None]
    if found.netloc is not None:
        # Host and port as they stand there: hostname is in small letters, and port a number.
        rest = found.netloc[len(found.userinfo) + 1 if found.userinfo is not None else 0:]
        end = rest.rfind(":") if rest.rfind(":") > rest.rfind("]") else -1
        parts[6:] = [rest[:end], rest[end + 1:]] if end >= 0 else [rest, None]
    return " ".join(["ok"] + ["~" if part is None else coded(part) for part in parts])


def variable(kind, texts):
    return {"s": lambda: texts[0], "l": lambda: texts, "p": lambda: dict(zip(texts[::2], texts[1::2]))}[kind]()


CALLS = {
    "canonical": lambda t, o, g: links(t[0], g).canonical(t[1], MODES[o]),
    "resolve": lambda t, o, g: links(t[0], g).resolve(t[1]),
    "target": lambda t, o, g: links(t[0], g).target(t[1]),
    "normalize": lambda t, o, g: irikit.normalize(t[0], MODES[o], g),
    "steps": lambda t, o, g: "".join(step + "\n" for step in irikit.steps(t[0], MODES[o], g)),
    "uri": lambda t, o, g: irikit.canonicalize_to_uri(t[0], t[1], MODES[o]),
    "map": lambda t, o, g: irikit.map_to_uri(t[0]), "encode": lambda t, o, g: irikit.encode(t[0], PLACES[o], g),
    "decode": lambda t, o, g: irikit.decode(t[0]), "mask": lambda t, o, g: irikit.mask_password(t[0], g),
    "remove": lambda t, o, g: irikit.without_password(t[0], g), "password": lambda t, o, g: irikit.with_password(t[0], t[1], g),
    "fragment": lambda t, o, g: irikit.with_fragment(t[0], t[1], g), "host": lambda t, o, g: irikit.with_host(t[0], t[1], False, g),
    "name": lambda t, o, g: irikit.with_host(t[0], t[1], True, g),
    "build": lambda t, o, g: irikit.build(**{name: part for name, part in zip(PARTS, t) if part is not None}, kind=KINDS[o], grammar=g),
    "expand": lambda t, o, g: irikit.expand(t[0], {"v": variable(o, t[1:])}, grammar=g),
    "pairs": lambda t, o, g: irikit.pairs(t[0], g, MODES[o]),
    "lines": lambda t, o, g: links(t[0], g).answers(t[1], MODES[o]),
}


def answer(line):
    call, grammar, option, *words = line.split()
    try:
        texts, grammar = [text(word) for word in words], GRAMMARS[grammar]
        if call in ("fault", "split"):
            return globals()[call](texts, option, grammar)
        if call == "normal":
            return "ok yes" if irikit.is_normalized(texts[0], MODES[option], grammar) else "ok no"
        if call == "many":
            many = links(texts[0], grammar).canonical_many(texts[1:], MODES[option])
            return " ".join(["ok", *["~" if one is None else coded(one) for one in many]])
        if call == "names":
            return " ".join(["ok", *map(coded, irikit.variables(texts[0]))])
        return "ok " + coded(CALLS[call](texts, option, grammar))
    except Refused as refused:
        whose = WHOSE[refused.status]
        if whose == "base" and words[1][0] == "!":
            return "type"  # `Links` judges its base before there is a reference.
        if call in ("expand", "names"):
            words = [coded(str(refused.fault))] * (refused.fault is not None)
            return " ".join(["no", "template" if whose == "text" else whose, str(refused.place or 0), *words])
        return " ".join(["no", whose, *[coded(str(refused.fault))] * (refused.fault is not None)])
    except TypeError:
        return "type"


def main(threads):
    lines = sys.stdin.read().split("\n")[:-1]
    answers = [""] * len(lines)

    def work(first):
        for at in range(first, len(lines), threads):
            answers[at] = answer(lines[at])

    sys.setswitchinterval(1e-5)
    workers = [threading.Thread(target=work, args=(first,)) for first in range(threads)]
    for worker in workers:
        worker.start()
    for worker in workers:
        worker.join()
    sys.stdout.write("".join(one + "\n" for one in answers))


main(int(sys.argv[1]))
