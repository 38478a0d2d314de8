"""python.py one|many|answers|urljoin uri|iri: reads a base and references, a line each, and answers them by calls from Python:
the library's, one a reference or one for all, or those of urllib.parse, which neither validate nor normalize."""
import sys
import urllib.parse


def answers(way, grammar, lines):
    """The answers, in one piece."""
    base, rest = lines.split(b"\n", 1)
    if way == "urljoin":
        join, base = urllib.parse.urljoin, base.decode()
        return "".join([f"ok {join(base, line)}\n" for line in rest.decode().split("\n")[:-1]]).encode()
    import irikit
    links = irikit.Links(base, irikit.IRI if grammar == "iri" else irikit.URI)
    if way == "answers":
        return links.answers(rest)
    references = rest.decode().split("\n")[:-1]
    if way == "many":
        return "".join(["bad\n" if text is None else f"ok {text}\n" for text in links.canonical_many(references)]).encode()
    told = []
    for reference in references:
        try:
            told.append(f"ok {links.canonical(reference)}\n")
        except irikit.Refused:
            told.append("bad\n")
    return "".join(told).encode()


if __name__ == "__main__":
    sys.stdout.buffer.write(answers(sys.argv[1], sys.argv[2], sys.stdin.buffer.read()))
