"""canon.py uri|iri: reads a base line and reference lines, and answers each reference line as `irikit canon` does. It needs the package
for Python, or package/python in PYTHONPATH and in IRIKIT_LIBRARY the library that ./install builds."""
import sys

from irikit import IRI, URI, Links, Refused


def lines_of(data):
    """The lines: an LF ends one, and one CR before it is no part of it."""
    lines = data.split(b"\n")
    lines = lines if lines[-1] else lines[:-1]
    return [line[:-1] if line.endswith(b"\r") else line for line in lines]


def main(word):
    lines = lines_of(sys.stdin.buffer.read())
    put, status = sys.stdout.buffer.write, 0
    try:
        links = Links(lines[0] if lines else b"", {"uri": URI, "iri": IRI}[word])
    except Refused as error:
        put(b"base %s\n" % str(error).encode())
        return 3
    for line in lines[1:]:
        try:
            put(b"ok %s\n" % links.canonical_bytes(line))
        except Refused as error:
            put(b"bad %s\n" % str(error).encode())
            status = 1
    return status


if __name__ == "__main__":
    sys.exit(main(sys.argv[1]))
