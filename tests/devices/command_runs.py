"""A run of each command of the program, and how it may end where something fails, for tests/devices/refused and tests/devices/devices."""
import os
import subprocess
import sys

# Each command, its input, and whether it may have written something when an allocation is refused.
RUNS = [
    ("canon uri", "http://a/b\nc\nHTTP://%41/../d\n%4\n", False),
    ("canon iri", "http://a/\u00e9\n%c3%a9\n", False),
    ("canon iri to uri", "http://a/\nros\u00e9\n%4\n", False),
    ("parts iri", "http://a/\nros\u00e9?#\n//u@h:8\n%4\n", False),
    ("canon iri to uri scheme", "HTTP://\u00e9:80\nros\u00e9\n//\u00e9:80\n%4\n", False),
    ("parts uri scheme", "HTTP://a:80\n//u@b:80\n#\n//[::]:8?q\n%4\n", False),
    ("canon uri scheme", "HTTP://a:80\n\nws://b:80?c\n%4\n", False),
    ("register uri scheme", "HTTP://a:80\na \na //a/\nf ftp://a:21\nd http://a\n", True),
    ("robots uri examplebot scheme", "https://a:443\nr user-agent: *\nr disallow: /x\nu x\nu //a:443/y\n", True),
    ("pairs uri", "http://a/b\tc\nhttp://a/b\t%4\nq\nHTTP://%41/x/../y\t../d\na\tb\n", False),
    ("pairs iri scheme", "http://a:80\t\u00e9\nhttp://a:80\t\n", False),
    ("pairs iri to uri", "http://a/b\t\u00e9\nhttp://a/b\t%4\nq\nhttp://\u00e9/\t../d\na\tb\n", False),
    ("pairs iri to uri scheme", "http://\u00e9:80\t\u00e9\nhttp://a:80\t\n", False),
    ("gen uri 100", "", False),
    ("expand uri", "http://a/b\ns v x\nl l a\nl l b\na p k w\nt {v}/{l*}{?p*}\ns v \u00e9\nu l\nt {+v}{#l}\nt {\nq\nt x\n", True),
    ("register uri", "http://a/b\n" + "".join(f"a {n % 40}/../x{n % 30}\n" for n in range(60)) + "d x3\nf x4\na %4\nq\n", True),
    ("robots uri examplebot", "http://a\nr user-agent: *\nr disallow: /x\nr user-agent: examplebot\nr allow: /x*\u00e9$\nu x\nu x\u00e9\nu //b/\nu %4\nq\n", True),
    ("links uri", "http://a/b\n<c>; rel=next; title=\"a\\\"b\", <d>;x\n<\n", False),
    ("links uri lax", "http://a/b\nx, <c>; type=font/woff2;, <%4>, <d;\n<\n<e>;x=\"y\n", False),
    ("links iri lax scheme", "http://a:80/b\nx, <\u00e9>; rel=a/b;=c;*, <//b:80>;t*=d\n", False),
    ("links uri scheme", "http://a:80/b\n<//b:80>; rel=next, <>\n<\n", False),
    ("expand uri scheme", "http://a:80\ns v //b:80\nt {+v}\nt {\nt \n", True),
    ("docs uri scheme", "http://a:80\n{\"template\":\"{+q}\",\"vars\":{\"q\":\"//b:80\"}}\n{\n", True),
    ("docs uri", "http://a/b\n{\"template\":\"x{?q,n,l*}\",\"vars\":{\"q\":\"\u00e9\",\"n\":7,\"l\":[\"a\",\"b\"],\"p\":{\"k\":\"v\"}}}\n{\n", True),
    ("--help", "", False),
    ("--version", "", False),
]
# Lines that have no answer, by the first word of the command.
SILENT = {"expand": (b"s ", b"l ", b"a ", b"u "), "robots": (b"r ",)}


def figures_in(path):
    """What the library that is loaded before the program counted there."""
    try:
        with open(path) as file:
            return [int(figure) for figure in file.read().split()]
    except FileNotFoundError:
        sys.exit("nothing is loaded before PROGRAM, so no fault reaches it: one that is linked statically can't be asked")


class Command:
    """A run of a command over an input: how it ends and what it writes where nothing fails, and what is wrong with another end."""

    def __init__(self, program, words, given, may_write, loaded):
        self.name, self.words, self.given, self.may_write = words, [program, *words.split()], given.encode(), may_write
        self.loaded, self.reads = loaded, not words.startswith(("gen", "--"))
        self.status, self.whole = self.run()

    def run(self, shell=None, **settings):
        """The status and the output; where there are settings, with what is loaded before the program. With words of a shell."""
        told = {**self.loaded, **settings} if settings else {}
        words = ["sh", "-c", shell, *self.words] if shell else self.words
        ran = subprocess.run(words, input=self.given, stdout=subprocess.PIPE, stderr=subprocess.PIPE, timeout=60,
                             env=os.environ | {name: str(value) for name, value in told.items()})
        self.said = ran.stderr
        return ran.returncode, ran.stdout

    def owed(self, read):
        """The answers to the lines that an LF ended in so many bytes."""
        lines = self.given[:read].split(b"\n")[0 if self.name.startswith("pairs") else 1:-1]
        count = sum(not line.startswith(SILENT.get(self.name.split()[0], b"\n")) for line in lines)
        return b"".join(self.whole.splitlines(keepends=True)[:count])

    def as_ever(self, end):
        return None if end == (self.status, self.whole) else f"status {end[0]}, not {self.status}; it wrote {end[1][-60:]!r}"

    def stopped_reading(self, end, read):
        """Of a run that could read so many bytes."""
        if end == (4, self.owed(read)):
            return None
        return f"status {end[0]}, not 4, after {read} bytes; it wrote {end[1][-60:]!r}"

    def stopped_writing(self, end, wrote=None):
        """Of a run that could write so many bytes, where that is known."""
        right = self.whole.startswith(end[1]) and (wrote is None or len(end[1]) == wrote)
        return None if end[0] == 5 and right else f"status {end[0]}, not 5; it wrote {len(end[1])} bytes, at last {end[1][-60:]!r}"

    def without_memory(self, end):
        """Of a run of which some allocation may have been refused."""
        status, output = end
        begins = self.whole.startswith(output) and (output == b"" or output.endswith(b"\n")) and output != self.whole
        if end == (self.status, self.whole) or (status == 6 and begins and (self.may_write or output == b"")):
            return None
        return f"status {status}; it wrote {output[-60:]!r}"
