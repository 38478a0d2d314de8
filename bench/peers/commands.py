"""commands.py NAME: does by another library what a command of irikit does with the same lines on standard input, for bench/commands.

The libraries are Debian's: python3-uritemplate, python3-protego, python3-requests; `robotparser` and `dict` need Python alone."""
import sys


def rest_of(lines, sign):
    return [line[len(sign):] for line in lines if line.startswith(sign)]


def uritemplate(lines):
    """Expands templates; it neither resolves what comes out nor puts it into normal form."""
    from uritemplate import expand
    values = {}
    for line in lines[1:]:
        if line.startswith("s "):
            name, _, value = line[2:].partition(" ")
            values[name] = value
    return [expand(template, values) for template in rest_of(lines, "t ")]


def robotparser(lines):
    from urllib.robotparser import RobotFileParser
    rules = RobotFileParser()
    rules.parse(rest_of(lines, "r "))
    return ["allow" if rules.can_fetch("mybot", link) else "disallow" for link in rest_of(lines, "u ")]


def protego(lines):
    from protego import Protego
    rules = Protego.parse("\n".join(rest_of(lines, "r ")))
    return ["allow" if rules.can_fetch(link, "mybot") else "disallow" for link in rest_of(lines, "u ")]


def requests(lines):
    """Reads fields; the targets aren't resolved, nor are values looked at."""
    from requests.utils import parse_header_links
    return [repr(parse_header_links(line)) for line in lines[1:]]


def dict_of_texts(lines):
    """What is left of `register` where each link has its canonical text already: an entry for each, with its lines."""
    entries = {}
    for number, link in enumerate(rest_of(lines, "a "), 2):
        entries.setdefault(link, []).append(number)
    return [f"{at} {','.join(map(str, numbers))} {link}" for at, (link, numbers) in enumerate(entries.items(), 1)]


WAYS = {"uritemplate": uritemplate, "robotparser": robotparser, "protego": protego, "requests": requests, "dict": dict_of_texts}
try:
    text = sys.stdin.buffer.read().decode()
    sys.stdout.write("".join(answer + "\n" for answer in WAYS[sys.argv[1]](text.split("\n")[:-1])))
except Exception as error:
    # 1, as Python ends, is what irikit says of a faulty line, and is counted.
    print(f"{sys.argv[1]}: {error}", file=sys.stderr)
    sys.exit(2)
