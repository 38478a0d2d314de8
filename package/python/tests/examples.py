"""The repository's examples, which are beside the tests' folder where the package is installed and tested apart from it."""
import pathlib

_here = pathlib.Path(__file__).resolve()
_places = [_here.parents[1] / "examples", _here.parents[3] / "examples"] if len(_here.parents) > 3 else [_here.parents[1] / "examples"]
EXAMPLES = next(place for place in _places if place.is_dir())


def rows(name):
    """The rows of a file, as lists of their fields."""
    return [line.split("\t") for line in (EXAMPLES / name).read_text("utf-8").split("\n")[:-1]]


# The variables of RFC 6570 section 3.2.
VARIABLES = dict(
    count=["one", "two", "three"], dom=["example", "com"], list=["red", "green", "blue"], dub="me/too", hello="Hello World!",
    keys={"semi": ";", "dot": ".", "comma": ","}, half="50%", var="value", who="fred", base="http://example.com/home/",
    path="/foo/bar", v="6", x="1024", y="768", empty="", empty_keys={}, undef=None,
)
