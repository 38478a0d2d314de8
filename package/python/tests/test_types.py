"""What is of the wrong type is a TypeError, and never read as something else."""
import array
import mmap
import pathlib
import unittest

import irikit
from irikit import ABSOLUTE, BY_SCHEME, IN_PATH, IRI, NORMAL, REFERENCE, URI, Links, Robots, Status, Uri

LINKS = Links("http://a/b")
# Calls by a text.
TEXTS = [
    Links, LINKS.canonical, LINKS.canonical_bytes, LINKS.resolve, LINKS.target, LINKS.answers, lambda text: LINKS.canonical_many([text]), irikit.pairs,
    lambda text: irikit.canonicalize_to_uri(text, "a"), lambda text: irikit.canonicalize_to_uri("a:", text),
    irikit.fault, irikit.faulty_part, irikit.normalize, irikit.is_normalized, irikit.steps, irikit.map_to_uri, irikit.encode, irikit.decode,
    irikit.mask_password, irikit.without_password, lambda text: irikit.with_password("a", text), irikit.split, irikit.variables,
    lambda text: irikit.with_fragment(text, None), lambda text: irikit.with_fragment("a", text) if text is not None else irikit.split(None),
    lambda text: irikit.with_host(text, "a"), lambda text: irikit.with_host("//a", text), irikit.expand, irikit.Template, irikit.Uri, irikit.Iri,
    Uri("a:").join, Uri("a:").with_host, lambda text: irikit.resolve(text, "a"), lambda text: irikit.resolve("a:", text),
    lambda text: irikit.links(text, "a:"), lambda text: irikit.links("", text), lambda text: Robots(text, "bot"), lambda text: Robots("", text),
    Robots("", "bot").allows, lambda text: Robots("", "bot").allows_many([text]), lambda text: irikit.run(text, b""),
    lambda text: irikit.run("canon uri", text), lambda text: irikit.build(path=text) if text is not None else irikit.split(None),
    lambda text: irikit.build(host=text) if text is not None else irikit.split(None),
]
NO_TEXTS = [
    5, 0, 10**9, 1.5, True, None, ["a"], ("a",), {"a"}, {"a": "b"}, object(), pathlib.Path("a"), array.array("B", b"a"), iter("a"), IRI, LINKS,
    memoryview(array.array("H", [97])), memoryview(array.array("I")), memoryview(b"abcd").cast("B", (2, 2)),
]
GRAMMARS = [
    lambda number: Links("a:", number), lambda number: irikit.canonical_many("a:", [], number), lambda number: irikit.resolve("a:", "", number),
    lambda number: irikit.fault("a:", grammar=number), lambda number: irikit.faulty_part("a:", grammar=number),
    lambda number: irikit.normalize("a:", grammar=number), lambda number: irikit.is_normalized("a:", grammar=number),
    lambda number: irikit.steps("a:", grammar=number), lambda number: irikit.encode("a", grammar=number), lambda number: irikit.split("a", number),
    lambda number: irikit.build(grammar=number), lambda number: irikit.expand("a", grammar=number), lambda number: irikit.Template("a", number),
    lambda number: irikit.mask_password("a", number), lambda number: irikit.without_password("a", number),
    lambda number: irikit.with_password("a", "b", number), lambda number: irikit.with_fragment("a", "b", number),
    lambda number: irikit.with_fragment("a", None, number), lambda number: irikit.with_host("//a", "b", grammar=number),
    lambda number: irikit.links("", "a:", number), lambda number: Robots("", "bot", None, number), lambda number: irikit.pairs(b"", number),
]
MODES = [
    lambda number: irikit.links("", "a:", mode=number), lambda number: Robots("", "bot", mode=number),
    lambda number: LINKS.canonical("a", number), lambda number: LINKS.canonical_bytes(b"a", number), lambda number: LINKS.answers(b"a\n", number),
    lambda number: LINKS.answers(b"", number), lambda number: LINKS.canonical_many(["a"], number), lambda number: irikit.normalize("a:", number),
    lambda number: LINKS.canonical_many([], number), lambda number: irikit.canonical_many("a:", [], mode=number),
    lambda number: irikit.is_normalized("a:", number), lambda number: irikit.steps("a:", number), lambda number: Uri("a:").canonical(number),
    lambda number: irikit.pairs(b"a:\tb\n", mode=number), lambda number: irikit.pairs(b"", mode=number),
    lambda number: irikit.canonicalize_to_uri("a:", "", number),
]
KINDS = [lambda number: irikit.fault("a", number), lambda number: irikit.faulty_part("a", number), lambda number: irikit.build(kind=number)]
PLACES = [lambda number: irikit.encode("a", number)]


class OtherBytes(bytes):
    """Bytes that say another length than they have, and from Python 3.12 on other bytes as a buffer."""

    said = 0

    def __buffer__(self, _):
        return memoryview(b"http://other/")

    def __len__(self):
        return self.said

    def __bytes__(self):
        return self


class LongBytes(OtherBytes):
    said = 1 << 16


class OtherArray(bytearray):
    def __buffer__(self, _):
        return memoryview(b"http://other/")

    def __len__(self):
        return 1 << 16

    def __bytes__(self):
        return LongBytes(b"other")


class OtherStr(str):
    def __len__(self):
        return 1 << 16

    def encode(self, *_):
        return LongBytes(b"other")


class OtherUri(Uri):
    def __bytes__(self):
        return LongBytes(super().__bytes__())


class OtherList(list):
    def __len__(self):
        return 0


class OtherTuple(tuple):
    def __len__(self):
        return 2


class NoLength(dict):
    def __len__(self):
        return 0


class OtherDict(dict):
    def items(self):
        return [("k", "v", "w")]


def outcome(call, text):
    """What a call answers, or what it raises."""
    try:
        return call(text)
    except TypeError:
        return TypeError
    except ValueError as error:
        return type(error), str(error)


class Types(unittest.TestCase):
    def test_other_classes(self):
        for text in ("http://a/b", "bot", "a b", "x{v}", "\ufeff\u00e9", ""):
            coded = text.encode()
            apart = bytes(byte for each in coded for byte in (each, 0))
            others = [OtherBytes(coded), LongBytes(coded), OtherArray(coded), bytearray(coded), memoryview(coded), memoryview(apart)[::2]]
            for at, call in enumerate(TEXTS):
                wanted = outcome(call, coded)
                for other in others:
                    with self.subTest(text=text, call=at, of=type(other).__name__):
                        self.assertEqual(outcome(call, other), wanted)
                with self.subTest(text=text, call=at, of="OtherStr"):
                    self.assertEqual(outcome(call, OtherStr(text)), outcome(call, text))
        for at, call in enumerate(TEXTS):
            with self.subTest(call=at):
                self.assertEqual(outcome(call, OtherUri("http://a/b")), outcome(call, Uri("http://a/b")))

    def test_tokens_and_values_of_other_classes(self):
        file = "user-agent: bot\ndisallow: /\n"
        self.assertIs(Robots(file, OtherStr("bot")).allows("/"), False)
        self.assertEqual(irikit.expand("{v}", v=OtherStr("a")) + irikit.expand(OtherStr("{v}"), {OtherStr("v"): LongBytes(b"b")}), "ab")
        self.assertEqual(irikit.expand("{v}{?v*}", v=OtherList(["a", LongBytes(b"b")])), "a,b?v=a&v=b")
        self.assertEqual(irikit.expand("{v}{?w*}", NoLength(v="a", w=NoLength(k="b"))), "a?k=b")
        for value in (OtherList([("k", "v"), "w"]), OtherList(["w", ("k", "v")])):
            with self.assertRaises(TypeError):
                irikit.expand("{?v*}", v=value)
        for value in ([OtherTuple(("k", "v", "w"))], OtherDict(k="v")):
            with self.assertRaises(ValueError):
                irikit.expand("{?v*}", v=value)

    def test_texts(self):
        for at, call in enumerate(TEXTS):
            for text in NO_TEXTS:
                with self.subTest(call=at, text=text), self.assertRaises(TypeError):
                    call(text)

    def test_numbers(self):
        every = [IRI, NORMAL, BY_SCHEME, REFERENCE, ABSOLUTE, IN_PATH, Status.OK, 0, 1, 2, 100, 201, 257, -1, 2**32 + 100, "uri", "iri", True, None]
        for calls, kind in ((GRAMMARS, irikit.Grammar), (MODES, irikit.Mode), (KINDS, irikit.Kind), (PLACES, irikit.Place)):
            for at, call in enumerate(calls):
                for number in every:
                    if type(number) is not kind:
                        with self.subTest(kind=kind.__name__, call=at, number=number), self.assertRaises(TypeError):
                            call(number)

    def test_no_lists(self):
        for texts in ("abc", b"abc", bytearray(b"abc"), memoryview(b"abc"), array.array("u", "abc"), mmap.mmap(-1, 3), 5, None):
            for call in (LINKS.canonical_many, lambda many: irikit.canonical_many("a:", many), Robots("", "bot").allows_many):
                with self.assertRaises(TypeError):
                    call(texts)

    def test_named_parts(self):
        for other in (IRI, URI, "", None, 0, 1):
            with self.assertRaises(TypeError):
                irikit.with_host("//a", "b", other)
        for call in (lambda: irikit.build(authority="a"), lambda: irikit.build("http"), lambda: irikit.build(port=True), lambda: irikit.build(port=1.5)):
            with self.assertRaises(TypeError):
                call()

    def test_numbers_are_apart(self):
        numbers = [int(one) for kind in (irikit.Grammar, irikit.Mode, irikit.Kind, irikit.Place, irikit.Fault, irikit.TemplateFault, Status) for one in kind]
        self.assertEqual(len(set(numbers)), len(numbers))


if __name__ == "__main__":
    unittest.main()
