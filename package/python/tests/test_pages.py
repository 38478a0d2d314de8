"""The package's own words, its docstrings and its README; and the program in it."""
import doctest
import pathlib
import unittest

import irikit


class Pages(unittest.TestCase):
    def test_docstrings(self):
        runner = doctest.DocTestRunner()
        for test in doctest.DocTestFinder().find(irikit, "irikit", module=False, globs=vars(irikit)):
            runner.run(test)
        self.assertGreater(runner.summarize().attempted, 50)
        self.assertEqual(runner.summarize().failed, 0)

    def test_each_call_has_words(self):
        for name in irikit.__all__:
            if name != "__version__":
                self.assertTrue(getattr(irikit, name).__doc__, name)

    def test_read_me(self):
        result = doctest.testfile(str(pathlib.Path(__file__).parents[1] / "README.md"), module_relative=False)
        self.assertGreater(result.attempted, 20)
        self.assertEqual(result.failed, 0)

    def test_program(self):
        # docs/COMMANDS.md, register.
        lines = b"http://a/\na x/../b\na /%62\na c\nf HTTP://A/b\nd c\nd c\nq\n"
        self.assertEqual(irikit.run("register uri", lines), (b"new 1\nold 1\nnew 2\nat 1\ngone 1\nnone\nbad line\n1 2,3 http://a/b\n", 1))
        self.assertEqual(irikit.run("canon", b""), (b"", 2))
        rows = b"http://a/\n" + b"".join(b"%d\n" % n for n in range(50000))
        self.assertEqual(irikit.run("canon uri", rows), (b"".join(b"ok http://a/%d\n" % n for n in range(50000)), 0))


if __name__ == "__main__":
    unittest.main()
