"""Objects in several threads, in a handler, in other processes; copied, compared, shown."""
import concurrent.futures
import copy
import multiprocessing
import pickle
import signal
import sys
import threading
import unittest

import irikit
from irikit import BY_SCHEME, IRI, Iri, Links, Refused, Robots, Template, Uri

LINKS, IRIS = Links("http://a/b"), Links("http://\u00e9/", IRI)
ROBOTS = Robots("User-agent: *\nDisallow: /private\n", "bot", "http://a/")
TEMPLATE, URI_, IRI_ = Template("/s{?q,n*}"), Uri("http://u:p@a/b?c#d"), Iri("http://\u00e9/")
OBJECTS = [LINKS, IRIS, ROBOTS, Robots(b"\xff", "bot", None, IRI), TEMPLATE, URI_, IRI_]
THREADS = 8


def ask(thread, times):
    """What each object answers to questions of one thread, where it isn't what RFC 3986, 6570 and 9309 say."""
    wrong = []
    for n in range(times):
        path = f"/{thread}" * (1 + n % 97) + f"/{n}"
        private = f"/private{path}"
        many = [f"{path}/{i}" for i in range(n % 5)]
        for got, wanted in (
            (LINKS.canonical(path), "http://a" + path), (IRIS.resolve(path), "http://\u00e9" + path),
            (LINKS.answers("\n".join(many)), "".join(f"ok http://a{one}\n" for one in many).encode()),
            (irikit.pairs("\n".join(f"http://{thread}\t{one}" for one in many)), "".join(f"ok http://{thread}{one}\n" for one in many).encode()),
            (LINKS.canonical_many([*many, "%"]), [*(f"http://a{one}" for one in many), None]),
            (TEMPLATE.expand(q=thread, n=[n, path[:9]]), f"/s?q={thread}&n={n}&n={path[:9].replace('/', '%2F')}"),
            (str(URI_.join(path)), "http://u:p@a" + path), (URI_.with_fragment(path).fragment, path),
            (irikit.decode(irikit.encode(path)), path.encode()),
            (ROBOTS.allows_many([private, path]) if n % 50 == 0 else None, [False, True] if n % 50 == 0 else None),
        ):
            if got != wanted:
                wrong.append((got, wanted))
    return wrong


def ask_all(given):
    """What objects that came from another process answer."""
    links, robots, template, uri = given
    return links.canonical("../c"), robots.allows("/private"), template.expand(q=1), str(uri.join("c")), links == LINKS


class Sharing(unittest.TestCase):
    def test_threads(self):
        interval = sys.getswitchinterval()
        sys.setswitchinterval(1e-6)
        try:
            with concurrent.futures.ThreadPoolExecutor(THREADS) as pool:
                wrong = [one for found in pool.map(ask, range(THREADS), [400] * THREADS) for one in found]
        finally:
            sys.setswitchinterval(interval)
        self.assertEqual(wrong[:3], [])

    def test_refusals_in_threads(self):
        words = {"//a@b@c": "invalid host", "%": "invalid path", "?%": "invalid query", "#%": "invalid fragment"}
        wrong = []

        def refuse(reference):
            for _ in range(3000):
                try:
                    LINKS.canonical(reference)
                except Refused as error:
                    if str(error) != words[reference]:
                        wrong.append((reference, str(error)))

        threads = [threading.Thread(target=refuse, args=(reference,)) for reference in words for _ in range(2)]
        for thread in threads:
            thread.start()
        for thread in threads:
            thread.join()
        self.assertEqual(wrong[:3], [])

    def test_handler(self):
        """A handler that calls what it interrupted, in the same thread."""
        handled, wrong = [], []

        def handle(*_):
            handled.append(ask("h", 2))
            if len(handled) < 400:
                signal.setitimer(signal.ITIMER_REAL, 0.0005)

        before = signal.signal(signal.SIGALRM, handle)
        signal.setitimer(signal.ITIMER_REAL, 0.0005)
        try:
            while len(handled) < 400:
                wrong += ask("m", 20)
        finally:
            signal.signal(signal.SIGALRM, signal.SIG_IGN)
            signal.setitimer(signal.ITIMER_REAL, 0)
            signal.signal(signal.SIGALRM, before)
        self.assertEqual((wrong[:3], [one for found in handled for one in found][:3]), ([], []))

    def test_processes(self):
        given = LINKS, ROBOTS, TEMPLATE, URI_
        for method in ("fork", "spawn"):
            with multiprocessing.get_context(method).Pool(2) as pool:
                self.assertEqual(pool.map(ask_all, [given] * 4), [("http://a/c", False, "/s?q=1", "http://u:p@a/c", True)] * 4)

    def test_copied_and_compared(self):
        for one in OBJECTS:
            copies = [copy.copy(one), copy.deepcopy(one), *(pickle.loads(pickle.dumps(one, n)) for n in range(pickle.HIGHEST_PROTOCOL + 1))]
            for other in copies:
                self.assertEqual((other, hash(other), type(other), repr(other)), (one, hash(one), type(one), repr(one)))
        for at, one in enumerate(OBJECTS):
            self.assertEqual([one == other for other in OBJECTS], [at == n for n in range(len(OBJECTS))])
        self.assertEqual(Links(b"http://a/b"), LINKS)
        self.assertNotEqual(Links("http://a/b", IRI), LINKS)
        self.assertNotEqual(Robots("", "bot"), Robots("", "bot", "http://localhost/"))

    def test_shown(self):
        self.assertEqual(repr(LINKS), "Links('http://a/b', Grammar.URI)")
        self.assertEqual(repr(IRIS), "Links('http://\u00e9/', Grammar.IRI)")
        self.assertEqual(repr(TEMPLATE), "Template('/s{?q,n*}', Grammar.URI)")
        self.assertEqual((repr(IRI_), str(IRI_)), ("Iri('http://\u00e9/')", "http://\u00e9/"))
        self.assertEqual(repr(ROBOTS), "<Robots of 33 bytes, 'bot', b'http://a/', Grammar.URI, Mode.NORMAL>")

    def test_unchanging(self):
        for one in OBJECTS:
            for name in ("base", "grammar", "scheme", "anything"):
                with self.assertRaises(AttributeError):
                    setattr(one, name, b"c")

    def test_refusals_and_numbers_cross_processes(self):
        for call in (lambda: irikit.expand("x{y"), lambda: irikit.links("<a> b", "a:"), lambda: LINKS.canonical("%"), lambda: irikit.with_host("a", "b")):
            with self.assertRaises(Refused) as refused:
                call()
            other = pickle.loads(pickle.dumps(refused.exception))
            self.assertEqual((str(other), vars(other)), (str(refused.exception), vars(refused.exception)))
        for number in (IRI, BY_SCHEME, irikit.Fault.INVALID_HOST):
            self.assertIs(pickle.loads(pickle.dumps(number)), number)


if __name__ == "__main__":
    unittest.main()
