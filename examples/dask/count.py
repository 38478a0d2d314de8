"""count.py SCHEDULER uri|iri BYTES OUT FILE..: counts the links of many pages by canonical text, on a Dask cluster.

A line of the files is a pair: the address of a page, a tab, and a link that stands on it. A part is about BYTES long. OUT is made, with
  answers/NUMBER  a line for each line of a part, in order: `ok ` and the link's canonical text against its page, `bad ` and the
                  words for its first fault, `base ` and those for the page's, or `bad line` where there is no tab
  counts          a line for each canonical text, in the order of their bytes: the text, a tab, and how many pairs have it
Workers need the files and OUT at the same paths, and the library that ./install builds, where IRIKIT_LIBRARY says.
"""
import io
import os
import pathlib
import shutil
import subprocess
import sys
import tempfile
import uuid
from collections import Counter
from itertools import accumulate
from zlib import adler32

from distributed import Client
from fsspec.utils import read_block

SHARES = 128  # of the answers, by a hash of their bytes; each is counted by itself, and is so small that it stays in the processor's cache


def put(path, text):
    """Puts a file in place whole: a task that is run again puts the same one there again."""
    new = path.with_name(f".{uuid.uuid4().hex}")
    new.write_bytes(text)
    new.replace(path)


def answer_part(number, place, size, grammar, out):
    """Writes the answers to the lines of a part, in order and once more share by share, and gives where each share begins and ends."""
    import irikit
    file, start = place
    with open(file, "rb") as opened:
        answers = irikit.pairs(read_block(opened, start, size, b"\n"), irikit.Grammar[grammar.upper()])
    put(out / f"answers/{number:06}", answers)
    shares = [io.BytesIO() for _ in range(SHARES)]
    for answer in io.BytesIO(answers):
        shares[adler32(answer) % SHARES].write(answer)
    put(out / f"shuffle/{number:06}", b"".join(share.getbuffer() for share in shares))
    return [0, *accumulate(share.tell() for share in shares)]


def count_share(share, bounds, out):
    """Counts the answers of a share over all parts, and writes those that are texts, sorted."""
    counts = Counter()
    for number, (start, end) in enumerate(bounds):
        with open(out / f"shuffle/{number:06}", "rb") as shuffled:
            shuffled.seek(start)
            counts.update(io.BytesIO(shuffled.read(end - start)))
    texts = [answer for answer in sorted(counts) if answer.startswith(b"ok ")]
    put(out / f"shuffle/counts{share}", b"".join(b"%s\t%d\n" % (text[3:-1], counts[text]) for text in texts))


def main(scheduler, grammar, size, out, *files):
    out, size = pathlib.Path(out).resolve(), int(size)
    for folder in ("answers", "shuffle"):
        (out / folder).mkdir(parents=True)
    places = [(path, start) for path in map(os.path.abspath, files) for start in range(0, os.path.getsize(path), size)]
    with Client(scheduler) as client:
        top = pathlib.Path(__file__).resolve().parents[2]
        with tempfile.TemporaryDirectory() as folder:
            client.upload_file(shutil.make_archive(f"{folder}/irikit", "zip", top / "package/python", "irikit"))
        parts = client.map(answer_part, range(len(places)), places, size=size, grammar=grammar, out=out, pure=False)
        ends = client.gather(parts)
        bounds = [[each[share:share + 2] for each in ends] for share in range(SHARES)]
        client.gather(client.map(count_share, range(SHARES), bounds, out=out, pure=False))
    merge = ["sort", "-m", f"--batch-size={SHARES}", "-o", out / "counts", *out.glob("shuffle/counts*")]
    subprocess.run(merge, env={**os.environ, "LC_ALL": "C"}, check=True)
    shutil.rmtree(out / "shuffle")
    for left in out.glob("answers/.*"):  # by workers that were lost
        left.unlink()


if __name__ == "__main__":
    main(*sys.argv[1:]) if len(sys.argv) > 5 and sys.argv[2] in ("uri", "iri") else sys.exit(__doc__)
