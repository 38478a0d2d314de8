"""The program, in memory."""
from __future__ import annotations

from ._library import declared, room, size_t
from ._texts import Text, bytes_of

# The statuses of a run with an answer that isn't `ok`, and of one whose output has no room; and the limits of a line and of the input.
BAD_ANSWER, SHORT = 1, 5
LINE, INPUT = 1_048_576, 1_073_741_824

_run = declared("run", "text text text sizes")

# A run takes four mebibytes and gives them back. glibc returns freed memory to the system where that is more than twice the largest
# piece that was freed before (mallopt(3)); so after a larger piece it keeps them for the next run, which is three times as fast.
bytes(8 << 20)


def run(words: Text, lines: Text) -> tuple[bytes, int]:
    """The output, in UTF-8, and the status of the program `irikit` with these words and this input.

    >>> run("canon uri", "http://a/b\\n../c\\n")
    (b'ok http://a/c\\n', 0)
    """
    words, lines, out_len = bytes_of(words), bytes_of(lines), size_t()
    size = 4 * len(lines) + 4096
    while True:
        out = room(size)
        status = _run(words, len(words), lines, len(lines), out, len(out), out_len)
        if status != SHORT:
            return out[: out_len.value], status
        size *= 4
