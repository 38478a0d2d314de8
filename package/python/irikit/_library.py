"""The library: where it is, how its calls are declared, and room for what they write."""
from __future__ import annotations

import ctypes
import os
from typing import Any, Callable

SONAME = "libirikit.so.0.2"


def _loaded() -> ctypes.CDLL:
    """The library that IRIKIT_LIBRARY names; otherwise the one beside this file, as the wheel has it; otherwise the system's."""
    beside = os.path.join(os.path.dirname(os.path.abspath(__file__)), SONAME)
    name = os.environ.get("IRIKIT_LIBRARY") or (beside if os.path.exists(beside) else SONAME)
    try:
        library = ctypes.CDLL(name)
    except OSError as error:
        raise ImportError(f"no library irikit ({error}): install {SONAME.replace('.so.', '')}, or name its file in IRIKIT_LIBRARY") from error
    if not hasattr(library, "irikit_version") or library.irikit_version() // 100 != 2:
        raise ImportError(f"{name} is no libirikit of version 0.2")
    return library


_library = _loaded()

size_t = ctypes.c_size_t
# What a call takes: a number of an enum; a text, or a buffer, with its length; an address, with what is counted there; a kind of
# fault; where it writes sizes.
_TYPES: dict[str, list[Any]] = {
    "number": [ctypes.c_uint32], "text": [ctypes.c_char_p, size_t], "many": [ctypes.c_void_p, size_t], "size": [size_t],
    "sizes": [ctypes.POINTER(size_t)],
}
# Types of small buffers are kept, since a type takes longer to make than a buffer.
_ROOMS = [ctypes.c_char * (1 << bits) for bits in range(17)]


def declared(name: str, takes: str) -> Callable[..., int]:
    """A call, by what it takes."""
    call = _library["irikit_" + name]
    call.argtypes, call.restype = [one for word in takes.split() for one in _TYPES[word]], ctypes.c_uint8
    return call


def room(size: int) -> Any:
    """A new buffer of at least so many bytes. It is its call's own, so that no other thread and no handler writes there."""
    return _ROOMS[size.bit_length()]() if size < 1 << 16 else (ctypes.c_char * size)()


def address(data: bytes) -> int:
    """Where bytes are, as long as they are kept."""
    return size_t.from_buffer(ctypes.c_char_p(data)).value


def words(call: Callable[..., int], number: int) -> str:
    """The words for a fault."""
    out, detail = room(64), size_t()
    call(number, out, len(out), detail)
    return str(out[: detail.value], "ascii")


fault_words = declared("fault_words", "size text sizes")
template_fault_words = declared("template_fault_words", "size text sizes")
