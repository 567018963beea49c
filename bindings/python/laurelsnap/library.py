"""The library's functions, as include/laurelsnap.h declares them, and the lists that they are lent.

The shared library is made from the static one, libsupervisor.a, which `tools/build supervisor` proves and writes. Both stand in the folder that
LAURELSNAP_LIB names, or in target/staticlib of the repository that this file is a part of.
"""

import ctypes
import mmap
import os
import subprocess
import tempfile
import threading
from pathlib import Path


class NoLibrary(Exception):
    """The shared library is missing and cannot be made."""


def struct(name, *fields):
    return type(name, (ctypes.Structure,), {"_fields_": [(field, ctypes.c_uint64) for field in fields]})


Answer = struct("Answer", "number", "first", "second")
Found = struct("Found", "number", "value", "utility", "ceiling", "cost", "bound", "minutes", "units", "unused", "nodes", "entries", "pairs",
               "steps")
Place = struct("Place", "number", "value", "reached", "cost", "steps")
Listed = struct("Listed", "number", "value", "utility", "cost", "bound", "minutes", "units", "unused", "states", "steps")

BYTES, LIST, SIZE = ctypes.c_char_p, ctypes.c_void_p, ctypes.c_size_t
FUNCTIONS = {
    "laurelsnap_check": (Answer, [BYTES, SIZE]),
    "laurelsnap_write": (Answer, [BYTES, SIZE, LIST, SIZE]),
    "laurelsnap_walk": (Answer, [BYTES, SIZE, BYTES, SIZE]),
    "laurelsnap_search": (Found, [BYTES, SIZE] + [LIST, SIZE] * 14),
    "laurelsnap_question": (Place, [BYTES, SIZE, BYTES, SIZE] + [LIST, SIZE] * 7 + [SIZE, SIZE]),
    "laurelsnap_states": (Listed, [BYTES, SIZE] + [LIST, SIZE] * 6),
}

_lock = threading.Lock()
_loaded = None


def root():
    """The repository that this file is a part of, or None."""
    return next((folder for folder in Path(__file__).resolve().parents if (folder / "include" / "laurelsnap.h").exists()), None)


def folder():
    """Where the library stands."""
    given = os.environ.get("LAURELSNAP_LIB")
    if not given and not root():
        raise NoLibrary("LAURELSNAP_LIB does not name the folder that has liblaurelsnap.so or libsupervisor.a")
    return Path(given) if given else root() / "target" / "staticlib"


def shared():
    """The shared library's path, made anew where the static one is newer."""
    static, made = folder() / "libsupervisor.a", folder() / "liblaurelsnap.so"
    if not static.exists():
        if made.exists():
            return made
        raise NoLibrary(f"{static} is missing; `tools/build supervisor` proves and writes it, which takes minutes")
    if made.exists() and made.stat().st_mtime_ns >= static.stat().st_mtime_ns:
        return made
    if not os.access(folder(), os.W_OK):
        made = Path(tempfile.mkdtemp(prefix="laurelsnap-")) / made.name
    link(static, made)
    return made


def link(static, made):
    """Makes the shared library of the static one. It gets its name at the end, so that two makers do not meet."""
    part = made.with_name(f"{made.name}.{os.getpid()}")
    command = [os.environ.get("CC", "cc"), "-shared", "-o", str(part), "-Wl,--whole-archive", str(static), "-Wl,--no-whole-archive"]
    try:
        done = subprocess.run(command, capture_output=True, text=True, check=False)
    except OSError as error:
        raise NoLibrary(f"{made} cannot be made: {command[0]}: {error.strerror}") from None
    if done.returncode:
        raise NoLibrary(f"{made} cannot be made: {done.stderr.strip() or command[0]}")
    os.replace(part, made)


def load():
    """The shared library, loaded once."""
    global _loaded
    with _lock:
        if _loaded is None:
            path = shared()
            try:
                library = ctypes.CDLL(str(path))
                for name, (result, arguments) in FUNCTIONS.items():
                    function = getattr(library, name)
                    function.restype, function.argtypes = result, arguments
            except (OSError, AttributeError) as error:
                raise NoLibrary(f"{path} is not this library: {error}") from None
            _loaded = library
        return _loaded


class Lists:
    """Lists of numbers in one block of memory, whose pages are taken when they are first written to."""

    KINDS = {2: ctypes.c_uint16, 4: ctypes.c_uint32, 8: ctypes.c_uint64}

    def __init__(self, lists):
        """`lists` has a name, the bytes of an entry and a length for each list; wide entries come first."""
        self._block = mmap.mmap(-1, sum(width * length for _, width, length in lists) + 8)
        at = 0
        for name, width, length in lists:
            setattr(self, name, (self.KINDS[width] * length).from_buffer(self._block, at))
            at += width * length

    def given(self, names):
        """Address and length of each of these lists."""
        return [part for name in names for part in (getattr(self, name), len(getattr(self, name)))]
