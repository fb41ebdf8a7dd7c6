"""The library for C (include/plurals.h), as the other programs are compared with it."""
import ctypes
import os
import shlex
import shutil
import subprocess
from pathlib import Path

TOP = Path(__file__).resolve().parent.parent
BUILD = TOP / "peers" / "build"
ARCHIVE = TOP / "crates/plurals_c/out/libplurals_c.a"
RULES = ("zero", "one", "two", "few", "many")
CATEGORIES = (*RULES, "other")
TEXT_FAULTS = {
    -20: "expected 'AND' condition",
    -21: "expected relation",
    -22: "expected operator",
    -23: "expected operand",
    -24: "expected value",
}


class Missing(Exception):
    """Something that a comparison needs isn't there, or has failed."""


def output(words, **options):
    """Returns what a command prints, or fails."""
    ran = subprocess.run([str(it) for it in words], stdout=subprocess.PIPE, text=True, **options)
    if ran.returncode:
        raise Missing(f"`{Path(words[0]).name}` has failed")
    return ran.stdout


def compiler(variable, name):
    """Returns the words of a compiler's command, as `gcc -m64`."""
    found = shlex.split(os.environ.get(variable, "")) or [name]
    if not shutil.which(found[0]):
        raise Missing(f"there is no compiler {found[0]} on the PATH (Debian: g++)")
    return found


def shared_object():
    """Makes a shared object of the built archives, and returns its path."""
    if not ARCHIVE.is_file():
        raise Missing("the library isn't built: tools/archive proves and builds it, in about a quarter of an hour")
    archive, heap = output([TOP / "tools/archive"]).split("\n")[:2]
    BUILD.mkdir(exist_ok=True)
    path = BUILD / "libplurals.so"
    output([*compiler("CC", "cc"), "-shared", "-Wl,--whole-archive", archive, "-Wl,--no-whole-archive", heap, "-o", path])
    return path


class Library:
    """The exports of include/plurals.h over bytes."""

    def __init__(self, path):
        exports = ctypes.CDLL(str(path))
        block = [ctypes.c_char_p, ctypes.c_size_t]
        self._of_texts = exports.plurals_rules_from_texts
        self._of_texts.restype = ctypes.c_int64
        self._of_texts.argtypes = [*block * 5, ctypes.c_char_p, ctypes.c_size_t]
        self._of_integer = exports.plurals_category_of_integer
        self._of_integer.argtypes = [*block, ctypes.c_uint64]
        self._of_text = exports.plurals_category
        self._of_text.argtypes = [*block, *block]
        self._is_exact = exports.plurals_is_exact
        self._is_exact.argtypes = [*block, *block]

    def rules(self, texts):
        """Returns the block of these texts by category, or the number of the fault of the first that is no rule."""
        words = [word for it in RULES for word in (texts.get(it, "").encode(), len(texts.get(it, "").encode()))]
        out = ctypes.create_string_buffer(65536)
        length = self._of_texts(*words, out, len(out))
        return length if length < 0 else out.raw[:length]

    def category_of_integer(self, block, number):
        return CATEGORIES[self._of_integer(block, len(block), number)]

    def category(self, block, number):
        found = self._of_text(block, len(block), number.encode(), len(number))
        if found < 0:
            raise Missing(f"the library refuses {number} by fault {found}")
        return CATEGORIES[found]

    def is_exact(self, block, number):
        return self._is_exact(block, len(block), number.encode(), len(number)) == 1
