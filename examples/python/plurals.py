"""The plural category of a number, by CLDR's plural rules, over the installed library of Fonuresse.

    >>> import plurals
    >>> rules = plurals.Rules.of_locale("ru")
    >>> [str(rules.category(number)) for number in (1, 2, 5, 1.5, "1.0", Decimal("21"))]
    ['one', 'few', 'many', 'other', 'other', 'one']

What decides is proved, in the library; this file isn't. The library is the file that PLURALS_LIBRARY names, else the one beside this
file, as in a wheel, else the one of the folder that this file is installed in, else the system's. Calls may run in any number of threads.
"""

from __future__ import annotations

import ctypes
import ctypes.util
import os
from decimal import Decimal
from enum import Enum
from pathlib import Path
from typing import Any, Iterable, Optional, Union

__all__ = ["Catalog", "Category", "CategoryTable", "Elements", "Fault", "Number", "PackedPattern", "Ranges", "Rules", "Written", "find_locale", "format_pattern", "is_read_whole", "text_of", "version"]

Number = Union[int, float, Decimal, str]
_HERE = Path(__file__).resolve()
# The number of digits beside the point above which the library refuses a number.
_MOST_DIGITS = 32767
# What a table of categories returns of a number that the rules have to be asked for.
_ASK_RULES = 6
# The fault of a locale that a document doesn't have, and the parts in which it looks for one.
_LOCALE = -75
_PARTS = ("cardinal", "ordinal", "ranges")


class Category(str, Enum):
    """A plural category. It equals its name: Category.ONE == "one"."""

    ZERO = "zero"
    ONE = "one"
    TWO = "two"
    FEW = "few"
    MANY = "many"
    OTHER = "other"

    def __str__(self) -> str:
        return self.value


class Fault(ValueError):
    """Why a call has no result: number is one of plurals_fault in plurals.h. The text of -75 names the locale."""

    def __init__(self, number: int, locale: Optional[str] = None) -> None:
        found = _library.plurals_fault_text(number)
        text = found.decode() if found else f"unknown fault {number}"
        super().__init__(text if locale is None else f"{text} {locale!r}")
        self.number = number


def _found() -> str:
    """Returns the path of the library."""
    given = os.environ.get("PLURALS_LIBRARY")
    if given:
        return given
    beside = _HERE.parent / "libplurals.so.0"
    if beside.is_file():
        return str(beside)
    # This file is share/plurals/examples/python/plurals.py below the folder that the library was installed to.
    if len(_HERE.parents) > 4:
        for path in sorted([*_HERE.parents[4].glob("lib/libplurals.so.0"), *_HERE.parents[4].glob("lib/*/libplurals.so.0")]):
            return str(path)
    return ctypes.util.find_library("plurals") or "libplurals.so.0"


class _Argument(ctypes.Structure):
    _fields_ = [
        ("name", ctypes.c_char_p),
        ("name_len", ctypes.c_size_t),
        ("value", ctypes.c_char_p),
        ("value_len", ctypes.c_size_t),
        ("kind", ctypes.c_uint32),
    ]


def _opened() -> ctypes.CDLL:
    library = ctypes.CDLL(_found())
    given = [ctypes.c_char_p, ctypes.c_size_t]
    forms: dict[str, tuple[Any, list[Any]]] = {
        "plurals_rules_from_document": (ctypes.c_int64, [*given, *given, ctypes.c_uint8, *given]),
        "plurals_rules_from_texts": (ctypes.c_int64, [*given * 5, *given]),
        "plurals_find_locale": (ctypes.c_int64, [*given, *given, ctypes.c_uint8, *given]),
        "plurals_ranges_from_document": (ctypes.c_int64, [*given, *given, *given]),
        "plurals_categories": (ctypes.c_int32, [*given]),
        "plurals_category_of_integer": (ctypes.c_int32, [*given, ctypes.c_uint64]),
        "plurals_categories_of_integers": (ctypes.c_int64, [*given, ctypes.POINTER(ctypes.c_uint64), ctypes.c_size_t, *given]),
        "plurals_table_of_rules": (ctypes.c_int64, [*given, *given]),
        "plurals_category_by_table": (ctypes.c_int32, [*given, ctypes.c_uint64]),
        "plurals_text_category_by_table": (ctypes.c_int32, [*given, *given]),
        "plurals_category_of_operands": (
            ctypes.c_int32,
            [*given, ctypes.c_uint64, ctypes.c_size_t, ctypes.c_size_t, ctypes.c_uint64, ctypes.c_uint64, ctypes.c_size_t],
        ),
        "plurals_category": (ctypes.c_int32, [*given, *given]),
        "plurals_is_exact": (ctypes.c_int32, [*given, *given]),
        "plurals_sure_category": (ctypes.c_int32, [*given, *given]),
        "plurals_is_read_whole": (ctypes.c_int32, [*given]),
        "plurals_elements_from_json": (ctypes.c_int64, [*given, *given]),
        "plurals_elements_from_texts": (ctypes.c_int64, [*given * 8, *given]),
        "plurals_element": (ctypes.c_int64, [*given * 3, *given]),
        "plurals_message": (ctypes.c_int64, [*given * 3, *given]),
        "plurals_pattern_format": (ctypes.c_int64, [*given * 3, ctypes.POINTER(_Argument), ctypes.c_size_t, *given]),
        "plurals_pattern_pack": (ctypes.c_int64, [*given, *given]),
        "plurals_pattern_check": (ctypes.c_int32, [*given]),
        "plurals_packed_format": (ctypes.c_int64, [*given * 3, ctypes.POINTER(_Argument), ctypes.c_size_t, *given]),
        "plurals_catalog_pack": (ctypes.c_int64, [*given, *given, *given]),
        "plurals_catalog_check": (ctypes.c_int32, [*given]),
        "plurals_catalog_say": (ctypes.c_int64, [*given * 4, ctypes.POINTER(_Argument), ctypes.c_size_t, *given]),
        "plurals_category_name": (ctypes.c_char_p, [ctypes.c_int32]),
        "plurals_fault_text": (ctypes.c_char_p, [ctypes.c_int64]),
        "plurals_version": (ctypes.c_char_p, []),
    }
    for name, (result, words) in forms.items():
        export = getattr(library, name)
        export.restype, export.argtypes = result, words
    return library


_library = _opened()


def version() -> str:
    """Returns the version of the library."""
    return str(_library.plurals_version().decode())


def text_of(number: Number) -> str:
    """Returns the text that a number is asked by.

    A text is itself. An integer of any size has its digits. A float has its shortest text without exponent, and without a fraction of
    zeros: 1.0 is 1, and 1e22 is 1 and 22 zeros; a text or a Decimal keeps the zeros that are shown. A Decimal has all its digits, also
    its zeros, without exponent.
    """
    if isinstance(number, str):
        return number
    if isinstance(number, bool) or not isinstance(number, (int, float, Decimal)):
        raise TypeError(f"a number is an int, a float, a Decimal or a str, not {type(number).__name__}")
    exact = Decimal(repr(number)) if isinstance(number, float) else Decimal(number)
    if not exact.is_finite():
        raise Fault(-10)
    exponent = exact.as_tuple().exponent
    assert isinstance(exponent, int)
    if exact.adjusted() >= _MOST_DIGITS or -exponent > _MOST_DIGITS:
        raise Fault(-11)
    text = format(exact, "f")
    return text.rstrip("0").rstrip(".") if isinstance(number, float) and "." in text else text


def _bytes(text: str) -> bytes:
    # A lone surrogate becomes bytes that aren't UTF-8, so the library refuses it.
    return text.encode("utf-8", "surrogatepass")


def _words(texts: tuple[bytes, ...]) -> list[Any]:
    return [word for text in texts for word in (text, len(text))]


def _checked(result: int) -> int:
    if result == -1:
        raise MemoryError
    if result < 0:
        raise Fault(result)
    return result


def _written(export: Any, *words: Any, room: int = 256) -> bytes:
    """Returns the bytes that an export writes. It is called again if they are more than there is room for."""
    while True:
        out = ctypes.create_string_buffer(room)
        length = _checked(export(*words, out, room))
        if length <= room:
            return out.raw[:length]
        room = length


def is_read_whole(text: str) -> bool:
    """Returns whether a text is a rule from its first byte to its last: of other texts a part may be read."""
    return _checked(_library.plurals_is_read_whole(*_words((_bytes(text),)))) == 1


def _absolute(number: int) -> int:
    """Returns the absolute value of an integer, of which a category may be asked without a text if it is below 2**64."""
    if isinstance(number, bool) or not isinstance(number, int):
        raise TypeError(f"an integer is an int, not {type(number).__name__}")
    return abs(number)


def _document(given: Optional[Union[str, bytes]]) -> bytes:
    """Returns the bytes of a document, or of the installed one."""
    if given is None:
        # It is beside this file in a wheel, else share/plurals/cldr.json, above this file where it was installed, or below the folder of
        # the library.
        places = [_HERE.parent / "cldr.json", _HERE.parents[2] / "cldr.json"]
        library = Path(_found())
        if library.is_absolute():
            places += [folder / "share/plurals/cldr.json" for folder in library.parents]
        return next((place for place in places if place.is_file()), places[0]).read_bytes()
    return given if isinstance(given, bytes) else _bytes(given)


def find_locale(locale: str, part: str = "cardinal", document: Optional[Union[str, bytes]] = None) -> str:
    """Returns the key by which a document has a locale in a part, "cardinal", "ordinal" or "ranges": the first of the locale's chain.

    Of a language that the document doesn't have it is root, if the document has that.

    >>> [find_locale(locale) for locale in ("ru_RU", "sr-Latn-RS", "pt_AO", "xx")]
    ['ru', 'sr', 'pt-PT', 'root']
    """
    return _key(_document(document), locale, part)


def _key(document: bytes, locale: str, part: str) -> str:
    if part not in _PARTS:
        raise ValueError(f"a part is one of {', '.join(_PARTS)}, not {part}")
    try:
        return _written(_library.plurals_find_locale, *_words((document, _bytes(locale))), _PARTS.index(part)).decode()
    except Fault as fault:
        if fault.number != _LOCALE:
            raise
        raise Fault(_LOCALE, locale) from None


def _is_known(document: bytes, locale: str) -> bool:
    """Returns whether a document has another key than root for a locale, or root was asked for."""
    if locale.replace("_", "-").split("-")[0].lower() in ("root", "und"):
        return True
    for part in ("cardinal", "ordinal"):
        try:
            if _key(document, locale, part).lower() != "root":
                return True
        except Fault as fault:
            if fault.number != _LOCALE:
                raise
    return False


def _read(export: Any, document: bytes, locale: str, part: str, *words: Any) -> bytes:
    """Returns what an export writes for a locale, else for the key of its chain, of which root is only for a language that is known."""
    try:
        return _written(export, *_words((document, _bytes(locale))), *words)
    except Fault as fault:
        if fault.number != _LOCALE:
            raise
    key = _key(document, locale, part)
    if key.lower() == "root" and not _is_known(document, locale):
        raise Fault(_LOCALE, locale)
    return _written(export, *_words((document, _bytes(key))), *words)


class Rules:
    """The rules of a language, which category a number has. Their bytes are the block of docs/FORMATS.md."""

    __slots__ = ("block",)
    block: bytes

    def __init__(self, zero: str = "", one: str = "", two: str = "", few: str = "", many: str = "") -> None:
        """Reads the texts of the categories, as CLDR has them. A category without a text has no rule."""
        texts = tuple(map(_bytes, (zero, one, two, few, many)))
        self.block = _written(_library.plurals_rules_from_texts, *_words(texts))

    @classmethod
    def of_locale(cls, locale: str, ordinal: bool = False, document: Optional[Union[str, bytes]] = None) -> Rules:
        """Reads a locale's rules of a document (docs/JSON.md), which is the installed one of CLDR 48 unless another is given.

        They are those of the key that find_locale returns: of ru for ru_RU. The rules of root are for a language that the document has
        for the other type of numbers, and for root; any other language is the fault -75, whose text names the locale.
        """
        rules = cls.__new__(cls)
        rules.block = _read(_library.plurals_rules_from_document, _document(document), locale, _PARTS[ordinal], int(ordinal))
        return rules

    def categories(self) -> list[Category]:
        """Returns the categories that a number may have, from zero to other."""
        bits = _checked(_library.plurals_categories(self.block, len(self.block)))
        return [category for place, category in enumerate(Category) if bits >> place & 1]

    def category(self, number: Number) -> Category:
        """Returns the category of a number. 1 and "1.0" are two numbers."""
        if type(number) is int and -(2**64) < number < 2**64:
            found = _library.plurals_category_of_integer(self.block, len(self.block), abs(number))
        else:
            found = _library.plurals_category(*_words((self.block, _bytes(text_of(number)))))
        return Category(_library.plurals_category_name(_checked(found)).decode())

    def categories_of_integers(self, numbers: Iterable[int]) -> list[Category]:
        """Returns the category of each integer, in their order, faster than one by one. Each is above -2**64 and below 2**64."""
        absolute = [_absolute(number) for number in numbers]
        if any(number >= 2**64 for number in absolute):
            raise OverflowError("each integer is above -2**64 and below 2**64")
        words = [*_words((self.block,)), (ctypes.c_uint64 * len(absolute))(*absolute), len(absolute)]
        found = _written(_library.plurals_categories_of_integers, *words, room=len(absolute))
        categories = list(Category)
        return [categories[number] for number in found]

    def category_of_operands(self, i: int, v: int = 0, w: int = 0, f: int = 0, t: int = 0, c: int = 0) -> Category:
        """Returns the category of six operands, for callers that format numbers themselves: those of 1.50 are i=1, v=2, w=1, f=50, t=5.

        Any six from 0 to 2**64 - 1 are allowed, also those of no number (docs/NUMBERS.md).
        """
        operands = (i, v, w, f, t, c)
        if not all(0 <= operand < 2**64 for operand in operands):
            raise OverflowError("an operand is from 0 to 2**64 - 1")
        found = _library.plurals_category_of_operands(self.block, len(self.block), *operands)
        return Category(_library.plurals_category_name(_checked(found)).decode())

    def sure_category(self, number: Number) -> Category:
        """Returns the category of a number, but none that may be another one for all its digits: that is the fault -12."""
        found = _library.plurals_sure_category(*_words((self.block, _bytes(text_of(number)))))
        return Category(_library.plurals_category_name(_checked(found)).decode())

    def is_exact(self, number: Number) -> bool:
        """Returns whether the category is that of all digits of the number, however many it has."""
        return _checked(_library.plurals_is_exact(*_words((self.block, _bytes(text_of(number)))))) == 1


class CategoryTable:
    """A table of the categories of integers under some rules, 236 bytes (docs/FORMATS.md): asking takes one step, whatever the language.

    >>> rules = Rules.of_locale("fr")
    >>> table = CategoryTable(rules)
    >>> str(table.category(1)), str(table.category(1000001)), table.category(1000000)
    ('one', 'other', None)
    >>> str(table.category(1000000) or rules.category(1000000))
    'many'
    """

    __slots__ = ("table",)
    table: bytes

    def __init__(self, rules: Rules) -> None:
        """Makes the table of some rules, which takes as long as some 200 categories."""
        self.table = _written(_library.plurals_table_of_rules, *_words((rules.block,)))

    @classmethod
    def of_bytes(cls, table: bytes) -> CategoryTable:
        """Takes the bytes of a table, as table has them. What they hold isn't checked; other than 236 of them are the fault -80."""
        _checked(_library.plurals_category_by_table(table, len(table), 0))
        found = cls.__new__(cls)
        found.table = bytes(table)
        return found

    def category_of_text(self, text: str) -> Optional[Category]:
        """Returns the category of the whole number that a text writes in digits, or None as below, and of any other text."""
        found = _checked(_library.plurals_text_category_by_table(*_words((self.table, _bytes(text)))))
        return None if found == _ASK_RULES else Category(_library.plurals_category_name(found).decode())

    def category(self, number: int) -> Optional[Category]:
        """Returns the category of an integer, or None where the rules have to be asked, which is nowhere below 128."""
        absolute = _absolute(number)
        if absolute >= 2**64:
            return None
        found = _checked(_library.plurals_category_by_table(self.table, len(self.table), absolute))
        return None if found == _ASK_RULES else Category(_library.plurals_category_name(found).decode())


class Ranges:
    """The categories of ranges of numbers, as 1 to 3, that a document has for a locale."""

    __slots__ = ("table",)
    table: bytes

    def __init__(self, locale: str, document: Optional[Union[str, bytes]] = None) -> None:
        """Reads the ranges of a locale, by its key as Rules.of_locale does."""
        self.table = _read(_library.plurals_ranges_from_document, _document(document), locale, "ranges")

    def category(self, start: Category, end: Category) -> Category:
        """Returns the category of a range, by those of its start and its end."""
        places = {category: place for place, category in enumerate(Category)}
        return list(Category)[self.table[6 * places[start] + places[end]]]


class Elements:
    """The texts of a message by category."""

    __slots__ = ("block",)
    block: bytes

    def __init__(self, json: str) -> None:
        """Reads a JSON text, as {"other":[0,"{} items"],"one":[0,"{} item"]} (docs/JSON.md)."""
        self.block = _written(_library.plurals_elements_from_json, *_words((_bytes(json),)))

    @classmethod
    def of_texts(
        cls, other: str, zero: str = "", one: str = "", two: str = "", few: str = "", many: str = "", explicit_zero: str = "", explicit_one: str = ""
    ) -> Elements:
        """Takes a text for each category, and those of exactly 0 and exactly 1. But for other an empty text isn't there."""
        elements = cls.__new__(cls)
        texts = tuple(map(_bytes, (other, zero, one, two, few, many, explicit_zero, explicit_one)))
        elements.block = _written(_library.plurals_elements_from_texts, *_words(texts))
        return elements

    def text(self, rules: Rules, number: Number) -> str:
        """Returns the text that the number takes."""
        return self._asked(_library.plurals_element, rules, number)

    def message(self, rules: Rules, number: Number) -> str:
        """Returns this text with the number in the place of each {}."""
        return self._asked(_library.plurals_message, rules, number)

    def _asked(self, export: Any, rules: Rules, number: Number) -> str:
        return _written(export, *_words((rules.block, self.block, _bytes(text_of(number))))).decode()


class Written(str):
    """The text of a number as an argument of a pattern, where another text is only compared: Written("1.50"), Written("1c6")."""


def format_pattern(pattern: str, cardinal: Rules, ordinal: Optional[Rules] = None, /, **arguments: Number) -> str:
    """Returns what a pattern of ICU's MessageFormat says (docs/PATTERNS.md). Without ordinal rules every number is other there.

    A text is a text, unless it is Written; all others are numbers, as text_of writes them. Any name may be given, as **{"0": 1}.

    >>> english = Rules.of_locale("en")
    >>> format_pattern("{who} has {n, plural, =0 {no files} one {# file} other {# files}}.", english, who="Ann", n=1)
    'Ann has 1 file.'
    """
    return _said(_library.plurals_pattern_format, (_bytes(pattern),), cardinal, ordinal, arguments)


class PackedPattern:
    """A pattern as a block of bytes (docs/FORMATS.md), from which it is said without its text.

    >>> english = Rules.of_locale("en")
    >>> pattern = PackedPattern("{n, plural, =0 {no files} one {# file} other {# files}}")
    >>> [pattern.format(english, n=n) for n in (0, 1, 2)]
    ['no files', '1 file', '2 files']
    """

    __slots__ = ("block",)
    block: bytes

    def __init__(self, pattern: str) -> None:
        """Reads the pattern's text."""
        self.block = _written(_library.plurals_pattern_pack, *_words((_bytes(pattern),)))

    @classmethod
    def of_bytes(cls, block: bytes) -> PackedPattern:
        """Takes the bytes of a block, as block has them. Others are a fault."""
        _checked(_library.plurals_pattern_check(block, len(block)))
        found = cls.__new__(cls)
        found.block = bytes(block)
        return found

    def format(self, cardinal: Rules, ordinal: Optional[Rules] = None, /, **arguments: Number) -> str:
        """Returns what it says, as format_pattern does of the pattern's text."""
        return _said(_library.plurals_packed_format, (self.block,), cardinal, ordinal, arguments)


class Catalog:
    """A catalogue of messages (docs/FORMATS.md).

    >>> catalog = Catalog(b"\\1\\0\\0\\0\\2\\0\\0\\0\\x0b\\0\\0\\0hi\\1\\0\\0\\0hello")
    >>> catalog.say("hi", Rules.of_locale("en"))
    'hello'
    """

    __slots__ = ("block",)
    block: bytes

    def __init__(self, block: bytes) -> None:
        """Takes the bytes of a catalogue. Others are a fault."""
        _checked(_library.plurals_catalog_check(block, len(block)))
        self.block = bytes(block)

    @classmethod
    def of_messages(cls, document: Union[str, bytes], locale: str = "") -> Catalog:
        """Packs the patterns that a JSON document of messages has for a locale, or without one, for its only locale.

        >>> messages = '{"en": {"patterns": {"files": "{n, plural, one {# file} other {# files}}"}}}'
        >>> Catalog.of_messages(messages).say("files", Rules.of_locale("en"), n=1)
        '1 file'
        """
        given = document if isinstance(document, bytes) else _bytes(document)
        return cls(_written(_library.plurals_catalog_pack, *_words((given, _bytes(locale)))))

    def say(self, key: str, cardinal: Rules, ordinal: Optional[Rules] = None, /, **arguments: Number) -> str:
        """Returns what the message under a key says, as format_pattern does of its pattern. That there is none is a fault."""
        return _said(_library.plurals_catalog_say, (self.block, _bytes(key)), cardinal, ordinal, arguments)


def _said(export: Any, pattern: tuple[bytes, ...], cardinal: Rules, ordinal: Optional[Rules], arguments: dict[str, Number]) -> str:
    """Returns what a pattern says, of which these are the text or the block, or the catalogue and the key."""
    given = [(_bytes(name), _bytes(text_of(value)), _is_text(value)) for name, value in arguments.items()]
    passed = (_Argument * len(given))(*[(name, len(name), value, len(value), kind) for name, value, kind in given])
    words = _words((cardinal.block, ordinal.block if ordinal is not None else b"", *pattern))
    return _written(export, *words, passed, len(given)).decode()


def _is_text(value: Number) -> int:
    return int(isinstance(value, str) and not isinstance(value, Written))
