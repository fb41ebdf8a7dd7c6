"""What a pattern of messages says with its arguments: in exact numbers by UTS 35 Part 3 and docs/PATTERNS.md, and what ICU4C does otherwise.

An argument is a number, which is a Number of a text such as -12.50, or a text."""
import re
import sys
from dataclasses import dataclass
from fractions import Fraction

import exact
import patterns

# A number may have 32767 digits on each side of its point.
sys.set_int_max_str_digits(0)

# ---- where ICU4C differs

WRITTEN = "numbers are written anew"
MISSING = "a missing argument"
DOUBLES = "values are doubles"
CHANGES = (WRITTEN, MISSING, DOUBLES, patterns.NUMBERS)
PATTERN = "Pattern"
PLACES = 3
DOUBLE_DIGITS = 17

# ---- numbers (docs/NUMBERS.md)

FORM = re.compile(r"[-+]?([0-9]*)(?:\.([0-9]+))?(?:c([0-9]{1,3}))?", re.ASCII)
MOST_PLACES = 32767
MOST_EXPONENT = 255


class Refused(Exception):
    """The pattern says nothing with these arguments: what is wrong with one, and its name."""

    def __init__(self, fault, name):
        super().__init__(fault)
        self.fault, self.name = fault, name


@dataclass(frozen=True)
class Number:
    text: str

    def value(self):
        significand, _, exponent = self.text.partition("c")
        return Fraction(significand) * 10 ** int(exponent or 0)

    def places(self):
        """Returns how many fraction digits are written."""
        return len(self.text.partition("c")[0].partition(".")[2])

    def plain(self):
        """Returns the text with a digit before the point, and without a plus."""
        text = self.text.removeprefix("+")
        sign = "-" if text.startswith("-") else ""
        return sign + "0" + text.removeprefix("-") if text.removeprefix("-").startswith(".") else text

    def fault(self, offset):
        """Returns why no plural with this offset counts it, or None."""
        found = FORM.fullmatch(self.text)
        if not found or not (found[1] or found[2]):
            return "NotANumber"
        whole, fraction, exponent = len(found[1]), len(found[2] or ""), int(found[3] or 0)
        if max(whole, fraction) > MOST_PLACES or exponent > MOST_EXPONENT:
            return "OverLimit"
        if offset is None:
            return None
        if exponent:
            return "CompactOffset"
        return "OverLimit" if len(offset) > MOST_PLACES or abs(self.value() - value_of(offset)) >= 10**MOST_PLACES else None


def digits_text(value, places):
    """Returns a value with so many fraction digits, of which it has no more."""
    whole = abs(value * 10**places)
    digits = str(whole.numerator).rjust(places + 1, "0")
    point = len(digits) - places
    return ("-" if value < 0 else "") + digits[:point] + ("." + digits[point:] if places else "")


def value_of(offset):
    """Returns the value of an offset; ICU4C's may have an exponent."""
    return int(Fraction(offset))


def less(number, offset, changes):
    """Returns a number less an offset, or the number itself if there is none."""
    if offset is None or DOUBLES in changes and not value_of(offset):
        return number
    if DOUBLES in changes:
        value = Fraction(float(number.value()) - float(offset))
        return Number(shortest(float(value)))
    return Number(digits_text(number.value() - value_of(offset), number.places()))


def shortest(value):
    """Returns the least digits that are read as this double."""
    text = repr(value)
    if "e" in text or text.endswith(".0"):
        exact_value = Fraction(text)
        places = 0
        while (exact_value * 10**places).denominator != 1:
            places += 1
        return digits_text(exact_value, places)
    return text


def written(number, changes):
    """Returns the text of a number: as it stands, or as ICU4C's number format of a locale writes it, but for its marks."""
    if WRITTEN not in changes:
        return number.text
    value = round(number.value() * 10**PLACES)
    text = digits_text(Fraction(value, 10**PLACES), PLACES).rstrip("0").removesuffix(".")
    return "-" + text if number.text.startswith("-") and not text.startswith("-") else text


@dataclass(frozen=True)
class Language:
    """The rules of a language: conditions by category, of cardinals and of ordinals."""

    cardinal: dict
    ordinal: dict

    def category(self, kind, text, changes):
        number = exact.kept_number(text)
        if DOUBLES in changes:
            number = exact.exact_number(text)
            for change in exact.ICU4C.values():
                number = change(text, number)
        return exact.category(self.cardinal if kind == "plural" else self.ordinal, number)


# ---- what a pattern says


class Speaker:
    def __init__(self, parts, arguments, language, changes=()):
        self.parts, self.arguments, self.language, self.changes = parts, arguments, language, changes

    def message(self, at, depth, sign):
        """Returns what the parts from at on say, as far as they are at least so deep; sign: what `#` says."""
        said = []
        while at < len(self.parts) and self.parts[at][0] >= depth:
            piece = self.parts[at][1]
            if isinstance(piece, str):
                said.append(piece)
            elif piece == patterns.HASH:
                said.append(sign)
            elif piece[0] == "argument":
                said.append(self.argument(piece[1]))
            else:
                said.append(self.choice(at, piece))
                at = self.end(at)
            at += 1
        return "".join(said)

    def argument(self, name):
        found = self.arguments.get(name)
        if found is None:
            return self.missing(name)
        return written(found, self.changes) if isinstance(found, Number) else found

    def missing(self, name):
        if MISSING in self.changes:
            return f"{{{name}}}"
        raise Refused("Missing", name)

    def end(self, at):
        depth = self.parts[at][0]
        return next(it for it in range(at, len(self.parts)) if self.parts[it] == (depth, patterns.END))

    def branches(self, at):
        """Returns the selectors of an argument, and where the parts of each begin."""
        depth = self.parts[at][0]
        return [(self.parts[it][1], it + 1) for it in range(at + 1, self.end(at)) if self.parts[it][0] == depth]

    def choice(self, at, piece):
        _, kind, name, offset = piece
        found = self.arguments.get(name)
        if found is None:
            return self.missing(name)
        if isinstance(found, Number) == (kind == "select"):
            raise Refused("WrongKind", name)
        branches, depth = self.branches(at), self.parts[at][0] + 1
        if kind == "select":
            return self.message(first(branches, found), depth, "#")
        fault = found.fault(offset)
        if fault:
            raise Refused(fault, name)
        number = less(found, offset, self.changes)
        sign = written(number, self.changes)
        chosen = self.exactly(branches, found)
        if chosen is None:
            chosen = first(branches, self.language.category(kind, Number(sign).plain(), self.changes))
        return self.message(chosen, depth, sign)

    def exactly(self, branches, number):
        for selector, at in branches:
            if selector[0] == "exactly" and self.value(selector[1]) == self.value(number.text) and self.is_compared(selector[1]):
                return at
        return None

    def value(self, text):
        return float(text) if DOUBLES in self.changes else Number(text).value()

    def is_compared(self, text):
        return DOUBLES in self.changes or Number(text).fault(None) is None


def first(branches, word):
    """Returns where the first branch of a keyword begins, or that of other."""
    for keyword in (word, "other"):
        for selector, at in branches:
            if selector == ("keyword", keyword):
                return at
    raise AssertionError("a branch other is required")


def spoken(text, arguments, language, changes=()):
    """Returns what a pattern says; fails by Refused."""
    parts, fault = patterns.read(text, changes)
    if fault:
        raise Refused(PATTERN, "")
    return Speaker(parts, arguments, language, changes).message(0, 0, "#")


def said(text, arguments, language, changes=()):
    """Returns what a pattern says, or None if it says nothing."""
    try:
        return spoken(text, arguments, language, changes)
    except Refused:
        return None


def row_result(text, arguments, language):
    """Returns what the row of a pattern and its arguments wants (crates/tests_rows/data/pattern_texts.rows)."""
    try:
        return patterns.quoted(spoken(text, arguments, language))
    except Refused as refused:
        return patterns.row_result(text) if refused.fault == PATTERN else f"error {refused.fault} {refused.name}"


# ---- rules of CLDR


RELATION = re.compile(r"([nivwftce])(?:\s*%\s*([0-9]+))?\s*(!?=)\s*([0-9., ]+)")


def ends(text):
    low, _, high = text.strip().partition("..")
    return int(low), int(high or low)


def relation(text):
    operand, modulus, operator, listed = RELATION.fullmatch(text.strip()).groups()
    return exact.Relation(operand, modulus and int(modulus), operator == "!=", tuple(map(ends, listed.split(","))))


def condition(text):
    """Returns the condition of a rule's text, without its samples."""
    return [[relation(it) for it in group.split(" and ")] for group in text.partition("@")[0].split(" or ")]


def conditions(texts):
    """Returns the conditions of a language's texts by category."""
    return {name: condition(text) for name, text in texts.items() if name != "other"}
