"""Plural rules by UTS 35 Part 3, evaluated in exact numbers; and the values that the library and ICU4C take in place of the exact ones.

A condition is a list of and-conditions, and each of these a list of relations."""
from dataclasses import dataclass, replace

KEPT_PLACES = 18
TEN_18 = 10**KEPT_PLACES


@dataclass(frozen=True)
class Relation:
    operand: str
    modulus: int | None
    is_negated: bool
    ranges: tuple  # of pairs of ends, both included


@dataclass(frozen=True)
class Number:
    """The values of a number's operands. n is the integer i if the number has no fraction, else None. Some are floats where ICU4C takes
    doubles."""

    n: int | float | None
    i: int | float
    v: int
    w: int
    f: int | float
    t: int | float
    c: int

    def value(self, operand):
        return self.c if operand == "e" else getattr(self, operand)


def parts(text):
    """Returns the digits before and after the point of a written number, once its exponent has moved the point, and the exponent."""
    significand, _, exponent = text.lstrip("-").partition("c")
    whole, _, fraction = significand.partition(".")
    places = int(exponent or 0)
    fraction = fraction.ljust(places, "0")
    return whole + fraction[:places], fraction[places:], places


def number_of_parts(whole, fraction, exponent):
    shown = fraction.rstrip("0")
    i, t = int(whole), int(shown or 0)
    return Number(None if t else i, i, len(fraction), len(shown), int(fraction or 0), t, exponent)


def exact_number(text):
    return number_of_parts(*parts(text))


def is_true(relation, number):
    value = number.value(relation.operand)
    if value is not None and relation.modulus is not None:
        value = value % relation.modulus
    is_listed = value is not None and any(low <= value <= high for low, high in relation.ranges) and value == int(value)
    return is_listed != relation.is_negated


def category(rules, number):
    """Returns the first category of the rules whose condition is true of the number."""
    for name, condition in rules.items():
        if any(all(is_true(it, number) for it in group) for group in condition):
            return name
    return "other"


# ---- what the library keeps (docs/NUMBERS.md)


def kept_number(text):
    whole, fraction, exponent = parts(text)
    kept = number_of_parts(whole, fraction[:KEPT_PLACES], exponent)
    if len(whole) <= KEPT_PLACES:
        return kept
    i = kept.i % TEN_18 + TEN_18
    return replace(kept, i=i, n=None if kept.n is None else i)


# ---- what ICU4C takes


def last_digits(_, number):
    """i is its last 18 digits."""
    return replace(number, i=number.i % TEN_18)


def first_digits(text, number):
    """f and t are their first digits, until they are above 10^18."""
    _, fraction, _ = parts(text)
    t = str(up_to_19_digits(fraction.rstrip("0"))).rstrip("0")
    return replace(number, f=up_to_19_digits(fraction), t=int(t or 0))


def up_to_19_digits(digits):
    found = 0
    for it in digits:
        if found > TEN_18:
            break
        found = 10 * found + int(it)
    return found


def doubles(text, number):
    """Each value is the nearest double, a binary number with 53 digits."""
    n = float(text.lstrip("-").replace("c", "e"))
    return replace(number, n=n, i=float(number.i), f=float(number.f), t=float(number.t))


# In the order in which ICU4C takes them.
ICU4C = {"last 18 digits of i": last_digits, "first 19 digits of f and t": first_digits, "values are doubles": doubles}
