"""Texts at the border of the grammar that the library and ICU4C share: one change of a rule, of which the two make different things.

Each function returns a text, and what the library and ICU4C have to make of it: a condition, or why it is refused."""
from collections import Counter
from dataclasses import replace

import rules as shared
from exact import category, exact_number, parts
from library import TEXT_FAULTS

REFUSED = "refused"
TRUE_OF_ALL = [[]]
NUMBERS = 10  # of each text
SAID = 10  # of the texts that aren't as wanted


def with_last(groups, relation):
    return [*groups[:-1], [*groups[-1][:-1], relation]]


def changed(random, text_of, relation):
    """Returns a random condition whose last relation is this one, and its text, in which text_of writes this relation."""
    groups = with_last(shared.condition(random), relation)
    text, own = shared.condition_text(groups), shared.relation_text(relation)
    return groups, text.removesuffix(own) + text_of(relation)


def single(random):
    low = shared.value(random)
    return replace(shared.relation(random), ranges=((low, low),))


def operand_w(random):
    groups, text = changed(random, shared.relation_text, replace(shared.relation(random), operand="w"))
    return text, groups, REFUSED


def word_is(random):
    groups, text = changed(random, lambda it: shared.relation_text(it).replace("!=", "is not").replace("=", "is"), single(random))
    return text, "expected operator", groups


def word_in(random):
    groups, text = changed(random, lambda it: shared.relation_text(it).replace("!=", "not in").replace("=", "in"), shared.relation(random))
    return text, "expected operator", groups


def word_mod(random):
    relation = replace(shared.relation(random), modulus=random.choice((10, 100)))
    groups, text = changed(random, lambda it: shared.relation_text(it).replace("%", "mod"), relation)
    return text, "expected operator", groups


def leading_zero(random):
    relation = single(random)
    groups, text = changed(random, lambda it: shared.relation_text(it).replace("= ", "= 0"), relation)
    return text, with_last(groups, replace(relation, ranges=((0, 0),))), groups


def text_left(random):
    groups = shared.condition(random)
    return shared.condition_text(groups) + random.choice((" x", " yes", " \u2026")), groups, REFUSED


def tab(random):
    groups = shared.condition(random)
    more = shared.relation_text(shared.relation(random))
    return f"{shared.condition_text(groups)}\t{random.choice(('and', 'or'))} {more}", groups, REFUSED


def ends_in_and(random):
    groups = shared.condition(random)
    return shared.condition_text(groups) + " and", "expected relation", groups


def ends_in_or(random):
    return shared.condition_text(shared.condition(random)) + " or", "expected 'AND' condition", TRUE_OF_ALL


def ends_in_comma(random):
    groups = shared.condition(random)
    return shared.condition_text(groups) + ",", "expected value", groups


def range_down(random):
    high = shared.value(random)
    ends = (high + 1 + random.randrange(9), high)
    groups, text = changed(random, shared.relation_text, replace(shared.relation(random), ranges=(ends,)))
    return text, groups, REFUSED


def two_range_marks(random):
    low, middle, high = sorted((shared.value(random), shared.value(random), shared.value(random)))
    relation = replace(shared.relation(random), ranges=((low, high),))
    groups, text = changed(random, lambda it: shared.relation_text(replace(it, ranges=())) + f"{low}..{middle}..{high}", relation)
    return text, with_last(groups, replace(relation, ranges=((low, middle),))), groups


def of_32_bits(random):
    """A value from 2^31 to 2^32 - 1."""
    value = random.randrange(2**31, 2**32)
    relation = replace(single(random), ranges=((value, value),), modulus=None)
    groups, text = changed(random, shared.relation_text, relation)
    below = value - 2**32
    return text, groups, with_last(groups, replace(relation, ranges=((below, below),)))


def above_32_bits(random):
    value = random.choice((2**32 + random.randrange(13), random.randrange(2**32, 2**62)))
    relation = replace(single(random), ranges=((value, value),), modulus=None)
    groups, text = changed(random, shared.relation_text, relation)
    wrapped = (value + 2**31) % 2**32 - 2**31
    return text, "expected value", with_last(groups, replace(relation, ranges=((wrapped, wrapped),)))


def modulus_zero(random):
    relation = shared.relation(random)
    groups, text = changed(random, shared.relation_text, replace(relation, modulus=0))
    return text, with_last(groups, replace(relation, modulus=None)), with_last(groups, replace(relation, ranges=()))


def blank(random):
    return " " * random.randrange(1, 4), TRUE_OF_ALL, REFUSED


def no_blank_after_a_word(random):
    groups = shared.condition(random)
    joined = [*groups, *shared.condition(random)]
    text = shared.condition_text(joined)
    cut = len(shared.condition_text(groups)) + len(" or")
    return text[:cut] + text[cut + 1 :], joined, REFUSED


BORDERS = {
    "the operand w": operand_w,
    "`is` or `is not` as the operator": word_is,
    "`in` or `not in` as the operator": word_in,
    "`mod` for `%`": word_mod,
    "a 0 before a value": leading_zero,
    "text after a condition": text_left,
    "a tab before `and` or `or`": tab,
    "`and` at the end": ends_in_and,
    "`or` at the end": ends_in_or,
    "a comma at the end": ends_in_comma,
    "a range that goes down": range_down,
    "two `..` in a range": two_range_marks,
    "a value from 2147483648 to 4294967295": of_32_bits,
    "a value above 4294967295": above_32_bits,
    "modulus 0": modulus_zero,
    "blanks alone": blank,
    "no blank after `and` or `or`": no_blank_after_a_word,
}


# ---- the comparison


def number(random, groups):
    """Returns a short number, whose operands both sides hold exactly."""
    if random.random() < 0.5 and groups[-1]:
        aimed = shared.aimed(random, {"one": groups})
        whole, fraction, _ = parts(aimed)
        if len(whole) + len(fraction) < 16:
            return aimed
    return str(random.randrange(1000)) + random.choice(("", "", ".0", ".5", ".50", ".125"))


def drawn(random, border):
    text, ours, theirs = border(random)
    groups = next((it for it in (ours, theirs) if isinstance(it, list)), TRUE_OF_ALL)
    return text, ours, theirs, [number(random, groups) for _ in range(NUMBERS)]


def is_as_wanted(wanted, refusal, categories, numbers):
    """Returns whether a side refuses a text as wanted, or reads it as the wanted condition."""
    if not isinstance(wanted, list):
        return refusal == wanted
    return not refusal and categories == [category({"one": wanted}, exact_number(it)) for it in numbers]


def of_library(library, text, numbers):
    """Returns why the library refuses a text, and else the categories of the numbers under it as the rule of one."""
    block = library.rules({"one": text})
    if not isinstance(block, bytes):
        return TEXT_FAULTS.get(block, str(block)), []
    return "", [library.category(block, it) for it in numbers]


def of_icu4c(result):
    read, categories = result
    return ("", categories) if read == "read" else (REFUSED, [])


def compare(asked, library, random, count, say):
    """Returns how many texts of each border were as wanted on both sides, and how many weren't."""
    counts = Counter()
    for name, border in BORDERS.items():
        texts = [drawn(random, border) for _ in range(count)]
        # a text that ICU4C has to refuse is asked without numbers, since the rules before it would answer
        results = asked([(f"one: {text}", [] if theirs == REFUSED else numbers) for text, _, theirs, numbers in texts])
        for (text, ours, theirs, numbers), result in zip(texts, results):
            is_right = is_as_wanted(ours, *of_library(library, text, numbers), numbers)
            is_right = is_as_wanted(theirs, *of_icu4c(result), numbers) and is_right
            counts[name if is_right else "unexplained"] += 1
            if not is_right and counts["unexplained"] <= SAID:
                say(f"ICU4C, {name}: not as the class says: {text!r} {result[0]}")
    return counts
