"""What the library says of random patterns from their text and from their packed block, with arguments of any kind."""
from collections import Counter
from random import Random

import cases_program
import formats
import icu4c_formats
import pattern_texts
import patterns
from formats import Number

TOGETHER = 10000
LONGEST_EXAMPLE = 300
LONGEST = 20000  # characters of a pattern: a longer one may be too long for a block
UNEXPLAINED = "unexplained"
OTHERWISE = "otherwise when packed"
DRAWS = (pattern_texts.valid, pattern_texts.valid, pattern_texts.valid, pattern_texts.odd, pattern_texts.text)
FAULTY = ("", "x", "1e3", "1c", "c1", "5.", ".", "-", "--1", "1.2.3", " 1", "1c0256", "1c256", "\uff11", "1 000", "+", "0x1", "\u221e")
EXPONENTS = ("c0", "c1", "c3", "c03", "c255")


def number(random, parts):
    """Returns a number in any form, also one that is none."""
    kind = random.randrange(20)
    if kind == 0:
        return Number(random.choice(FAULTY))
    if kind == 1 and random.random() < 0.02:
        digits = "1" * random.choice((32766, 32767, 32768))
        return Number(random.choice((digits, "0." + digits, "-" + digits)))
    near = (icu4c_formats.aimed(random, parts) if kind < 8 else icu4c_formats.number(random)).text
    if random.random() < 0.4:
        return Number(near)
    sign, digits = ("-", near[1:]) if near.startswith("-") else (random.choice(("", "", "+")), near)
    if random.random() < 0.4:
        digits = "0" * random.randrange(1, 4) + digits
    if random.random() < 0.4:
        digits += ("" if "." in digits else ".") + "0" * random.randrange(1, 22)
    if digits.startswith("0.") and random.random() < 0.5:
        digits = digits[1:]
    return Number(sign + digits + (random.choice(EXPONENTS) if random.random() < 0.3 else ""))


def given(random, parts, is_text):
    return random.choice(icu4c_formats.TEXTS) if is_text else number(random, parts)


def arguments(random, text):
    """Returns random arguments for the names of a pattern, pairs of which those of one name may be several; most are of the kind that is wanted."""
    parts, _ = patterns.read(text)
    found = []
    for name, is_text in icu4c_formats.wanted(random, parts).items():
        kind = random.randrange(40)
        if kind > 1:
            found.append((name, given(random, parts, is_text)))
        if kind in (1, 2):
            found.append((name, given(random, parts, not is_text)))
    # A row has numbers before texts.
    return sorted(found, key=lambda it: not isinstance(it[1], Number))


def drawn(random):
    """Returns a pattern, its arguments and a language."""
    while True:
        text = random.choice(DRAWS)(random)
        if len(text) <= LONGEST:
            return text, arguments(random, text), random.choice(list(icu4c_formats.LOCALES))


def firsts(pairs):
    """Returns the first argument of each name."""
    return dict(reversed(pairs))


class Comparison:
    def __init__(self):
        self.counts = Counter()
        self.texts, self.languages = icu4c_formats.rule_texts(), icu4c_formats.languages()

    def row(self, text, pairs, language):
        """Returns the row of a message, which wants of the library what docs/PATTERNS.md says; the program says it in both forms."""
        result = formats.row_result(text, firsts(pairs), self.languages[language])
        self.counts["compared"] += 1
        self.counts[kind_of(result)] += 1
        return icu4c_formats.message_row(text, pairs, self.texts[language], result)


def kind_of(result):
    """Returns what a row's result is: a text, or a fault of the pattern or an argument."""
    if not result.startswith("error "):
        return "said"
    word = result.split(" ")[1]
    return "faults of the pattern" if word.startswith("Fault(") else word


def compare(cases, seed, count, say):
    """Returns the counts of random messages: what `format` and the packed form say is compared with docs/PATTERNS.md."""
    random, comparison, run = Random(seed), Comparison(), cases_program.Run(cases)
    for first in range(0, count, TOGETHER):
        run.add([comparison.row(*drawn(random)) for _ in range(min(TOGETHER, count - first))])
    wrong = run.wrong_rows().values()
    for said in wrong:
        comparison.counts[UNEXPLAINED] += 1
        comparison.counts[OTHERWISE] += OTHERWISE in said
    if wrong:
        say(f"shortest, {UNEXPLAINED}: {min(wrong, key=len)[:LONGEST_EXAMPLE]}")
    return comparison.counts
