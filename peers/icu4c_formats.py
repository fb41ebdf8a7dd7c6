"""ICU4C's MessageFormat, on random patterns of messages and arguments, in five languages."""
import itertools
import json
from collections import Counter
from random import Random

import cases_program
import formats
import icu4c_patterns as icu4c
import pattern_texts
import patterns
from formats import Language, Number
from gettext_plurals import DOCUMENT

# Of each language ICU4C's locale, and the mark before the fraction in its numbers, which the script turns into a point. Other marks are left
# out: those between thousands, and that before a minus in Arabic.
LOCALES = {"en": ("en", "."), "ru": ("ru", ","), "ar": ("ar@numbers=latn", "."), "pl": ("pl", ","), "fr": ("fr", ",")}
LEFT_OUT = "\xa0\u202f\u200e\u061c"
MARKS = ".," + LEFT_OUT
UNEXPLAINED = "unexplained"
KIND = "pattern_text"  # of rows
SEVERAL = "several of these"
WORDS = tuple(it for it in pattern_texts.WORDS if not set(it) & set(MARKS))
TEXTS = ("", "a", "b", "male", "female", "other", "1", "one", "Ann", "да", "{n}", "it''s", "#", "'", "x y")


def rule_texts():
    """Returns the texts of the rules of each language, cardinal and ordinal, without samples."""
    document = json.loads(DOCUMENT.read_text(encoding="utf-8"))
    types = [document[part] for part in ("cardinal", "ordinal")]
    return {it: [{name: text.partition("@")[0].strip() for name, text in part.get(it, {}).items() if name != "other"} for part in types] for it in LOCALES}


def languages():
    return {it: Language(*map(formats.conditions, texts)) for it, texts in rule_texts().items()}


# ---- random arguments


def number(random):
    """Returns a number that both sides write alike, mostly."""
    kind = random.randrange(20)
    if kind < 10:
        text = str(random.randrange(31))
    elif kind < 13:
        text = str(random.randrange(10 ** random.randrange(1, 8)))
    elif kind < 14:
        text = str(10 ** random.randrange(3, 13))
    elif kind < 18:
        text = f"{random.randrange(200)}.{random.randrange(100)}".rstrip("0").removesuffix(".")
    elif kind < 19:
        text = f"{random.randrange(20)}." + "".join(random.choice("00123459") for _ in range(random.randrange(1, 6)))
    else:
        text = str(random.randrange(10**15, 10**19)) if random.random() < 0.3 else f"{random.randrange(9)}.0"
    return Number(("-" if random.random() < 0.1 else "") + text)


def aimed(random, parts):
    """Returns a number near one that stands in a pattern, which is given by its parts."""
    found = [it[1] for _, it in parts if isinstance(it, tuple) and it[0] == "exactly"]
    offsets = [it[3] for _, it in parts if isinstance(it, tuple) and it[0] == "begin" and it[3]]
    if not found:
        return number(random)
    chosen = random.choice(found).lstrip("-")
    return Number(chosen if random.random() < 0.6 or "." in chosen else str(int(chosen) + int(random.choice(offsets or ("1",)))))


def wanted(random, parts):
    """Returns the names of a pattern's arguments, and whether each is wanted as a text."""
    found = {}
    for _, piece in parts:
        if isinstance(piece, tuple) and piece[0] == "begin":
            found.setdefault(piece[2], piece[1] == "select")
        elif isinstance(piece, tuple) and piece[0] == "argument":
            found.setdefault(piece[1], random.random() < 0.5)
    return found


def arguments(random, text):
    """Returns random arguments for the names of a pattern: mostly of the kind that is wanted, sometimes another or none."""
    parts, _ = patterns.read(text)
    found = {}
    for name, is_text in wanted(random, parts).items():
        kind = random.randrange(100)
        if kind == 0:
            continue
        if kind == 1:
            is_text = not is_text
        found[name] = random.choice(TEXTS) if is_text else aimed(random, parts) if kind < 30 else number(random)
    return found


def drawn(random):
    """Returns a pattern in whose texts no mark of a number stands, its arguments and a language."""
    while True:
        text = pattern_texts.valid(random, WORDS)
        if not any(isinstance(it, str) and set(it) & set(MARKS) for _, it in patterns.read(text)[0]):
            return text, arguments(random, text), random.choice(list(LOCALES))


# ---- ICU4C


def question(text, values, language):
    words = [f"{icu4c.digits(name)}=" + (f"n{it.text}" if isinstance(it, Number) else f"s{icu4c.digits(it)}") for name, it in values.items()]
    return "\t".join(["format", LOCALES[language][0], icu4c.digits(text), *words])


def answer(line, language):
    """Returns what ICU4C writes, with a point before fractions and no other mark in numbers, or None where it refuses the pattern."""
    if not line.startswith("text "):
        return None
    said = bytes.fromhex(line.removeprefix("text ")).decode()
    mark = LOCALES[language][1]
    return "".join("." if it == mark else "" if it in MARKS else it for it in said)


# ---- differences


def difference(text, values, rules, theirs):
    """Returns the class of a difference, or None: the least changes with which the pattern says what ICU4C writes."""
    if formats.said(text, values, rules) == theirs:
        return None
    for count in range(1, len(formats.CHANGES) + 1):
        for changes in itertools.combinations(formats.CHANGES, count):
            if formats.said(text, values, rules, changes) == theirs:
                return changes[0] if count == 1 else SEVERAL
    return UNEXPLAINED


def shown(text, values, language, theirs):
    listed = ", ".join(f"{name} = {it.text if isinstance(it, Number) else repr(it)}" for name, it in values.items())
    return f"{text!r} | {listed} | {language} | {theirs!r}"


def message_row(text, pairs, rules, result):
    """Returns the row that wants this result of the library for a message, said from its text and packed."""
    numbers = [word for name, it in pairs if isinstance(it, Number) for word in (name, it.text)]
    texts = [word for name, it in pairs if not isinstance(it, Number) for word in (name, it)]
    return cases_program.row(KIND, ", ".join(map(json.dumps, (text, numbers, texts, *rules))), result)


class Comparison:
    """Counts of messages and of differences by class, and the shortest message of each."""

    def __init__(self):
        self.counts = Counter()
        self.shortest = {}
        self.texts = rule_texts()
        self.languages = languages()

    def add(self, name, example):
        self.counts["different"] += 1
        self.counts[name] += 1
        if name not in self.shortest or len(example) < len(self.shortest[name]):
            self.shortest[name] = example

    def compare(self, text, values, language, line):
        theirs, rules = answer(line, language), self.languages[language]
        ours = formats.said(text, values, rules)
        self.counts["compared"] += 1
        self.counts["both say a text" if None not in (ours, theirs) else "both refuse" if ours is theirs else "one refuses"] += 1
        name = difference(text, values, rules, theirs)
        if name:
            self.add(name, shown(text, values, language, theirs))

    def row(self, text, values, language):
        """Returns the row that wants of the library what docs/PATTERNS.md says of a message."""
        return message_row(text, values.items(), self.texts[language], formats.row_result(text, values, self.languages[language]))


def compare(cases, seed, count, say):
    """Returns the counts of random messages: what docs/PATTERNS.md says is compared with ICU4C, and the library with what it says."""
    path, random, comparison = icu4c.program(), Random(seed), Comparison()
    run = cases_program.Run(cases) if cases_program.has_kind(KIND) else None
    for first in range(0, count, icu4c.TOGETHER):
        messages = [drawn(random) for _ in range(min(icu4c.TOGETHER, count - first))]
        for message, line in zip(messages, icu4c.asked(path, [question(*it) for it in messages])):
            comparison.compare(*message, line)
        if run:
            run.add([comparison.row(*it) for it in messages])
    for said in run.wrong_rows().values() if run else ():
        comparison.add(UNEXPLAINED, said)
    if not run:
        say(f"the library isn't compared: crates/tests_rows has no rows of the kind {KIND}")
    for name, example in comparison.shortest.items():
        say(f"shortest, {name}: {example[:icu4c.LONGEST_EXAMPLE]}")
    return comparison.counts
