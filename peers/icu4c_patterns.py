"""ICU4C's MessagePattern, on random patterns of messages."""
import itertools
import json
import subprocess
from collections import Counter
from random import Random

import cases_program
import pattern_texts
import patterns
from library import BUILD, TOP, Missing, compiler, output

HEADER = "#include <unicode/messagepattern.h>\n"
UNEXPLAINED = "unexplained"
SEVERAL = "several of these"
ONLY_CHOICE = "choice"
TOGETHER = 10000
LONGEST_EXAMPLE = 300
# What a part of MessagePattern is (UMessagePatternPartType), and its arguments (UMessagePatternArgType).
MESSAGE_BEGINS, MESSAGE_ENDS, SKIPPED, INSERTED, NUMBER_SIGN, ARGUMENT_BEGINS, ARGUMENT_ENDS = range(7)
ARGUMENT_NUMBER, ARGUMENT_NAME, TYPE, STYLE, SELECTOR, INTEGER, DOUBLE = range(7, 14)
PLAIN, SIMPLE, CHOICE = range(3)
KINDS = {3: "plural", 4: "select", 5: "ordinal"}


def program():
    """Builds the program that asks ICU4C, and returns its path."""
    cxx = compiler("CXX", "c++")
    if subprocess.run([*cxx, "-E", "-x", "c++", "-"], input=HEADER, text=True, capture_output=True).returncode:
        raise Missing("ICU4C's headers are missing (Debian: libicu-dev)")
    BUILD.mkdir(exist_ok=True)
    path = BUILD / "icu4c_messages"
    output([*cxx, "-std=c++17", "-O2", "-Wall", "-Wextra", TOP / "peers/icu4c_messages.cpp", "-licui18n", "-licuuc", "-o", path])
    return path


def digits(text):
    return text.encode().hex()


def asked(path, lines):
    """Returns ICU4C's line for each line."""
    return output([path], input="".join(f"{it}\n" for it in lines)).split("\n")[: len(lines)]


# ---- ICU4C's parts as the library's


class Simple(Exception):
    """An argument of a simple type or a choice: the parts before it, and the unit where it begins."""

    def __init__(self, parts, at):
        super().__init__(at)
        self.parts, self.at = parts, at


class Walk:
    """Walks over MessagePattern's parts. What is text isn't among them: it is what stands between. styled: over simple arguments, too."""

    def __init__(self, text, line, styled):
        self.styled = styled
        self.units = text.encode("utf-16-le")
        self.given = [tuple(map(int, it.split(":"))) for it in line.split(" ")[1:]]
        self.next, self.parts = 0, []

    def text(self, first, last):
        return self.units[2 * first : 2 * last].decode("utf-16-le")

    def taken(self):
        self.next += 1
        return self.given[self.next - 1]

    def shown(self, part):
        _, at, length, _ = part
        return self.text(at, at + length)

    def message(self, depth):
        kind, at, length, _ = self.taken()
        assert kind == MESSAGE_BEGINS
        while True:
            at += length
            kind, following, length, value = part = self.taken()
            if following > at:
                self.parts.append((depth, self.text(at, following)))
            at = following
            if kind == MESSAGE_ENDS:
                return
            if kind == NUMBER_SIGN:
                self.parts.append((depth, patterns.HASH))
            elif kind == ARGUMENT_BEGINS:
                at, length = self.argument(depth, value, part[1]), 0

    def argument(self, depth, kind, begins):
        """Walks over an argument, and returns the unit behind it."""
        name = self.shown(self.taken())
        if kind == CHOICE or kind == SIMPLE and not self.styled:
            raise Simple(self.parts, begins)
        if kind == PLAIN:
            self.parts.append((depth, ("argument", name)))
        elif kind == SIMPLE:
            self.parts.append((depth, ("styled", name, *self.format())))
        else:
            self.parts.append((depth, ("begin", KINDS[kind], name, self.number())))
            while self.given[self.next][0] == SELECTOR:
                self.branch(depth)
            self.parts.append((depth, patterns.END))
        part = self.taken()
        assert part[0] == ARGUMENT_ENDS
        return part[1] + part[2]

    def format(self):
        """Returns the type and the style that come next, or None for no style."""
        kind, word = self.given[self.next][0], self.shown(self.taken())
        assert kind == TYPE
        return word, self.shown(self.taken()) if self.given[self.next][0] == STYLE else None

    def number(self):
        """Returns the number that comes next, or None."""
        return self.shown(self.taken()) if self.given[self.next][0] in (INTEGER, DOUBLE) else None

    def branch(self, depth):
        word = self.shown(self.taken())
        number = self.number()
        self.parts.append((depth, ("keyword", word) if number is None else ("exactly", number)))
        self.message(depth + 1)


def icu4c_reading(text, line, styled):
    """Returns ICU4C's parts, or None where it refuses the text, and the unit where an argument begins that isn't read here, behind which no
    part is told."""
    if not line.startswith("parts"):
        return None, None
    walk = Walk(text, line, styled)
    try:
        walk.message(0)
    except Simple as simple:
        return patterns.joined(simple.parts), simple.at
    return patterns.joined(walk.parts), None


# ---- differences


def is_simple(text, fault, at):
    """Returns whether a fault is the type of the argument that begins at this unit."""
    if fault is None or fault.kind != "UnsupportedType" or at is None:
        return False
    return "{" not in text[len(text.encode("utf-16-le")[: 2 * at + 2].decode("utf-16-le")) : fault.at]


def compared(parts):
    """Returns the parts as ICU4C tells of them: a simple argument by its name, its type and its style."""
    return patterns.joined([(depth, piece[:4] if piece[0] == "styled" else piece) for depth, piece in parts])


def is_as_icu4c(text, changes, theirs, at, styled):
    """Returns whether the reader with these changes does with a text what ICU4C does."""
    parts, fault = patterns.read(text, changes, styled)
    if patterns.SIMPLE in changes and is_simple(text, fault, at):
        return compared(parts) == theirs
    if theirs is None or at is not None:
        return theirs is None and fault is not None
    return fault is None and compared(parts) == theirs


def difference(text, theirs, at, styled):
    """Returns the class of the difference of a pattern, or None: the least changes of the reader that make ICU4C's reading of it."""
    if is_as_icu4c(text, (), theirs, at, styled):
        return None
    for count in range(1, len(patterns.CHANGES) + 1):
        for changes in itertools.combinations(patterns.CHANGES, count):
            if is_as_icu4c(text, changes, theirs, at, styled):
                return (ONLY_CHOICE if styled and changes[0] == patterns.SIMPLE else changes[0]) if count == 1 else SEVERAL
    return UNEXPLAINED


class Comparison:
    """Counts of patterns and of differences by class, and the shortest pattern of each."""

    def __init__(self, styled):
        self.counts = Counter()
        self.shortest = {}
        self.styled = styled

    def add(self, name, text):
        self.counts["different"] += 1
        self.counts[name] += 1
        if name not in self.shortest or len(text) < len(self.shortest[name]):
            self.shortest[name] = text

    def compare(self, text, line):
        theirs, at = icu4c_reading(text, line, self.styled)
        parts, fault = patterns.read(text, styled=self.styled)
        self.counts["simple formats"] += 0 if fault else sum(piece[0] == "styled" for _, piece in parts)
        self.counts["compared"] += 1
        self.counts["both read" if theirs is not None and not fault else "both refuse" if theirs is None and fault else "one refuses"] += 1
        name = difference(text, theirs, at, self.styled)
        if name:
            self.add(name, text)


def rows(texts, styled):
    """Returns rows that want of the library what docs/PATTERNS.md says of these patterns."""
    if not styled:
        return [cases_program.row("pattern", json.dumps(it), patterns.row_result(it)) for it in texts]
    return [
        cases_program.row(kind, json.dumps(it), result(it))
        for it in texts
        for kind, result in (
            ("styled_pattern", lambda text: patterns.row_result(text, True)),
            ("styled_print", lambda text: patterns.printed_result(text, True)),
            ("unstyled_pattern", patterns.unstyled_result),
        )
    ]


def compare(cases, seed, count, say, styled=False):
    """Returns the counts of random patterns: what docs/PATTERNS.md says is compared with ICU4C, and the library with what it says. styled:
    with simple formats."""
    path, random, comparison, run = program(), Random(seed), Comparison(styled), cases_program.Run(cases)
    draw = pattern_texts.styled_text if styled else pattern_texts.text
    for first in range(0, count, TOGETHER):
        texts = [draw(random) for _ in range(min(TOGETHER, count - first))]
        for text, line in zip(texts, asked(path, [f"parse\t{digits(it)}" for it in texts])):
            comparison.compare(text, line)
        run.add(rows(texts, styled))
    for said in run.wrong_rows().values():
        comparison.add(UNEXPLAINED, said)
    for name, text in comparison.shortest.items():
        say(f"shortest, {name}: {text[:LONGEST_EXAMPLE]!r}")
    return comparison.counts
