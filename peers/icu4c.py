"""ICU4C's PluralRules::createRules and select, on random rules and numbers."""
import itertools
import subprocess
from collections import Counter
from random import Random

import borders
import rules as shared
from exact import ICU4C, category, exact_number, kept_number
from library import BUILD, TOP, Missing, compiler, output

HEADER = "#include <unicode/plurrule.h>\n"
OURS = "library: outside the bound"
SEVERAL = "ICU4C: several of these"
NUMBERS = 20  # of each set of rules


def program():
    """Builds the program that asks ICU4C, and returns its path."""
    cxx = compiler("CXX", "c++")
    if subprocess.run([*cxx, "-E", "-x", "c++", "-"], input=HEADER, text=True, capture_output=True).returncode:
        raise Missing("ICU4C's headers are missing (Debian: libicu-dev)")
    BUILD.mkdir(exist_ok=True)
    path = BUILD / "icu4c"
    output([*cxx, "-std=c++17", "-O2", "-Wall", "-Wextra", TOP / "peers/icu4c.cpp", "-licui18n", "-licuuc", "-o", path])
    return path


def asked(path, questions):
    """Returns ICU4C's result of each question: pairs of descriptions of rules and numbers."""
    lines = [line for text, numbers in questions for line in (f"rules\t{text}", *(f"number\t{it}" for it in numbers))]
    found = iter(output([path], input="\n".join(lines) + "\n").split("\n"))
    return [(next(found), [next(found) for _ in numbers]) for _, numbers in questions]


def description(texts):
    return "; ".join(f"{name}: {text}" for name, text in texts.items())


# ---- one number


def icu4c_classes(rules, text, exact, theirs):
    """Returns why ICU4C's category isn't that of the exact number: its own values, one kind of them or several, give this category."""
    for count in range(1, len(ICU4C) + 1):
        for names in itertools.combinations(ICU4C, count):
            number = exact
            for it in names:
                number = ICU4C[it](text, number)
            if category(rules, number) == theirs:
                return [f"ICU4C: {names[0]}" if count == 1 else SEVERAL]
    return ["unexplained"]


def classes(rules, text, ours, theirs, is_exact):
    """Returns the classes of a number under rules: none if both categories are that of the exact number."""
    exact = exact_number(text)
    wanted, found = category(rules, exact), []
    if ours != wanted:
        found.append(OURS if not is_exact and ours == category(rules, kept_number(text)) else "unexplained")
    if theirs != wanted:
        found += icu4c_classes(rules, text, exact, theirs)
    return found


# ---- random rules


def drawn(random, count):
    """Returns sets of rules, each with its texts and its numbers."""
    found = []
    for _ in range(count):
        rules = shared.five(random)
        found.append((rules, shared.texts(random, rules), [shared.number(random, rules) for _ in range(NUMBERS)]))
    return found


class Comparison:
    """Counts of differences by class, and the shortest text of each."""

    def __init__(self):
        self.counts = Counter()
        self.shortest = {}

    def add(self, name, *shown):
        self.counts[name] += 1
        text = " | ".join(map(str, shown))
        if name not in self.shortest or len(text) < len(self.shortest[name]):
            self.shortest[name] = text

    def compare_number(self, library, block, rules, text, theirs):
        ours = library.category(block, text)
        self.counts["compared"] += 1
        found = classes(rules, text, ours, theirs, library.is_exact(block, text))
        if ours == theirs:
            # both may be wrong alike; that is no difference, but the library's part has to be told by is_exact
            found = [it for it in found if it == "unexplained"]
        else:
            self.counts["different"] += 1
        for it in found:
            self.add(it, description({name: shared.condition_text(it) for name, it in rules.items()}), text, f"{ours}, {theirs}")


def compare_rules(path, library, random, count, comparison):
    sets = drawn(random, count)
    results = asked(path, [(description(texts), numbers) for _, texts, numbers in sets])
    for (rules, texts, numbers), (read, categories) in zip(sets, results):
        block = library.rules(texts)
        if isinstance(block, int) or read != "read":
            comparison.add("unexplained", description(texts), block, read)
            continue
        for text, theirs in zip(numbers, categories):
            comparison.compare_number(library, block, rules, text, theirs)


def compare(library, seed, count, say):
    """Returns the counts of random rules, and of texts at the border of the shared grammar."""
    path, random, comparison = program(), Random(seed), Comparison()
    for first in range(0, count, 1000):
        compare_rules(path, library, random, min(1000, count - first), comparison)
    texts = borders.compare(lambda questions: asked(path, questions), library, random, max(count // 100, 1), say)
    for name, text in comparison.shortest.items():
        say(f"shortest, {name}: {text}")
    return comparison.counts, texts
