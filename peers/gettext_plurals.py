"""GNU gettext's cldr-plurals: from CLDR's rules it prints a C expression that numbers the forms of an integer."""
import glob
import json
import re
import subprocess
from collections import Counter

from library import CATEGORIES, RULES, TOP, Missing

PLACES = ("/usr/lib/*/gettext/cldr-plurals", "/usr/lib*/gettext/cldr-plurals", "/usr/libexec/gettext/cldr-plurals")
# The document of CLDR 41.
DOCUMENT = TOP / "bench/cldr.json"
ORDER = "two forms, other first"
TYPES = ("cardinal", "ordinal")
LAST = 100_000
SAID = 10  # of the differences of no class
# Ends of the machine's integers and of decimal places, with their neighbours.
EDGES = sorted(
    {10**k + near for k in range(5, 20) for near in (-1, 0, 1)}
    | {2**k + near for k in (31, 32, 53, 63) for near in (-2, -1, 0, 1, 2)}
    | {2**64 - 2, 2**64 - 1}
)
# The operands that cldr-plurals refuses. It is given v in their place, which is 0 of an integer too.
UNKNOWN = re.compile(r"\b[ec]\b")
TOKENS = re.compile(r"\s*(\d+|n|\|\||&&|[=!<>]=|[<>?:%()])")
COMPARISONS = ("==", "!=", "<=", ">=", "<", ">")


def program():
    for pattern in PLACES:
        for path in glob.glob(pattern):
            return path
    raise Missing("GNU gettext's program cldr-plurals is missing (Debian: gettext)")


def sets():
    """Returns the distinct sets of CLDR's rules, without samples, each with the locales that have it, by type."""
    document = json.loads(DOCUMENT.read_text(encoding="utf-8"))
    found = {}
    for part in TYPES:
        for locale, texts in document[part].items():
            rules = tuple((it, texts[it].partition("@")[0].strip()) for it in RULES if it in texts)
            found.setdefault(rules, {}).setdefault(part, []).append(locale)
    return found


# ---- the expression


class Reader:
    """Reads an expression of C, as cldr-plurals prints it, and writes it in Python."""

    def __init__(self, text):
        self.tokens = TOKENS.findall(text)
        if "".join(self.tokens) != re.sub(r"\s", "", text):
            raise Missing(f"cldr-plurals prints {text}")
        self.at = 0

    def next_is(self, *words):
        return self.at < len(self.tokens) and self.tokens[self.at] in words

    def take(self, *words):
        if words and not self.next_is(*words):
            raise Missing(f"cldr-plurals prints {' '.join(self.tokens)}")
        self.at += 1
        return self.tokens[self.at - 1]

    def choice(self):
        condition = self.chain("||", "or", lambda: self.chain("&&", "and", self.comparison))
        if not self.next_is("?"):
            return condition
        self.take()
        yes = self.choice()
        self.take(":")
        return f"({yes} if {condition} else {self.choice()})"

    def chain(self, mark, word, part):
        parts = [part()]
        while self.next_is(mark):
            self.take()
            parts.append(part())
        return parts[0] if len(parts) == 1 else "(" + f" {word} ".join(parts) + ")"

    def comparison(self):
        left = self.remainder()
        return f"({left} {self.take()} {self.remainder()})" if self.next_is(*COMPARISONS) else left

    def remainder(self):
        left = self.atom()
        while self.next_is("%"):
            self.take()
            left = f"{left} % {self.atom()}"
        return left

    def atom(self):
        token = self.take()
        if token != "(":
            return token
        inside = self.choice()
        self.take(")")
        return inside


def printed(path, rules):
    """Returns how many forms cldr-plurals prints for these rules, and its expression."""
    text = "; ".join(f"{name}: {UNKNOWN.sub('v', condition)}" for name, condition in rules)
    ran = subprocess.run([path], input=f"{text or 'other:'}\n", capture_output=True, text=True)
    found = re.fullmatch(r"nplurals=(\d+); plural=(.*);\n", ran.stdout)
    if not found:
        raise Missing(f"cldr-plurals prints no expression for {text}")
    return int(found[1]), found[2]


def form_of(expression):
    reader = Reader(expression)
    text = reader.choice()
    if reader.at != len(reader.tokens):
        raise Missing(f"cldr-plurals prints {expression}")
    return eval(f"lambda n: int({text})")  # numbers, n and operators alone


def kept(path, rules):
    """Returns the rules that hold for some integer: the others have no form."""
    return [it for it in rules if printed(path, [it])[0] > 1]


def chooser(path, rules):
    """Returns the function from an integer to its category by gettext's expression.

    One rule is given twice, since cldr-plurals prints another kind of expression for two forms (bench/PEERS.md). Of rules that leave
    no integer to other, the last one takes its form."""
    left = kept(path, rules)
    if len(left) == 1:
        left *= 2
    forms, expression = printed(path, left)
    names = [*(name for name, _ in left), "other"]
    if forms not in (len(left), len(left) + 1):
        raise Missing(f"cldr-plurals has {forms} forms for {rules}")
    form = form_of(expression)
    return lambda number: names[form(number)]


# ---- the comparison


def compare_two_forms(path, rules, library, counts):
    """Compares what cldr-plurals prints for one rule that is given once: form 0 should be its category, and form 1 other."""
    names = (rules[0][0], "other")
    _, expression = printed(path, rules)
    is_rule_itself = not re.fullmatch(r"\(n (!=|>) \d+\)", expression)
    form, block = form_of(expression), library.rules(dict(rules))
    for number in range(LAST // 100 + 1):
        ours, at = library.category_of_integer(block, number), form(number)
        counts["compared"] += 1
        if ours != names[at]:
            counts[ORDER if is_rule_itself and ours == names[1 - at] else "unexplained"] += 1


def compare_set(path, rules, library, counts, say):
    block, choose = library.rules(dict(rules)), chooser(path, rules)

    def compare_number(ours, number):
        theirs = choose(number)
        counts["compared"] += 1
        if ours != theirs:
            counts["unexplained"] += 1
            if counts["unexplained"] <= SAID:
                say(f"gettext, {dict(rules)}, {number}: {ours} by the library, {theirs} by gettext")

    for number in [*range(LAST + 1), *EDGES]:
        compare_number(library.category_of_integer(block, number), number)
    for number in [*range(LAST // 100 + 1), *EDGES]:
        compare_number(library.category(block, str(number)), number)


def compare(library, say):
    """Returns the counts of CLDR's sets."""
    path, counts = program(), Counter()
    for rules in sets():
        compare_set(path, rules, library, counts, say)
        left = kept(path, rules)
        if len(left) == 1:
            compare_two_forms(path, left, library, counts)
    return counts


# ---- the lines of plural_forms gettext


def line_of(forms_program, locale, part):
    """Returns how many forms plural_forms prints for a locale, and its expression."""
    words = ["gettext", locale, *(["--ordinal"] if part == "ordinal" else []), "--rules", str(DOCUMENT)]
    ran = subprocess.run([forms_program, *words], capture_output=True, text=True)
    found = re.fullmatch(r"Plural-Forms: nplurals=(\d+); plural=\((.*)\);\n", ran.stdout)
    if not found:
        raise Missing(f"plural_forms prints no expression for {locale}: {ran.stdout}{ran.stderr}")
    return int(found[1]), found[2]


def compare_lines(forms_program, library, say):
    """Returns the counts of the lines of plural_forms, beside the library's categories and gettext's."""
    path, counts = program(), Counter()
    for rules, locales in sets().items():
        block, choose = library.rules(dict(rules)), chooser(path, rules)
        names = [*(name for name, _ in rules), "other"]
        for part, several in locales.items():
            forms, expression = line_of(forms_program, several[0], part)
            form = form_of(expression)
            counts["lines"] += 1
            held, by_form = set(), {}
            for number in [*range(LAST + 1), *EDGES]:
                ours, theirs, at = library.category_of_integer(block, number), choose(number), form(number)
                held.add(ours)
                counts["compared"] += 1
                if by_form.setdefault(at, ours) != ours or ours != theirs or not 0 <= at < forms:
                    counts["unexplained"] += 1
                    if counts["unexplained"] <= SAID:
                        say(f"plural_forms gettext {several[0]}, {part}, {number}: form {at}, {ours}, {theirs} by gettext")
            if [by_form.get(at) for at in range(forms)] != [it for it in names if it in held]:
                counts["unexplained"] += 1
                say(f"plural_forms gettext {several[0]}, {part}: {by_form}, and the integers have {sorted(held)}")
    return counts


# ---- rows


def spans(numbers):
    """Returns sorted integers as samples are written: neighbours as 2~4."""
    found = []
    for it in numbers:
        if found and found[-1][1] == it - 1:
            found[-1][1] = it
        else:
            found.append([it, it])
    return ", ".join(str(first) if first == last else f"{first}~{last}" for first, last in found)


def wrapped(words, front, width=100):
    lines = [front]
    for word in words:
        if len(lines[-1]) + 1 + len(word) > width:
            lines.append("#  ")
        lines[-1] += f" {word}"
    return lines


def row(path, rules, last):
    choose = chooser(path, rules)
    by_category = {}
    for number in range(last + 1):
        by_category.setdefault(choose(number), []).append(number)
    wanted = "; ".join(f"{it} {spans(by_category[it])}" for it in CATEGORIES if it in by_category)
    return f"integer_categories {json.dumps(dict(rules))}, 0, {last} => {wanted}"


HEAD = """\
# The category of each integer from 0 to 200 under each set of CLDR 41's rules, as GNU gettext gives
# it: the expression of C that its program cldr-plurals prints for the set, evaluated at each
# integer. Nothing here comes from this project's own programs. tools/peers --rows writes the file,
# and bench/PEERS.md says how. The rules are those of bench/cldr.json (ORIGIN.md there).
#
# integer_categories RULES, FIRST, LAST => the categories of the integers from FIRST to LAST, zero
#     to other, each with its integers; neighbours as 2~4
"""


def rows(last=200):
    """Returns the file of rows."""
    path = program()
    lines = HEAD.splitlines()
    for rules, locales in sets().items():
        lines.append("")
        for part in TYPES:
            if part in locales:
                lines += wrapped(locales[part], f"# {part}:")
        lines.append(row(path, rules, last))
    return "\n".join(lines) + "\n"
