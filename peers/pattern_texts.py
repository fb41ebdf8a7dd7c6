"""Random patterns of messages: valid ones, ones at the border of what ICU4C and the library share, damaged ones and hostile ones."""
NAMES = ("n", "n", "n", "m", "count", "name", "s", "0", "1", "12", "a_b", "N1", "имя", "né", "数")
WORDS = ("file", "files", "of", "one", "other", " ", " ", "  ", "\n", ".", ", ", "-", "=", ":", "|", "\\", '"', "é", "файлов", "…", "🎉", "\u200e", "<", "\t")
APOSTROPHES = ("'", "''", "''", "I don't", "l''", "'{'", "'}'", "'{a}'", "'{it''s}'", "'{''", "o'", "'#'", "'''{'''")
KEYWORDS = ("zero", "one", "two", "few", "many", "one", "few", "ones", "ONE", "offset", "x1", "1", "кот", "other2")
SELECTORS = ("female", "male", "a", "b", "1", "other1", "да", "offset", "one")
NUMBERS = ("0", "1", "2", "5", "10", "01", "-1", "1.0", "1.5", "0.25", "-0", "100000", "18446744073709551616")
OFFSETS = ("1", "1", "2", "0", "10", "007", "99999")
# Keywords that ICU4C takes for a part of the offset that they stand behind, with no blank between.
GLUED = ("e2x", "e1", "E0few", "e", "E", "ex", "e3other")
TYPES = ("plural", "plural", "plural", "selectordinal", "select", "select", "Plural", "SELECT", "selectOrdinal")
BLANKS = ("", "", "", "", " ", " ", "  ", "\n", "\t", "\r\n")
BLANKS_ABOVE_ASCII = ("\u2028", "\u2029", "\u200e", "\u200f", "\x85")
# What only one side reads, or neither.
SIMPLE = ("number", "date", "time", "spellout", "x", "NUMBER", "pluralx", "plura")
STYLES = ("short", "::currency/EUR", "#,##0.00", "{x}", "'}'", "a'b'c", "")
STYLE_PIECES = (
    "short", "#,##0.00", "::currency/EUR", " ", " ", "{", "}", "{x}", "{a{b}c}", "'", "''", "'{'", "'}'", "'a b'", "h 'o''clock' a", "é",
    "имя", "\n", ",", "#", "|", "",
)  # fmt: skip
CHOICES = ("0#a|1#b", "0#none|1<some {n}", "0\u2264a", "-1#x|\u221e#y", "0#a|", "|", "")
ODD_NUMBERS = ("+1", "+1", "1e3", "1E3", "1e3", ".5", ".5", "5.", "5.", "-.5", "1.5e-1", "1e", "--1", "+-1", "1e400", "1.2.3", "\u221e", "-", "", "0x1", "1" * 127, "1" * 128, "0" * 200, "1_0", "32768")
ODD_NAMES = ("«n»", "n\u2028", "a\x01", "\x7f", "n\x00", "40000", "32767", "32768", "00", "01", "a-b", "a.b", "n\x85n", "×", "a–b", "\u3000", "", "9" * 30, "\ufd3e")
TOKENS = (
    "{", "{", "{", "}", "}", "}", "'", "'", "''", "#", ",", ",", " ", "plural", "select", "selectordinal", "offset:", "offset", ":", "=", "=1", "1", "0",
    "one", "other", "other{", "{n", "{n,plural,", "{s,select,", "{n,selectordinal,", "other{#}}", "other{a}}", "}}", "{n}", "number", "choice", "|", "<",
    "-", "+", ".", "e", "E5", "\n", "\x00", "\u2028", "\u200e", "é", "«", "\u221e", "\ufffd", "\U0010ffff", "_", "N", "01", "'{", "'}", "'#'", "\\", '"',
)  # fmt: skip


# ---- valid ones


class Made:
    """Makes patterns from random choices; is_odd: with what only one side reads; is_styled: with many simple formats."""

    def __init__(self, random, is_odd, words=WORDS, is_styled=False):
        self.random, self.is_odd, self.words, self.is_styled = random, is_odd, words, is_styled

    def pick(self, words, odd=()):
        if odd and self.is_odd and self.random.random() < 0.25:
            words = odd
        return self.random.choice(words)

    def blank(self):
        return self.pick(BLANKS)

    def wide_blank(self):
        """Returns white space, that above ASCII too: where no name stands before it."""
        return self.pick(BLANKS_ABOVE_ASCII) if self.random.random() < 0.1 else self.blank()

    def blank_after_name(self):
        return self.pick(BLANKS, BLANKS_ABOVE_ASCII if self.random.random() < 0.3 else ())

    def message(self, depth):
        count = self.random.choice((0, 1, 1, 2, 2, 3, 4) if depth else (1, 1, 2, 3, 4, 5))
        return "".join(self.item(depth) for _ in range(count))

    def item(self, depth):
        kind = self.random.randrange(20)
        if kind < 8:
            return "".join(self.pick(self.words) for _ in range(self.random.randrange(1, 5)))
        if kind < 10:
            return "#"
        if kind < 12:
            return self.pick(APOSTROPHES)
        if kind < 13 and not depth:
            return "}"
        if kind < 16 or depth > 3:
            return self.argument()
        return self.choice(depth)

    def head(self):
        return "{" + self.wide_blank() + self.pick(NAMES, ODD_NAMES) + self.blank_after_name()

    def argument(self):
        if self.is_styled and self.random.random() < 0.7:
            return self.simple()
        if not self.is_odd or self.random.random() < 0.7:
            return self.head() + "}"
        if self.random.random() < 0.3:
            return f"{self.head()},{self.wide_blank()}choice{self.blank()},{self.pick(CHOICES)}}}"
        style = "," + self.pick(STYLES) if self.random.random() < 0.5 else ""
        return f"{self.head()},{self.blank()}{self.pick(SIMPLE)}{self.blank()}{style}}}"

    def simple(self):
        word = self.pick(SIMPLE, TYPES)
        style = "" if self.random.random() < 0.3 else "," + "".join(self.pick(STYLE_PIECES) for _ in range(self.random.randrange(4)))
        return f"{self.head()},{self.wide_blank()}{word}{self.wide_blank()}{style}}}"

    def choice(self, depth):
        kind = self.pick(TYPES)
        is_select = kind.lower() == "select"
        offset = "" if is_select or self.random.random() < 0.7 else self.offset(depth)
        branches = [self.branch(self.selector(is_select), depth) for _ in range(self.random.choice((0, 1, 1, 2, 3)))]
        branches.insert(self.random.randrange(len(branches) + 1), self.branch("other", depth))
        return f"{self.head()},{self.wide_blank()}{kind}{self.wide_blank()},{offset}{''.join(branches)}{self.wide_blank()}}}"

    def offset(self, depth):
        """Returns an offset, behind which a blank, nothing, or a branch with a glued keyword stands."""
        behind = self.random.random()
        glued = f"{self.pick(GLUED)}{self.blank_after_name()}{{{self.message(depth + 1)}}}" if behind < 0.05 else "" if behind < 0.15 else " "
        return f"{self.blank()}offset:{self.wide_blank()}{self.pick(OFFSETS, ODD_NUMBERS)}{glued}"

    def selector(self, is_select):
        if is_select:
            return self.pick(SELECTORS, ODD_NAMES)
        if self.random.random() < 0.3:
            return "=" + self.pick(NUMBERS, ODD_NUMBERS)
        return self.pick(KEYWORDS, ODD_NAMES)

    def branch(self, selector, depth):
        return f"{self.wide_blank()}{selector}{self.blank_after_name()}{{{self.message(depth + 1)}}}"


def valid(random, words=WORDS):
    return Made(random, False, words).message(0)


def odd(random):
    return Made(random, True).message(0)


# ---- damaged ones


def cut(random, text):
    return text[: random.randrange(len(text) + 1)]


def without(random, text):
    at = random.randrange(len(text) + 1)
    return text[:at] + text[at + random.choice((1, 1, 1, 2, 5)) :]


def with_token(random, text):
    at = random.randrange(len(text) + 1)
    return text[:at] + random.choice(TOKENS) + text[at:]


def with_copy(random, text):
    at = random.randrange(len(text) + 1)
    first = random.randrange(len(text) + 1)
    return text[:at] + text[first : first + random.randrange(1, 9)] + text[at:]


def replaced(random, text):
    at = random.randrange(len(text) + 1)
    return text[:at] + random.choice(TOKENS) + text[at + 1 :]


def without_mark(random, text):
    """Returns the text without one of the characters that mean something."""
    places = [at for at, it in enumerate(text) if it in "{}',=#"]
    return text if not places else (lambda at: text[:at] + text[at + 1 :])(random.choice(places))


DAMAGES = (cut, without, with_token, with_copy, replaced, without_mark, without_mark)


def damaged(random, text=None):
    text = text or (odd if random.random() < 0.2 else valid)(random)
    for _ in range(random.choice((1, 1, 1, 2, 3))):
        text = random.choice(DAMAGES)(random, text)
    return text


# ---- hostile ones


def tokens(random):
    return "".join(random.choice(TOKENS) for _ in range(random.randrange(1, 25)))


def characters(random):
    return "".join(chr(random.choice((random.randrange(128), random.randrange(128), random.randrange(0x3100)))) for _ in range(random.randrange(20)))


def marks(random):
    return "".join(random.choice("{}'#, =no1") for _ in range(random.randrange(1, 40)))


def deep(random):
    """Returns branches in each other, about as deep as may be."""
    count = random.choice((2, 5, 30, 31, 32, 33, 34, 40, 60))
    opened = "".join(random.choice(("{n,plural,other{", "{n,plural,other{#", "{s,select,a{}other{", "{n,selectordinal,one{#}other{")) for _ in range(count))
    closed = random.choice(("}}", "}}", "}one{x}}", "#}}")) * (count + random.choice((0, 0, 0, -1, 1)))
    return opened + random.choice(("", "#", "{n}", "'", "x")) + closed


def long(random):
    """Returns a pattern one part of which is long."""
    count = random.choice((100, 127, 128, 129, 300, 1000)) if random.random() < 0.99 else random.choice((65535, 65536))
    return random.choice((
        lambda: "{" + random.choice(("a", "9", "é")) * count + "}",
        lambda: "{s,select," + "a" * count + "{}other{}}",
        lambda: "{n,plural,=" + random.choice(("1", "0", "9", "-1")) * count + "{a}other{b}}",
        lambda: "{n,plural,offset:" + random.choice(("1", "0", "0000000001")) * count + " other{b}}",
        lambda: "'" * count + random.choice(("", "{", "{n}")),
        lambda: "{s,select," + "".join(f"a{it}{{}}" for it in range(count // 10)) + "other{b}}",
        lambda: "{" * random.choice((1, 2, min(count, 1000))),
        lambda: "}" * count + "#" * 3,
        lambda: random.choice(("{n}", "''", "'{'", "# ", "{n,plural,other{#}}")) * (count // 5),
        lambda: "{" + random.choice((" ", "\u2028", "\t\n")) * count + "n}",
        lambda: "{n," + "p" * count + ",other{a}}",
    ))()  # fmt: skip


HOSTILE = (tokens, tokens, tokens, tokens, marks, marks, marks, characters, characters, deep, long)


def hostile(random):
    return random.choice(HOSTILE)(random)


KINDS = (*[valid] * 8, *[odd] * 3, *[damaged] * 5, *[hostile] * 4)


def text(random):
    """Returns a random pattern of any of these."""
    return random.choice(KINDS)(random)


def styled(random):
    return Made(random, random.random() < 0.2, is_styled=True).message(0)


def styled_text(random):
    """Returns a random pattern of any of these, many of which have simple formats."""
    kind = random.random()
    if kind < 0.5:
        return styled(random)
    return damaged(random, styled(random)) if kind < 0.85 else text(random)
