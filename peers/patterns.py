"""Patterns of messages as docs/PATTERNS.md has them: a reader that shares nothing with the library's, and what ICU4C reads otherwise.

A pattern is read into parts, pairs of a depth and a piece. A piece is a text; HASH; or a tuple: ("argument", name),
("begin", type, name, offset or None), ("exactly", number), ("keyword", word) or ("end",). Where simple formats are read, too, an argument
with one is ("styled", name, type, style or None, all that stands between its braces)."""
import re

DEPTH_LIMIT = 32
HASH = ("hash",)
END = ("end",)
TYPES = {"plural": "plural", "selectordinal": "ordinal", "select": "select"}
WHOLE, COUNTED, SELECTED = "whole", "counted", "selected"
CONTEXTS = {"plural": COUNTED, "ordinal": COUNTED, "select": SELECTED}

# ---- where ICU4C differs: each is a change of the reader

SIMPLE = "simple formats and choice"
MARKS = "marks above ASCII end a name"
CONTROLS = "control characters in a name"
NUMBERS = "other forms of numbers"
SIZES = "sizes that ICU4C limits"
DEEP = "more than 32 branches deep"
CHANGES = (SIMPLE, MARKS, CONTROLS, NUMBERS, SIZES, DEEP)

# Unicode's Pattern_White_Space, and its Pattern_Syntax (Unicode Standard Annex 31: neither is changed ever).
WHITE_ABOVE_ASCII = "\x85\u200e\u200f\u2028\u2029"
WHITE = "\t-\r " + WHITE_ABOVE_ASCII
MARKS_ABOVE_ASCII = (
    "\xa1-\xa7\xa9\xab\xac\xae\xb0\xb1\xb6\xbb\xbf\xd7\xf7\u2010-\u203e\u2041-\u2053\u2055-\u205e\u2190-\u245f\u2500-\u2775"
    "\u2794-\u2bff\u2e00-\u2e7f\u3001-\u3003\u3008-\u3020\u3030\ufd3e\ufd3f\ufe45\ufe46"
)
BLANKS = re.compile(f"[{WHITE}]*")
LETTERS = re.compile("[A-Za-z]*")
DIGITS = re.compile("[0-9]*")
NUMBER_RUN = re.compile(r"[-.0-9]*")
NUMBER = re.compile(r"-?[0-9]+(\.[0-9]+)?")
DOUBLE_RUN = re.compile("[-+.0-9eE\u221e]*")
DOUBLE = re.compile(r"[-+]?([0-9]+\.?[0-9]*|\.[0-9]+)([eE][-+]?[0-9]+)?")
PLAIN = re.compile("[^'{}#]+")
UNQUOTED = re.compile("[^']+")
STYLE_PIECE = re.compile("'[^']*'|[^'{}]+|[{}]")
LARGEST_ARGUMENT = 32767
LONGEST_WORD = 65535
LONGEST_DOUBLE = 127


def name_form(changes):
    """Returns the form of names, with these changes."""
    left_out = WHITE_ABOVE_ASCII + (MARKS_ABOVE_ASCII if MARKS in changes else "")
    controls = "\0-\x08\x0e-\x1f\x7f" if CONTROLS in changes else ""
    return re.compile(f"(?:(?![{left_out}])[0-9A-Za-z_{controls}\x80-\U0010ffff])*")


class Fault(Exception):
    """The first fault of a pattern: its kind, and the character where it is."""

    def __init__(self, kind, at):
        super().__init__(kind)
        self.kind, self.at = kind, at


def units(text):
    return len(text.encode("utf-16-le")) // 2


class Reader:
    """Reads a pattern, with changes of what it reads as ICU4C does."""

    def __init__(self, text, changes=(), styled=False):
        self.text, self.at, self.parts = text, 0, []
        self.changes, self.styled = changes, styled
        self.name_form = name_form(changes)

    def take(self, form):
        found = form.match(self.text, self.at)
        self.at = found.end()
        return found.group()

    def skip_blanks(self):
        self.at = BLANKS.match(self.text, self.at).end()

    def add(self, depth, piece):
        self.parts.append((depth, piece))

    def fail(self, kind, at=None):
        """Fails here or there; at the end of the text a brace is missing."""
        at = self.at if at is None else at
        raise Fault(kind, at) if at < len(self.text) else Fault("Unclosed", len(self.text))

    def next(self):
        """Returns the next character, which has to be there."""
        if self.at == len(self.text):
            self.fail("Unclosed")
        return self.text[self.at]

    # ---- text

    def message(self, context, depth):
        """Reads a message: up to the end, or a branch up to behind its brace."""
        while self.at < len(self.text):
            mark = self.text[self.at]
            if mark == "}" and context != WHOLE:
                self.at += 1
                return
            self.piece(mark, context, depth)
        if context != WHOLE:
            self.fail("Unclosed")

    def piece(self, mark, context, depth):
        if mark not in "'{}#":
            self.add(depth, self.take(PLAIN))
            return
        self.at += 1
        if mark == "{":
            self.argument(depth)
        elif mark == "'":
            self.apostrophe("{}#" if context == COUNTED else "{}", depth)
        else:
            self.add(depth, HASH if mark == "#" and context == COUNTED else mark)

    def apostrophe(self, quotable, depth):
        following = self.text[self.at : self.at + 1]
        if following and following in quotable:
            self.quoted(depth)
            return
        self.add(depth, "'")
        self.at += following == "'"

    def quoted(self, depth):
        """Reads quoted text, up to behind the apostrophe that ends it or to the end."""
        while self.at < len(self.text):
            if self.text.startswith("''", self.at):
                self.add(depth, "'")
                self.at += 2
            elif self.text[self.at] == "'":
                self.at += 1
                return
            else:
                self.add(depth, self.take(UNQUOTED))

    # ---- arguments

    def argument(self, depth):
        """Reads an argument from behind its brace."""
        self.skip_blanks()
        begins, name = self.at, self.name()
        self.skip_blanks()
        mark = self.next()
        if mark == "}":
            self.at += 1
            self.add(depth, ("argument", name))
        elif mark == ",":
            self.at += 1
            self.typed(begins, name, depth)
        else:
            self.fail("ExpectedEnd")

    def name(self):
        at, name = self.at, self.take(self.name_form)
        if not name:
            self.fail("ExpectedName")
        is_number = name.isascii() and name.isdigit()
        if is_number and name[0] == "0" and len(name) > 1:
            self.fail("BadNumber", at)
        if SIZES in self.changes and (is_number and int(name[:6]) > LARGEST_ARGUMENT or units(name) > LONGEST_WORD):
            self.fail("BadNumber", at)
        return name

    def typed(self, begins, name, depth):
        """Reads an argument with a type, from this on."""
        self.skip_blanks()
        at, word = self.at, self.take(LETTERS)
        if not word:
            self.fail("ExpectedType")
        if word.lower() in TYPES:
            self.choice(TYPES[word.lower()], name, depth)
        elif self.styled and word.lower() != "choice":
            self.simple(begins, name, word, depth)
        else:
            self.fail("UnsupportedType", at)

    def simple(self, begins, name, word, depth):
        """Reads an argument with a simple format, from behind its type on."""
        self.skip_blanks()
        mark = self.next()
        if mark not in ",}":
            self.fail("ExpectedEnd")
        self.at += 1
        style = self.style() if mark == "," else None
        if SIZES in self.changes and max(units(word), units(style or "")) > LONGEST_WORD:
            self.fail("Unclosed", begins)
        self.add(depth, ("styled", name, word, style, self.text[begins : self.at - 1]))

    def style(self):
        """Reads a style, up to behind the brace that ends it."""
        begins, opened = self.at, 0
        while True:
            found = STYLE_PIECE.match(self.text, self.at)
            if not found:
                self.fail("Unclosed", len(self.text))
            self.at = found.end()
            if found.group() == "}" and not opened:
                return self.text[begins : self.at - 1]
            opened += {"{": 1, "}": -1}.get(found.group(), 0)

    def choice(self, kind, name, depth):
        """Reads an argument that chooses, from behind its type on."""
        self.skip_blanks()
        if self.next() != ",":
            self.fail("ExpectedStyle")
        self.at += 1
        self.add(depth, ("begin", kind, name, self.offset(kind)))
        self.branches(kind, depth)

    def offset(self, kind):
        if kind == "select":
            return None
        self.skip_blanks()
        if not self.text.startswith("offset:", self.at):
            return None
        self.at += len("offset:")
        self.skip_blanks()
        if NUMBERS in self.changes:
            return self.double("ExpectedOffset", LONGEST_WORD)
        at, number = self.at, self.take(DIGITS)
        if not number:
            self.fail("ExpectedOffset")
        self.check_length(number, at, LONGEST_WORD)
        return number

    # ---- branches

    def branches(self, kind, depth):
        has_other = False
        while True:
            self.skip_blanks()
            if self.next() == "}":
                break
            has_other = self.branch(kind, depth) or has_other
        if not has_other:
            self.fail("MissingOther")
        self.at += 1
        self.add(depth, END)

    def branch(self, kind, depth):
        """Reads a branch, and returns whether it is that of other."""
        selector = self.selector(kind)
        self.skip_blanks()
        if self.next() != "{":
            self.fail("ExpectedBranch")
        self.at += 1
        if depth >= DEPTH_LIMIT and DEEP not in self.changes:
            raise Fault("TooDeep", self.at)
        self.add(depth, selector)
        self.message(CONTEXTS[kind], depth + 1)
        return selector == ("keyword", "other")

    def selector(self, kind):
        if self.text[self.at] != "=" or kind == "select":
            return "keyword", self.keyword()
        self.at += 1
        if NUMBERS in self.changes:
            return "exactly", self.double("ExpectedValue", LONGEST_WORD - 1)
        at, number = self.at, self.take(NUMBER_RUN)
        if not NUMBER.fullmatch(number):
            self.fail("ExpectedValue", at)
        self.check_length(number, at, LONGEST_WORD - 1)
        return "exactly", number

    def keyword(self):
        at, word = self.at, self.take(self.name_form)
        if not word:
            self.fail("ExpectedSelector")
        if SIZES in self.changes and units(word) > LONGEST_WORD:
            self.fail("ExpectedSelector", at)
        return word

    def double(self, kind, most):
        """Reads a number in any form that C's strtod takes."""
        at, number = self.at, self.take(DOUBLE_RUN)
        if not DOUBLE.fullmatch(number):
            self.fail(kind, at)
        self.check_length(number, at, most)
        return number

    def check_length(self, number, at, most):
        """Fails if ICU4C's room for a number is too small: for one that it reads as an integer of 16 bits there is more."""
        if SIZES in self.changes and len(number) > LONGEST_DOUBLE:
            digits = number.lstrip("-+").lstrip("0")
            is_small = re.fullmatch("[0-9]{0,5}", digits) and int(digits or 0) <= LARGEST_ARGUMENT
            if len(number) > most or not is_small:
                self.fail("ExpectedValue", at)


def read(text, changes=(), styled=False):
    """Returns the parts of a pattern and None, or the parts before its first fault and this fault. styled: with simple formats."""
    reader = Reader(text, changes, styled)
    try:
        reader.message(WHOLE, 0)
    except Fault as fault:
        return reader.parts, fault
    return reader.parts, None


def joined(parts):
    """Returns parts in which no text follows another."""
    found = []
    for depth, piece in parts:
        if isinstance(piece, str) and found and isinstance(found[-1][1], str):
            found[-1] = (depth, found[-1][1] + piece)
        else:
            found.append((depth, piece))
    return found


# ---- the text of a pattern, in the one form that it is printed in


def printed_text(text, context):
    """Returns a whole text as it is written: quoted from the first character on that has to be, and each apostrophe twice."""
    marks = "{}#" if context == COUNTED else "{}"
    first = min((text.index(mark) for mark in marks if mark in text), default=len(text))
    bare, rest = (it.replace("'", "''") for it in (text[:first], text[first:]))
    return f"{bare}'{rest}'" if rest else bare


def printed(parts):
    """Returns the text that the parts of a pattern are printed as."""
    words = {kind: word for word, kind in TYPES.items()}
    found, kinds, before = [], [], ""
    for _, piece in joined(parts):
        word = "text" if isinstance(piece, str) else piece[0]
        ends_a_branch = "" if before == "begin" else "}"
        if word == "text":
            found.append(printed_text(piece, CONTEXTS[kinds[-1]] if kinds else WHOLE))
        elif word == "hash":
            found.append("#")
        elif word == "argument":
            found.append(f"{{{piece[1]}}}")
        elif word == "styled":
            found.append(f"{{{piece[4]}}}")
        elif word == "begin":
            _, kind, name, offset = piece
            kinds.append(kind)
            found.append(f"{{{name}, {words[kind]}," + ("" if offset is None else f" offset:{offset}"))
        elif word == "end":
            kinds.pop()
            found.append(ends_a_branch + "}")
        else:
            found.append(f"{ends_a_branch} {'=' if word == 'exactly' else ''}{piece[1]} {{")
        before = word
    return "".join(found)


# ---- as the rows of crates/tests_rows/data/patterns.rows have it


def quoted(text):
    escaped = text.replace("\\", "\\\\").replace('"', '\\"').replace("\n", "\\n")
    return f'"{escaped}"'


def piece_text(piece):
    if isinstance(piece, str):
        return quoted(piece)
    word = piece[0]
    if word == "begin":
        _, kind, name, offset = piece
        return f"{kind}({name})" + ("" if offset is None else f"-{offset}")
    if word == "styled":
        _, name, kind, style, _ = piece
        return f"{{{name}|{kind}" + ("" if style is None else f"|{quoted(style)}") + "}"
    return {"hash": "#", "end": "/", "argument": "{%s}", "exactly": "=%s", "keyword": "%s"}[word].replace("%s", "".join(piece[1:]))


def error_text(text, fault):
    return f"error Fault({fault.kind}, {len(text[: fault.at].encode())})"


def row_result(text, styled=False):
    """Returns what the row of a pattern wants."""
    parts, fault = read(text, styled=styled)
    if fault:
        return error_text(text, fault)
    return " ".join(f"{depth}:{piece_text(piece)}" for depth, piece in parts) or "none"


def printed_result(text, styled=False):
    """Returns what the row of a pattern that is printed wants."""
    parts, fault = read(text, styled=styled)
    return error_text(text, fault) if fault else quoted(printed(parts))


def unstyled_result(text):
    """Returns what the row of a pattern without its simple formats wants."""
    parts, fault = read(text, styled=True)
    if fault:
        return error_text(text, fault)
    plain = [(depth, ("argument", piece[1]) if not isinstance(piece, str) and piece[0] == "styled" else piece) for depth, piece in parts]
    return " ".join(f"{depth}:{piece_text(piece)}" for depth, piece in plain) or "none"
