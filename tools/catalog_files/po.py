"""gettext's catalogs, .po, by their lines alone: each text stays as it is written. A line has its place, from 0 on."""
import codecs
import gettext
import re
from pathlib import Path
from typing import NamedTuple

# The numbers by whose forms those of two rules are compared: 1000000 is many in French.
TRIED = (*range(200), 1_000_000)


class Form(NamedTuple):
    """A form of a message: its index, its lines, and its text."""

    index: int
    lines: range
    text: str


class Message(NamedTuple):
    """A message with plural forms: the lines of its entry, its flags, its id, plural id and forms."""

    lines: range
    flags: frozenset
    singular: str
    plural: str
    forms: list

    @property
    def is_whole(self):
        return "fuzzy" not in self.flags and all(it.text for it in self.forms)


def quoted(lines):
    return "".join(it for line in lines if not line.startswith("#") for it in re.findall(r'"((?:[^"\\]|\\.)*)"', line))


def entries_of(lines):
    """Yields the lines of each entry, its comments among them: the next one begins behind its last text."""
    start, has_text = 0, False
    for at, line in enumerate([*lines, "#"]):
        if has_text and re.match(r"#|msgctxt|msgid\s", line):
            yield range(start, at)
            start, has_text = at, False
        has_text |= line.startswith("msgstr")


def message_of(lines, entry):
    """Returns the message of an entry; none if it has no plural forms, or a field twice."""
    starts = [at for at in entry if lines[at].startswith("msg")]
    fields = {re.match(r"msg\w*(\[\d+\])?", lines[at])[0]: range(at, end) for at, end in zip(starts, [*starts[1:], entry.stop])}
    if not {"msgid", "msgid_plural", "msgstr[0]"} <= set(fields) or len(fields) < len(starts):
        return None
    texts = {name: quoted(lines[own.start : own.stop]) for name, own in fields.items()}
    flags = (it.strip() for at in entry if lines[at].startswith("#,") for it in lines[at][2:].split(","))
    forms = [Form(int(name[7:-1]), own, texts[name]) for name, own in fields.items() if name.startswith("msgstr[")]
    return Message(range(starts[0], entry.stop), frozenset(flags), texts["msgid"], texts["msgid_plural"], forms)


class Catalog:
    """A catalog: its file, its lines, and its messages with plural forms. Bytes that are no UTF-8 stay what they are."""

    def __init__(self, file):
        self.file = Path(file)
        self.lines = self.file.read_bytes().decode("utf-8", "surrogateescape").split("\n")
        self.entries = list(entries_of(self.lines))
        self.messages = [it for it in (message_of(self.lines, entry) for entry in self.entries) if it]

    def message_at(self, line):
        """Returns the message in whose entry a line is, counted from 1 on; none if there is none."""
        return next((it for it in self.messages if line and line - 1 in it.lines), None)

    def field(self, name):
        """Returns a field of the header, and nothing if there is none."""
        header = next((quoted(self.lines[it.start : it.stop]) for it in self.entries), "")
        found = re.search(rf"(?:^|\\n){name}:\s*(.*?)\s*(?:\\n|$)", header, re.IGNORECASE)
        return found[1] if found else ""

    @property
    def locale(self):
        return self.field("Language").replace("_", "-")

    @property
    def charset(self):
        """Returns the charset of the file, and UTF-8 if it names none that is known."""
        named = self.field("Content-Type").rpartition("charset=")[2]
        try:
            return codecs.lookup(named).name
        except LookupError:
            return "utf-8"

    def indices(self, categories):
        """Returns the index of each category, by those of the numbers that are tried; none if the two don't tell the same numbers apart."""
        found = re.match(r"nplurals *= *(\d+) *; *plural *= *([^;]*)", self.field("Plural-Forms"))
        try:
            index_of = gettext.c2py(found[2].strip()) if found and categories else None
        except ValueError:
            return None
        pairs = {(it, index_of(number)) for number, it in zip(TRIED, categories)} if index_of else set()
        indices = dict(pairs)
        return indices if len(indices) == len(pairs) and 1 < len(set(indices.values())) == int(found[1]) else None
