"""Android's resources: files of `plurals`, and of patterns of ICU with plurals."""
import os
import re
from typing import NamedTuple
from xml.parsers import expat

from .lines import Fault, shown

CATEGORIES = ("zero", "one", "two", "few", "many", "other")
# Elements that Android skips wherever they stand.
SKIPPED = ("skip", "eat-comment")
# The head of a plural argument, as far as plural_forms decides whether it is one.
PATTERN = re.compile(r"\{[^{},]*,[^{},]*(?:plural|selectordinal)", re.IGNORECASE)
# The namespace of `tools:locale`.
TOOLS = "http://schemas.android.com/tools"


def android_text(text):
    """Returns the text that Android shows, and what is wrong with it: quotes and escapes are read, other white space is one space."""
    found, is_quoted, fault = [], False, None
    for part in re.findall(r'\\u[0-9A-Fa-f]{4}|\\.|"|\s+|[^\\"\s]+|\\', text.strip(), re.DOTALL):
        if part == '"':
            is_quoted = not is_quoted
        elif part == "\\":
            fault = "a \\ escapes nothing: write \\\\, or remove it"
        elif len(part) == 6 and part.startswith("\\u"):
            found.append(chr(int(part[2:], 16)))
        elif part.startswith("\\"):
            found.append({"n": "\n", "t": "\t"}.get(part[1], part[1]))
        else:
            found.append(" " if part.isspace() and not is_quoted else part)
    # Two escapes may be the halves of one character.
    joined = "".join(found).encode("utf-16-le", "surrogatepass").decode("utf-16-le", "surrogatepass")
    made = re.sub("[\ud800-\udfff]", "\ufffd", joined)
    return made, fault if made == joined else f"{shown(joined)} has a surrogate without its pair, which no text has: correct it"


class Item(NamedTuple):
    """An item of a `plurals`: its tag, its quantity, its text in parts, and its line."""

    tag: str
    quantity: str
    parts: list
    line: int


class Message:
    """A `plurals` or a `string`: its tag, its line, its name, the product that it is for, and its items; of a `string` it is one."""

    def __init__(self, tag, line, name, product):
        self.tag, self.line, self.name, self.product = tag, line, name, product
        self.items = [Item(tag, "", [], line)] if tag == "string" else []


class Refused(Exception):
    """A file isn't read any further."""


class Resources:
    """Reads the messages of an Android file, up to the fault of the file, if it has one: its line, or none, and what is wrong.

    A file with a document type, and so with entities of its own, is refused. The locale is that of `tools:locale`.
    """

    def __init__(self, data):
        self.found, self.fault, self.depth, self.root, self.locale, self.current = [], None, 0, None, None, None
        self.parser = expat.ParserCreate()
        self.parser.buffer_text = True
        self.parser.StartElementHandler, self.parser.EndElementHandler = self.start, self.end
        self.parser.CharacterDataHandler, self.parser.StartDoctypeDeclHandler = self.put, self.refuse
        try:
            self.parser.Parse(data, True)
        except expat.ExpatError as fault:
            self.fault = fault.lineno, f"it is no XML, {expat.ErrorString(fault.code)}: correct it there"
        except (ValueError, LookupError) as fault:
            self.fault = None, f"it is no XML that is read: {fault}"
        except Refused:
            pass

    def refuse(self, root, *_):
        self.root, self.fault = root, (self.parser.CurrentLineNumber, "it has a document type, which isn't read: remove it")
        raise Refused

    def start(self, tag, attributes):
        self.depth += 1
        if self.root is None:
            self.root, self.locale = tag, tools_locale(attributes)
        if self.current is None and tag in ("plurals", "string"):
            self.current = Message(tag, self.parser.CurrentLineNumber, attributes.get("name"), attributes.get("product"))
            self.inside = self.depth
        elif self.current is not None and self.current.tag == "plurals" and self.depth == self.inside + 1 and tag not in SKIPPED:
            quantity = attributes.get("quantity", "").strip(" \t\n\r")
            self.current.items.append(Item(tag, quantity, [], self.parser.CurrentLineNumber))

    def end(self, _):
        if self.current is not None and self.depth == self.inside:
            if self.current.tag == "plurals" or PATTERN.search("".join(self.current.items[0].parts)):
                self.found.append(self.current)
            self.current = None
        self.depth -= 1

    def put(self, text):
        if self.current is not None and self.current.items and (self.depth > self.inside or self.current.tag == "string"):
            self.current.items[-1].parts.append(text)


def is_near(name, known):
    """Tells whether a name is another one but for a letter too many, too few or changed, or two that are swapped."""
    if abs(len(name) - len(known)) > 1:
        return False
    front = len(os.path.commonprefix([name, known]))
    one, other = name[front:], known[front:]
    return other in (one, one[1:]) or one == other[1:] or one[1:] == other[1:] or (one[:2] == other[1::-1] and one[2:] == other[2:])


def fault_of_item(item, meant, items):
    """Returns what is wrong with an item, behind those that were taken; nothing, if it has the quantity that is meant as the first."""
    if item.tag != "item":
        return f"the tag is {shown(item.tag)}: write item"
    if not item.quantity:
        return "an item has no quantity: write one"
    if item.quantity not in CATEGORIES:
        return f"it has the item {shown(item.quantity)}, which is no form: write {meant or 'one of ' + ', '.join(CATEGORIES)}"
    return f"{item.quantity} stands twice: remove one of them" if item.quantity in items else None


def items_of_plurals(plurals, key):
    """Returns the items of a plurals by quantity, and the faults of others, each with its line.

    Of two of a quantity it is the first. A misspelt quantity stands for the one that is meant, if no other item has that.
    """
    items, faults = {}, []
    for it in sorted(plurals.items, key=lambda it: it.quantity not in CATEGORIES):
        near = (known for known in CATEGORIES if known not in items and is_near(it.quantity.lower(), known))
        meant = it.quantity if it.quantity in CATEGORIES else next(near, None)
        fault = fault_of_item(it, meant, items)
        if fault:
            faults.append(Fault(f"{key}: {fault}", it.line))
        if meant:
            items.setdefault(meant, it)
    return items, faults


def texts_of_items(items, key):
    """Returns the texts of items by quantity, with their lines, and the faults of texts; nothing of each, if all are of other resources.

    In place of a text of another resource, of which nothing can be told, stands the one with the most arguments.
    """
    texts, faults = {}, []
    for name, it in items.items():
        raw = "".join(it.parts)
        if is_reference(raw):
            continue
        texts[name], fault = android_text(raw)
        if fault:
            faults.append(Fault(f"{key}, {name}: {fault}", it.line))
    known = [it for it in reversed(CATEGORIES) if it in texts]
    most = max(known, key=lambda it: texts[it].replace("%%", "").count("%"), default=None)
    return {name: {"line": it.line, "text": texts.get(name, texts[most])} for name, it in items.items() if known}, faults


def is_reference(raw):
    """Tells whether a text, as it is written, is that of another resource: `\\@` and `\\?` begin none."""
    return bool(re.match("[@?][^ ]*/", raw.strip()))


def key_of(plurals, more):
    """Returns the key of a message: what is for some devices, networks or products alone has their qualifiers in it."""
    if not plurals.name:
        raise Fault(f"a {plurals.tag} has no name: give it one")
    more = ", ".join(it for it in (more, plurals.product) if it)
    return plurals.name + (f" ({more})" if more else "")


# A folder of resources: the network's country and operator, the language, and the rest, as values-mcc310-mnc004-de-rAT-land. `car` is a
# device.
NETWORK, LANGUAGE = r"(?:-mcc[0-9]{3})?(?:-mnc[0-9]{1,3})?", r"b\+([A-Z0-9+]+)|(?!car\b)([A-Z]{2,3})(?:-r([A-Z]{2}|[0-9]{3}))?"
FOLDER = re.compile(rf"values({NETWORK})(?:-(?:{LANGUAGE}))?((?:-.*)?)", re.IGNORECASE | re.ASCII)


def locale_of(tag, language, region):
    """Returns the locale of a qualifier's parts, none if there are none."""
    if tag:
        return tag.replace("+", "-")
    return language and "-".join(it for it in (language.lower(), (region or "").upper()) if it)


def locale_of_folder(path):
    """Returns the locale that a folder of resources names, and the further qualifiers; none or empty ones if there are none."""
    folder = FOLDER.fullmatch(os.path.basename(os.path.dirname(os.path.abspath(path))))
    return (locale_of(*folder.group(2, 3, 4)), (folder[1] + folder[5])[1:]) if folder else (None, None)


def tools_locale(attributes):
    """Returns the locale that `tools:locale` of `resources` names, as a qualifier of a folder, pt-rBR, or pt-BR; none if it isn't there."""
    prefix = next((name[6:] for name, value in attributes.items() if name.startswith("xmlns:") and value == TOOLS), None)
    named = attributes.get(f"{prefix}:locale", "")
    qualifier = re.fullmatch(LANGUAGE, named, re.IGNORECASE | re.ASCII)
    return locale_of(*qualifier.groups()) if qualifier else named
