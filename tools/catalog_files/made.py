"""Files of ARB, i18next and Android that say the same as messages of a catalog, and where each form stands in them."""
import json
import re
from typing import NamedTuple

CATEGORIES = ("zero", "one", "two", "few", "many", "other")
# A text with the number at most once, in which nothing else is an argument or a sign of one of the files.
PLAIN = re.compile(r"[^%{}'#<>&\\|@\"]*(?:%d[^%{}'#<>&\\|@\"]*)?")


class Made(NamedTuple):
    """A file: its name, its lines, and the places of forms by the message's number and the category, and of messages by the number alone."""

    name: str
    lines: list
    places: dict

    def write(self, folder):
        """Writes the file, and returns its path."""
        file = folder / self.name
        file.parent.mkdir(parents=True, exist_ok=True)
        file.write_text("\n".join(self.lines), encoding="utf-8", errors="surrogateescape")
        return file


def is_plain(message):
    """Tells whether a message says the same in each kind of file: where no form has the number, these lack it in the source, too."""
    texts = [message.singular, message.plural, *(it.text for it in message.forms)]
    has_number = "%d" in message.plural and any("%d" in it.text for it in message.forms)
    return bool(message.flags & {"c-format", "python-format"}) and message.is_whole and has_number and all(map(PLAIN.fullmatch, texts))


def texts_by_category(message, indices):
    texts = {it.index: it.text for it in message.forms}
    return {it: texts[indices[it]] for it in CATEGORIES if it in indices}


def json_lines(rows):
    inner = [f"  {json.dumps(key)}: {json.dumps(text, ensure_ascii=False)}{',' * (at < len(rows))}" for at, (key, text) in enumerate(rows, 1)]
    return ["{", *inner, "}", ""]


def arb(locale, messages):
    rows, places = [("@@locale", locale)], {}
    for number, texts in enumerate(messages):
        places[number,] = len(rows) + 1
        places.update(((number, it), len(rows) + 1) for it in texts)
        branches = " ".join(f"{it} {{{text.replace('%d', '#')}}}" for it, text in texts.items())
        rows.append((f"key{number}", f"{{n, plural, {branches}}}"))
    return Made(f"app_{locale}.arb", json_lines(rows), places)


def i18next(locale, messages):
    rows, places = [], {}
    for number, texts in enumerate(messages):
        places[number,] = len(rows) + 1
        for it, text in texts.items():
            places[number, it] = len(rows) + 1
            rows.append((f"key{number}_{it}", text.replace("%d", "{{count}}")))
    return Made(f"{locale}.json", json_lines(rows), places)


def android(locale, messages):
    lines, places = ['<?xml version="1.0" encoding="utf-8"?>', "<resources>"], {}
    for number, texts in enumerate(messages):
        places[number,] = len(lines)
        lines.append(f'  <plurals name="key{number}">')
        for it, text in texts.items():
            places[number, it] = len(lines)
            lines.append(f'    <item quantity="{it}">{text}</item>')
        lines.append("  </plurals>")
    return Made(f"values-b+{locale.replace('-', '+')}/strings.xml", [*lines, "</resources>", ""], places)


KINDS = {"arb": arb, "i18next": i18next, "android": android}


def made_of(kind, locale, messages, indices):
    """Returns a file of a kind that says what plain messages of a catalog say, under the keys key0, key1, .."""
    return KINDS[kind](locale, [texts_by_category(it, indices) for it in messages])
