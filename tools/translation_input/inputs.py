"""What plural_forms reads of files that it doesn't read itself: a JSON text of an Android file, and of a catalog in another charset."""
import codecs
import json
import re

from .android import Resources, android_text, items_of_plurals, key_of, locale_of_folder, texts_of_items
from .lines import Fault, shown

# The charsets other than UTF-8 that a catalog can have: those in which ASCII's bytes are ASCII's characters, or nearly.
CHARSET = r"ascii|iso8859-[0-9]+|cp(874|932|949|950|125[0-8])|koi8-[rtu]|tis-620|euc_(jp|kr)|big5(hkscs)?|gb2312|gbk|gb18030|shift_jis|johab"
# The charset of a gettext file, as its header names it.
NAMED = re.compile(rb"(Content-Type:[^\"\n]{0,99}charset=)([^\s\\\"]{1,60})")
# How many bytes plural_forms reads of a file.
MOST = 4194304
WIDE = (codecs.BOM_UTF16_LE, codecs.BOM_UTF16_BE)
# How many faults of the items of a `plurals` are told one by one.
MOST_TOLD = 10


def data_of_file(path):
    try:
        with open(path, "rb") as file:
            return file.read()
    except (OSError, ValueError) as fault:
        raise Fault(f"{path}: it can't be read: {getattr(fault, 'strerror', None) or fault}") from None


def notice(line, code, text, severity="error", left_out=0):
    """Returns what is told of a file, or of a message that is left out."""
    return {"line": line, "severity": severity, "code": code, "text": text, **({"left_out": left_out} if left_out else {})}


def json_text(told):
    """Returns a JSON text; if that is too long to be read, one that tells so."""
    text = json.dumps(told, ensure_ascii=False, separators=(",", ":")).encode("utf-8", "backslashreplace") + b"\n"
    if len(text) <= MOST:
        return text
    long = notice(None, "not-read", f"it makes more than {MOST} bytes of JSON: split it")
    return json_text({"@@file": told["@@file"], "messages": [], "notices": [long]})


def told_pattern(string, key):
    """Returns the message of a string that is a pattern, and what is wrong with it."""
    text, fault = android_text("".join(string.items[0].parts))
    message = {"key": key, "line": string.line, "type": "patterns", "text": text}
    return message, [notice(string.line, "syntax", f"{shown(key)}: {fault}")] if fault else []


def told_plurals(plurals, more):
    """Returns a message, none if it can't be read or each text is that of another resource; and what is wrong with it."""
    try:
        key = key_of(plurals, more)
    except Fault as fault:
        return None, [notice(plurals.line, "syntax", str(fault), left_out=1)]
    if plurals.tag == "string":
        return told_pattern(plurals, key)
    items, faults = items_of_plurals(plurals, shown(key))
    forms, wrong = texts_of_items(items, shown(key))
    faults = sorted(faults + wrong, key=lambda it: it.line)
    notices = [notice(it.line, "syntax", str(it)) for it in faults[:MOST_TOLD]]
    if len(faults) > MOST_TOLD:
        notices.append(notice(plurals.line, "syntax", f"{shown(key)}: further items that are wrong: {len(faults) - MOST_TOLD}"))
    if items and not forms:
        return None, [*notices, notice(plurals.line, "left-out", f"{shown(key)} refers to another resource: left out", "note", 1)]
    return {"key": key, "line": plurals.line, "type": "cardinal", "forms": forms}, notices


def told_android(data, path):
    """Returns the JSON text that tells the messages of an Android file, with their lines, and what is wrong with it."""
    resources = Resources(data)
    locale, more = locale_of_folder(path)
    locale = locale or resources.locale
    told = [told_plurals(it, more) for it in resources.found]
    notices = [it for _, its in told for it in its]
    if resources.root not in (None, "resources"):
        told, notices = [], [notice(None, "not-read", "it is no file of messages: name a file of gettext, Android, i18next or ARB")]
    elif resources.fault:
        notices.insert(0, notice(resources.fault[0], "syntax", resources.fault[1]))
    messages = [message for message, _ in told if message]
    return json_text({"@@file": path, **({"@@locale": locale} if locale else {}), "messages": messages, "notices": notices})


def codec_of(data):
    """Returns the codec of a gettext file in another charset than UTF-8, and none for all others."""
    named = NAMED.search(data)
    try:
        codec = codecs.lookup(named[2].decode("ascii", "replace")).name if named else ""
    except (LookupError, ValueError):
        return None
    return codec if re.fullmatch(CHARSET, codec) else None


def in_utf8(data):
    """Returns a text in UTF-8, line by line, and its header with that charset. What can't be read stays as it is."""
    codec = "utf-16" if data.startswith(WIDE) else codec_of(data)
    if codec is None:
        return data
    try:
        text = data.decode(codec).encode("utf-8")
    except UnicodeError:
        return data
    return NAMED.sub(rb"\1UTF-8", text, count=1)


def told_catalog(text, path):
    """Returns the JSON text that tells a gettext file in UTF-8, under its name."""
    return json_text({"@@file": path, "catalog": text.decode("utf-8", "replace")})


def told_file(data, path):
    """Returns the JSON text that tells a file which plural_forms doesn't read; none of a file that it reads, and of JSON."""
    text = in_utf8(data)
    first = (text if data.startswith(WIDE) else data.removeprefix(codecs.BOM_UTF8)).lstrip()[:1]
    if first == b"<":
        return told_android(data, path)
    return None if text is data or first == b"{" else told_catalog(text, path)


def input_of(data, path):
    """Returns what plural_forms reads of the bytes of a file: the same bytes, where it reads these."""
    return told_file(data, path) or (in_utf8(data) if data.startswith(WIDE) else data)
