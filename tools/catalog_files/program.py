"""plural_forms check, and msgfmt -c, run on files."""
import json
import re
import subprocess
import sys
from collections import Counter
from pathlib import Path
from typing import NamedTuple

from .po import TRIED

TOP = Path(__file__).resolve().parent.parent.parent


class Finding(NamedTuple):
    """What is told of a line: by whose code, whether of the file (`file`) or of a message, as a fault or a note, and the text."""

    file: str
    line: int
    group: str
    code: str
    text: str
    message: str
    form: str


class Broken(Exception):
    """What a program did that it never may."""


def ran(*words, **how):
    words = [str(it) for it in words]
    return subprocess.run(words, capture_output=True, check=False, stdin=subprocess.DEVNULL, env={"LC_ALL": "C", "PATH": "/usr/bin:/bin"}, **how)


def add_options(parser):
    parser.add_argument("--program", type=Path, default=TOP / "crates/program_forms/out/program_forms")
    parser.add_argument("--rules", type=Path, default=TOP / "crates/program_forms/data/cldr.json")
    parser.add_argument("--seed", type=int, default=1)


class Program:
    """plural_forms, and what its rules say."""

    def __init__(self, options):
        self.words, self.rules, self.known = [options.program.resolve()], ("--rules", options.rules.resolve()), {}

    def findings(self, *files):
        """Returns what is found in files, and the counts of the last line."""
        how = [sys.executable, TOP / "tools/translation-input", "--run", *self.words, "check", *self.rules, "--format", "json", "--lines", *files]
        done = ran(*how)
        said, printed = done.stderr.decode(errors="replace"), done.stdout.decode(errors="replace")
        if done.returncode not in (0, 1) or "Traceback" in said or not printed.endswith("}\n"):
            raise Broken(f"{files[0]}: status {done.returncode}: {said[-1000:]}")
        *lines, last = map(json.loads, printed.splitlines())
        return list(map(finding_of, lines)), Counter(last["counts"])

    def categories(self, locale):
        """Returns the category of each of the numbers that are tried; none if the language isn't known."""
        if locale not in self.known:
            done = ran(*self.words, "category", locale, *self.rules, *TRIED) if re.fullmatch(r"[\w-]+", locale) else None
            self.known[locale] = [it.split()[-1] for it in done.stdout.decode().splitlines()] if done and done.returncode == 0 else None
        return self.known[locale]

    def indices(self, catalog):
        """Returns the index of each category of a catalog's language; none if the two don't tell the same numbers apart."""
        indices = catalog.indices(self.categories(catalog.locale))
        if indices is None:
            return None
        names = [it.partition(":")[0] for it in ran(*self.words, "list", catalog.locale, *self.rules).stdout.decode().splitlines()[1:]]
        # A category without whole numbers, as Russian's other, has the last form.
        return {**dict.fromkeys(names, max(indices.values())), **indices}


def finding_of(found):
    place = found.get("place") or {}
    group = "note" if found["severity"] == "note" else "fault" if place else "file"
    return Finding(found["file"], found.get("line") or 0, group, found["cause"]["code"], found["text"], place.get("message", ""), place.get("form", ""))


def lines_of_msgfmt(file):
    """Returns the faults that msgfmt -c finds in a catalog, each with its line, and whether it refuses the catalog."""
    done = ran("msgfmt", "-c", "-o", "/dev/null", file)
    found = re.findall(r"^.*?:(\d+): (.*)", done.stderr.decode(errors="replace"), re.MULTILINE)
    return [(int(line), text) for line, text in found if "warning: " not in text], done.returncode != 0
