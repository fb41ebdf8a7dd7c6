"""A run of plural_forms on files of any kind, and its lines on a terminal."""
import os
import re
import signal
import subprocess
import sys
import tempfile
import threading
from pathlib import Path

from .inputs import data_of_file, told_file
from .lines import Fault, say, write

# The seconds after which a run says that it goes on.
QUIET = 1
# What a line says of its finding, behind the file and the line, and its colours: red, yellow.
SAID = re.compile(rb"(: )(error|note)( \[[a-z-]+\] )")
COLOURS = {b"error": b"31", b"note": b"33"}
# The options of a check behind which a word stands that is no file to check.
VALUED = ("--rules", "--format", "--locale", "--ignore")


def count_before(words):
    """Returns how many words stand before the files of a check: the command, and options with what they need."""
    count = 1
    while count < len(words) and words[count].startswith("--"):
        count += 2 if words[count] in VALUED else 1
    return count


def given(word, folder, number):
    """Returns a file's name, or, if the program doesn't read the file, the name of what is made of it in the folder."""
    if word == "-" or not os.path.isfile(word):
        return word
    try:
        word.encode()
        made = told_file(data_of_file(word), word)
    except (Fault, UnicodeEncodeError):
        return word
    if made is None:
        return word
    file = Path(folder) / str(number)
    file.write_bytes(made)
    return str(file)


def coloured(line):
    return SAID.sub(lambda it: b"%b\x1b[%bm%b\x1b[0m%b" % (it[1], COLOURS[it[2]], it[2], it[3]), line, count=1)


def ran(program, words):
    """Runs the program with these words, and returns its status."""
    is_coloured = os.isatty(1) and not os.environ.get("NO_COLOR")
    progress = threading.Timer(QUIET, lambda: print("plural_forms: checking ..", end="\r", file=sys.stderr, flush=True))
    if os.isatty(2):
        progress.start()
    try:
        done = subprocess.run([program, *words], stdout=subprocess.PIPE if is_coloured else None, check=False)
    finally:
        progress.cancel()
        if os.isatty(2):
            print("\x1b[K", end="", file=sys.stderr, flush=True)
    if is_coloured:
        write(1, b"".join(map(coloured, done.stdout.splitlines(keepends=True))))
    return done.returncode if done.returncode >= 0 else 128 - done.returncode


def run(program, words):
    """Runs the program on files of any kind, and returns its status; 2 if it can't be run, and 130 after an interrupt."""
    try:
        signal.signal(signal.SIGINT, signal.default_int_handler)
        with tempfile.TemporaryDirectory(prefix="translation-input-") as folder:
            first = count_before(words)
            return ran(program, [*words[:first], *(given(word, folder, number) for number, word in enumerate(words[first:]))])
    except OSError as fault:
        say(f"plural_forms: {fault.strerror}" + (f": {fault.filename}" if fault.filename else ""))
        return 2
    except KeyboardInterrupt:
        return 130
