"""The program `tests_rows` (crates/tests_rows), which says of rows which of them the library answers otherwise."""
import re
import subprocess
import tempfile
from pathlib import Path

from library import TOP, Missing

CRATE = TOP / "crates/tests_rows"
BUILT = CRATE / "out/tests_rows"
ROWS_OF_A_FILE = 20000
SECONDS = "600"
WRONG = re.compile(r"(\S+):([0-9]+): (.*)", re.S)
LAST = re.compile(r"^rows: ([0-9]+), wrong: ([0-9]+)$", re.M)
# What is shown may have line ends: a line of the program begins so.
LINES = re.compile(r"\n(?=\S+:[0-9]+: |\w+: [0-9]+\n|rows: )")


def has_kind(kind):
    """Returns whether the program has rows of a kind."""
    return any(f'"{kind}"' in it.read_text(encoding="utf-8") for it in (CRATE / "src/kinds").rglob("*.rt"))


def row(kind, arguments, wanted):
    """Returns the line of a row; the arguments are a text of JSON."""
    return " ".join((kind, arguments.replace(" => ", " =\\u003e "), "=>", wanted)) + "\n"


def wrong_lines(count, printed):
    """Returns what the program says of each line that isn't as wanted, by its number."""
    end = LAST.search(printed)
    if not end or int(end[1]) != count:
        raise Missing(f"the program `tests_rows` hasn't read all {count} rows: {printed[-200:]!r}")
    found = {int(it[2]): it[3] for it in map(WRONG.fullmatch, LINES.split("\n" + printed[: end.start()])) if it}
    for said in found.values():
        if said.startswith("fault: "):
            raise Missing(f"the program `tests_rows` takes no such row: {said}")
    if len(found) != int(end[2]):
        raise Missing(f"the program `tests_rows` says that {end[2]} rows are wrong, and shows {len(found)}")
    return found


class Run:
    """Rows for one run of the program: of this one, of the built one, or of one that `rt try` compiles."""

    def __init__(self, program=None):
        self.program = program or (BUILT if BUILT.is_file() else None)
        if self.program and not self.program.is_file():
            raise Missing(f"there is no program {self.program}")
        self.folder = tempfile.TemporaryDirectory()
        self.room = Path(self.folder.name) / "rows"
        self.room.mkdir()
        self.counts = []

    def add(self, rows):
        for first in range(0, len(rows), ROWS_OF_A_FILE):
            some = rows[first : first + ROWS_OF_A_FILE]
            (self.room / f"{len(self.counts):06}.rows").write_text("".join(some), encoding="utf-8", newline="")
            self.counts.append(len(some))

    def wrong_rows(self):
        """Returns what is said of each row that isn't as wanted, by its number from 0 on."""
        found, before = {}, 0
        with self.folder:
            for count, printed in zip(self.counts, self.by_program() if self.program else self.by_try()):
                found.update({before + number - 1: said for number, said in wrong_lines(count, printed).items()})
                before += count
        return found

    def by_program(self):
        for path in sorted(self.room.iterdir()):
            with open(path, "rb") as rows:
                ran = subprocess.run([self.program.resolve()], stdin=rows, stdout=subprocess.PIPE, check=False)
            if ran.returncode not in (0, 1):
                raise Missing(f"the program `tests_rows` ends with status {ran.returncode}")
            yield ran.stdout.decode()

    def by_try(self):
        words = ["rt", "try", "--steps", "1", "--seconds", SECONDS, "--cases", self.room]
        try:
            ran = subprocess.run(words, cwd=CRATE, stdin=subprocess.DEVNULL, stdout=subprocess.PIPE, stderr=subprocess.PIPE, check=False)
        except FileNotFoundError:
            raise Missing("the program `tests_rows` isn't built, and the command rt is not on the PATH: give the program by --cases") from None
        pieces = re.split(r"^== ([0-9]+)\.rows\n", ran.stdout.decode(), flags=re.M)[2::2]
        if len(pieces) != len(self.counts):
            said = ran.stderr.decode(errors="replace").strip().split("\n")[-1]
            raise Missing(f"`rt try` has run {len(pieces)} of {len(self.counts)} files of rows: {said}")
        return pieces
