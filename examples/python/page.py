"""Says a page of ten Russian messages from the catalogue in a file."""

import sys
from pathlib import Path

import plurals

PAGE: list[tuple[str, dict[str, plurals.Number]]] = [
    ("title", {}),
    ("greeting", {"name": "Анна"}),
    ("cart", {"n": 21}),
    ("weight", {"n": 1.5}),
    ("days", {"n": 3}),
    ("discount", {"percent": 10}),
    ("guests", {"n": 6}),
    ("sent", {"who": "female", "n": 2}),
    ("place", {"n": 3}),
    ("footer", {}),
]

if __name__ == "__main__":
    catalog = plurals.Catalog(Path(sys.argv[1]).read_bytes())
    cardinal, ordinal = plurals.Rules.of_locale("ru"), plurals.Rules.of_locale("ru", ordinal=True)
    for key, arguments in PAGE:
        print(catalog.say(key, cardinal, ordinal, **arguments))
