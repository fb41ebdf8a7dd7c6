"""What calls of the installed library cost by sizes that double: bench/run --growth."""
import json

GREATEST_RATIO = 2.3
DOUBLINGS = 5
FLOOR = 3000  # instructions that are no growth: what a call costs by itself

# ---- inputs: for each row the greatest size, the call of bench/growth.cpp, and the input of a size


def joined(piece, separator):
    return lambda size: separator.join([piece] * size)


def locales(part, texts):
    return lambda size: json.dumps({part: {f"a{it}": texts for it in range(size)}})


def repeated(piece):
    return lambda size: (piece * (size // len(piece) + 1))[:size]


def joined_within(piece, front, end):
    return lambda size: front + piece * ((size - len(front) - len(end)) // len(piece)) + end


ONE = {"one": "i = 1 and v = 0 @integer 1"}
RANGES = {"ranges": {"one-other": "other", "other-one": "one"}}
PLACES, RELATIONS, LOCALES, BYTES = 32767, 100000, 10000, 4194304
ROWS = {
    "digits before the point": (PLACES, "category", lambda size: "9" * size),
    "digits behind the point": (PLACES, "category", lambda size: "0." + "9" * size),
    "zeros behind the point": (PLACES, "category", lambda size: "1." + "0" * size),
    "digits on both sides": (PLACES, "category", lambda size: "9" * size + "." + "9" * size),
    "relations": (RELATIONS, "rules", joined("n != 9", " and ")),
    "groups": (RELATIONS, "rules", joined("n = 9", " or ")),
    "values": (RELATIONS, "rules", lambda size: "n = " + joined("9", ",")(size)),
    "ranges of values": (RELATIONS, "rules", lambda size: "n = " + joined("7..9", ",")(size)),
    "samples": (RELATIONS, "rules", lambda size: "n = 1 @integer " + joined("1~9", ", ")(size)),
    "text that isn't read": (RELATIONS, "rules", lambda size: "n = 1 " + "x = 1 " * size),
    "relations, asked whether they are read whole": (RELATIONS, "is_read_whole", joined("n != 9", " and ")),
    "locales": (LOCALES, "document", locales("cardinal", ONE)),
    "locales of the other type": (LOCALES, "document", locales("ordinal", ONE)),
    "locales of ranges": (LOCALES, "ranges", locales("ranges", RANGES)),
    "elements of a text": (BYTES, "elements", repeated("x")),
    "elements of JSON": (BYTES, "json", lambda size: '{"other":[0,"' + "x" * size + '"]}'),
    "elements of JSON with escapes": (BYTES, "json", lambda size: '{"other":[0,"' + "\\u00e9" * (size // 6) + '"]}'),
    "a message of text": (BYTES, "message", repeated("text, ")),
    "a message of numbers": (BYTES, "message", repeated("{} ")),
    "a message of opening braces": (BYTES, "message", repeated("{")),
    "a pattern of text": (BYTES, "pattern", repeated("text, ")),
    "a pattern of arguments": (BYTES, "pattern", joined_within("{n}", "", "")),
    "a pattern of plurals": (BYTES, "pattern", joined_within("{n,plural,one{}other{#}}", "", "")),
    "a pattern of differences": (BYTES, "pattern", joined_within("{n,plural,offset:1 one{#}other{}}", "", "")),
    "a pattern of one plural's numbers": (BYTES, "pattern", joined_within("=3{}", "{n,plural,", "other{}}")),
    "a pattern in 32 branches": (BYTES, "pattern", joined_within("''", "{n,plural,other{" * 32, "}}" * 32)),
}


def sizes(most):
    return [most >> it for it in reversed(range(DOUBLINGS))]


def write_inputs(folder):
    """Writes the inputs and the file that names them, and returns its path."""
    lines = []
    for row, (most, call, text) in ROWS.items():
        for size in sizes(most):
            path = folder / f"input{len(lines)}"
            path.write_text(text(size), encoding="utf-8")
            lines.append(f"{row}\t{size}\t{call}\t{path}\n")
    found = folder / "inputs"
    found.write_text("".join(lines), encoding="utf-8")
    return found


# ---- what they cost


def is_too_fast(row, costs, say):
    """Says what a call costs by sizes; returns whether a doubling costs too much."""
    before, is_wrong = None, False
    for size, cost in costs:
        ratio = max(cost - FLOOR, 0) / max(before, FLOOR) if before else 0
        is_wrong = is_wrong or ratio > GREATEST_RATIO
        say(f"{row}: {size}: {cost:,}" + (f" {ratio:.2f}" if before else "") + (" TOO MUCH" if ratio > GREATEST_RATIO else ""))
        before = cost
    return is_wrong


def judge(found, say):
    """Says the instructions of all calls, by row and size; returns how many grow too fast."""
    wrong = [row for row, (most, _, _) in ROWS.items() if is_too_fast(row, [(it, found[row, str(it)]) for it in sizes(most)], say)]
    for row in wrong:
        say(f"too fast: {row}")
    say(f"{len(ROWS)} calls, {len(wrong)} grow too fast")
    return len(wrong)
