"""Random rules and numbers, in the grammar that the library and ICU4C share."""
from exact import Relation
from library import RULES

OPERANDS = "nivftce"  # ICU4C knows no w
LARGEST = 2**31 - 1  # ICU4C's values are integers of 32 bits
SAMPLES = ("", "", "", " @integer 1, 2~5, 100, …", " @decimal 0.0~1.5, 10.0", " @integer 1c6, … @decimal 1.1c6, 1.0")


# ---- rules


def value(random):
    kind = random.randrange(10)
    if kind < 6:
        return random.randrange(13)
    if kind < 8:
        return random.randrange(101)
    return min(10 ** random.randrange(10) + random.randrange(-1, 2), LARGEST) if kind < 9 else random.randrange(LARGEST + 1)


def value_range(random):
    low = value(random)
    if random.random() < 0.6:
        return low, low
    return low, max(low, min(low + value(random), LARGEST))


def relation(random):
    operand = random.choice("nnniii" + OPERANDS)
    modulus = random.choice((None, None, 2, 3, 7, 10, 10, 100, 1000, 1_000_000, random.randrange(1, LARGEST + 1)))
    ranges = tuple(value_range(random) for _ in range(random.choice((1, 1, 1, 2, 3))))
    return Relation(operand, modulus, random.random() < 0.3, ranges)


def condition(random):
    return [[relation(random) for _ in range(random.choice((1, 1, 2, 3)))] for _ in range(random.choice((1, 1, 2, 3)))]


def five(random):
    """Returns one to five conditions by category."""
    count = random.choice((1, 2, 2, 3, 4, 5))
    chosen = set(random.sample(RULES, count))
    return {it: condition(random) for it in RULES if it in chosen}


# ---- their texts


def range_text(ends):
    low, high = ends
    return str(low) if low == high else f"{low}..{high}"


def relation_text(it, blank=" "):
    modulus = "" if it.modulus is None else f"{blank}%{blank}{it.modulus}"
    ranges = f",{blank}".join(map(range_text, it.ranges))
    return f"{it.operand}{modulus}{blank}{'!=' if it.is_negated else '='}{blank}{ranges}"


def condition_text(groups, blank=" "):
    return " or ".join(" and ".join(relation_text(it, blank) for it in group) for group in groups)


def texts(random, rules):
    return {name: condition_text(it, random.choice((" ", " ", "", "  "))) + random.choice(SAMPLES) for name, it in rules.items()}


# ---- numbers


def digits(random, count):
    return "".join(random.choice("0123456789") for _ in range(count))


def whole(random):
    kind = random.randrange(10)
    if kind < 5:
        return str(random.randrange(201))
    if kind < 7:
        return str(random.randrange(10 ** random.randrange(1, 16)))
    if kind < 9:
        return str(max(10 ** random.randrange(26) + random.randrange(-1, 13), 0))
    return str(random.randrange(1, 10)) + digits(random, random.randrange(30))


def fraction(random):
    kind = random.randrange(10)
    if kind < 6:
        return ""
    if kind < 9:
        return digits(random, random.randrange(1, 5)) + "0" * random.choice((0, 0, 1, 2))
    return random.choice(("0" * random.randrange(30), "")) + digits(random, random.randrange(1, 30))


def plain(random):
    written = random.choice(("", "", "", "0", "00")) + whole(random)
    after = fraction(random)
    return random.choice(("", "", "", "", "-")) + written + (f".{after}" if after else "")


def compact(random):
    """Returns a number with an exponent, as scientific or engineering notation shows it."""
    is_scientific = random.random() < 0.5
    places = 1 if is_scientific else random.randrange(2, 4)
    exponent = random.randrange(1, 22) if is_scientific else 3 * random.randrange(1, 7)
    after = random.choice(("", "", digits(random, random.randrange(1, 9)), "0" * random.randrange(1, 4)))
    return str(random.randrange(1, 10)) + digits(random, places - 1) + (f".{after}" if after else "") + f"c{exponent}"


def aimed(random, rules):
    """Returns a number whose operand is near a value of a relation, where such a number is short enough."""
    chosen = random.choice([it for groups in rules.values() for group in groups for it in group])
    low, high = random.choice(chosen.ranges)
    near = max(random.choice((low, high, low - 1, high + 1)) + random.randrange(3) * (chosen.modulus or 0), 0)
    if chosen.operand == "v" and 0 < near < 30:
        return f"{random.randrange(3)}.{digits(random, near)}"
    if chosen.operand in "ce" and 0 < near < 22:
        return f"{random.randrange(1, 10)}c{near}"
    return f"{random.randrange(3)}.{near}" if chosen.operand in "ft" else str(near)


def number(random, rules):
    kind = random.randrange(10)
    return compact(random) if kind < 2 else aimed(random, rules) if kind < 5 else plain(random)
