"""Prints the messages of some numbers and some categories, as ../c/formatter.c does."""
import plurals

REFUSED = {-10: "it isn't a number", -11: "it is over a limit"}

rules = plurals.Rules(one="i = 1 and v = 0")
elements = plurals.Elements('{"other":[0,"{} items"],"one":[0,"{} item"]}')
for number in ("0", "1", "1.0", "2", "1c6", "-1", "x", "1c256"):
    try:
        print(elements.message(rules, number))
    except plurals.Fault as fault:
        print(f"{number}: {REFUSED[fault.number]}")
print("i 1, v 1:", rules.category_of_operands(i=1, v=1))
print("1 by a table:", plurals.CategoryTable(rules).category(1) or "ask the rules")
print("0, 1, 100:", *rules.categories_of_integers([0, 1, 100]))
pattern = "{who} sent {n, plural, =0 {no files} one {# file} other {# files}}."
for count in (0, 1, plurals.Written("1.0")):
    print(plurals.format_pattern(pattern, rules, who="Ann", n=count))
