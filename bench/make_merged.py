"""Writes merged.graphqls: a schema file as a bad merge or a generator leaves it, with one mistake in each of many definitions.

python3 make_merged.py > merged.graphqls
"""
import random

SIZE = 1_150_000
# Before these bytes all is well; after them each definition of this many has a mistake.
GOOD = 800_000
EACH = 7

WORDS = """id name user title createdAt updatedAt url owner email items total price currency status edges node cursor
pageInfo repository issues comments author body labels color state address city country orders quantity product sku""".split()
TYPES = "ID String Int Float Boolean User Repository DateTime URI Money ProductConnection Node".split()
PROSE = """the a of identifier which is returned when this field value in order that they were created deprecated since use
another elements from list""".split()

chance = random.Random(20261126)
lines = []


def prose(indent):
    words = " ".join(chance.choice(PROSE) for _ in range(chance.randint(4, 12)))
    if chance.random() < 0.3:
        lines.append(f'{indent}"{words}"')
    else:
        lines.extend([f'{indent}"""', f"{indent}{words}", f'{indent}"""'])


def type_of():
    name = chance.choice(TYPES) + chance.choice(["", "!"])
    return f"[{name}]!" if chance.random() < 0.25 else name


def field():
    if chance.random() < 0.4:
        prose("  ")
    arguments = f"(first: Int = {chance.randint(1, 99)}, after: String)" if chance.random() < 0.15 else ""
    lines.append(f"  {chance.choice(WORDS)}{arguments}: {type_of()}")


def mistake():
    lines.append(chance.choice([
        f"  {chance.choice(WORDS)} {type_of()}",
        f"  {chance.choice(WORDS)}(first Int): {type_of()}",
        "<<<<<<< HEAD",
        f"  {chance.choice(WORDS)}: ",
        f"  {chance.choice(WORDS)}: [{chance.choice(TYPES)}",
        f"  {chance.choice(WORDS)}: {type_of()} @deprecated(reason: )",
    ]))


def definition(number, is_bad):
    prose("")
    kind = chance.randrange(10)
    if kind < 6:
        lines.append(f"type Type{number} implements Node {{" if kind < 2 else f"type Type{number} {{")
        count = chance.randint(2, 14)
        for at in range(count):
            field()
            if is_bad and at == count // 2:
                mistake()
    elif kind < 8:
        lines.append(f"enum Kind{number} {{")
        for at in range(chance.randint(3, 40)):
            lines.append(f"  VALUE_{chance.randrange(100000)}")
        if is_bad:
            lines.append(chance.choice(["  true", "  VALUE: 1", "  4", "  VALUE)"]))
    else:
        lines.append(f"input Input{number} {{")
        for at in range(chance.randint(1, 8)):
            lines.append(f"  {chance.choice(WORDS)}: {type_of()}" + (" = null" if chance.random() < 0.2 else ""))
        if is_bad:
            lines.append(f"  {chance.choice(WORDS)}: {type_of()} = $first")
    lines.extend(["}", ""])


size = number = seen = 0
while size < SIZE:
    number += 1
    definition(number, size > GOOD and number % EACH == 0)
    size += sum(len(line) + 1 for line in lines[seen:])
    seen = len(lines)
print("\n".join(lines))
