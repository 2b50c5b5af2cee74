#!/usr/bin/env python3
"""Makes the texts of a workload out of a seed, for `conformance_tools bench`: make_texts.py JOB SEED > FILE

The file begins with a line that has the state of the random numbers after the texts were made. For each text a line follows with
what is done with it, its language, how many bytes it has, and at which of its bytes letters begin that change in each round;
then the text itself, and a line feed.
"""
import re
import sys

WORDS = """id name user title createdAt updatedAt description url owner email items total price currency status edges node
cursor pageInfo hasNextPage endCursor repository issues comments author avatarUrl body labels color state address street city
country postalCode phoneNumber orders lineItems quantity product variants sku inventoryQuantity shippingAddress isPrivate
viewerCanAdminister totalCount x""".split()
TYPES = """ID String Int Float Boolean User Repository DateTime URI Money ProductConnection Node OrderLineItem MailingAddress
PageInfo Actor""".split()
PROSE = ["The ", "a ", "of ", "identifier ", "which ", "is ", "returned ", "when ", "this ", "field ", "value, ", "in ", "the order ",
         "that they ", "were ", "created. ", "Deprecated ", "`since` ", "2024-01; ", "use ", "another's ", "elements ", "from ", "list "]
FOREIGN = ["Größe ", "prénom ", "имя ", "価格 ", "naïve ", "→ "]
LONG = "# The price is in the currency of that country.\n"
BYTE_ORDER_MARK = "\ufeff"
# The letters of a name that change.
STAMP = "aaaaaaaa"
# How deep sets may nest in a request.
DEEPEST = 9
BITS = (1 << 64) - 1


class Random:
    """Adds an odd number and mixes."""

    def __init__(self, seed):
        self.state = seed

    def bits(self):
        self.state = mixed = (self.state + 0x9E3779B97F4A7C15) & BITS
        mixed = ((mixed ^ mixed >> 30) * 0xBF58476D1CE4E5B9) & BITS
        mixed = ((mixed ^ mixed >> 27) * 0x94D049BB133111EB) & BITS
        return mixed ^ mixed >> 31

    def below(self, end):
        return (self.bits() >> 8) % end

    def between(self, least, most):
        return least + self.below(most - least + 1)

    def has_luck(self, percent):
        return self.below(100) < percent

    def word(self, words):
        return words[self.below(len(words))]


class Maker:
    """A text that is being written, with the places of what changes in it, and its own random numbers."""

    def __init__(self, seed):
        self.random = Random(seed)
        self.pieces = []
        self.length = 0
        self.marks = []
        # Whether it has line ends and blanks as people write them, and by how many steps a line is indented.
        self.is_pretty = True
        self.depth = 0

    def text(self):
        return "".join(self.pieces)

    def put(self, text):
        self.pieces.append(text)
        self.length += len(text) if text.isascii() else len(text.encode())

    def put_marked(self, word):
        """Writes a name that begins so and goes on with letters that change."""
        self.put(word)
        self.marks.append(self.length)
        self.put(STAMP)

    def put_made(self, text):
        """Writes a made text, in which the same letters change."""
        first, *pieces = text.split(STAMP)
        self.put(first)
        for piece in pieces:
            self.put_marked("")
            self.put(piece)

    def put_number(self, digits):
        self.put(str(self.random.below(10**digits)))

    def put_word(self):
        self.put(self.random.word(WORDS))

    def put_type_name(self):
        self.put(self.random.word(TYPES))

    def put_prose(self, count):
        for _ in range(count):
            self.put(self.random.word(PROSE))

    def put_type(self):
        is_list = self.random.has_luck(25)
        self.put("[" if is_list else "")
        self.put_type_name()
        self.put("!" if self.random.has_luck(60) else "")
        self.put("]!" if is_list else "")

    def put_line(self):
        self.put("\n" + "  " * self.depth if self.is_pretty else " ")

    def put_blank(self):
        self.put(" " if self.is_pretty else "")

    def open(self):
        self.put_blank()
        self.put("{")
        self.depth += 1
        self.put_line()

    def close(self):
        self.depth = max(self.depth - 1, 0)
        self.put_line()
        self.put("}")

    def put_value(self):
        """Writes a value without variables, as arguments and defaults have them."""
        choice = self.random.below(9)
        if choice < 2:
            self.put_number(5)
        else:
            self.put(['"gid://shop/Product/108828309"', "true", "null", "CREATED_AT", '[1, 2.5, -3e10, "a\\u00e9b"]',
                      "{field: UPDATED_AT, direction: DESC, limits: [10, 20]}", '""'][choice - 2])


# Requests as servers are sent them.


def request_of(seed):
    """A request of some 80 bytes to 20 KB, short ones more often."""
    maker = Maker(seed)
    maker.is_pretty = maker.random.has_luck(60)
    choice = maker.random.below(20)
    least, most = (40, 200) if choice < 9 else (200, 800) if choice < 14 else (800, 3_000) if choice < 19 else (3_000, 20_000)
    size = maker.random.between(least, most)
    if size < 150:
        maker.put("query ")
        maker.put_marked("Q")
    else:
        put_head(maker)
    put_selections(maker, size)
    if size > 1_000:
        put_fragments(maker)
    return maker


def long_request_of(seed, size):
    """A request of about this size."""
    maker = Maker(seed)
    while maker.length < size:
        most = maker.length + 4_000
        put_head(maker)
        put_selections(maker, most)
        maker.put("\n\n")
    return maker


def put_head(maker):
    maker.put(maker.random.word(["query ", "query ", "query ", "mutation ", "subscription "]))
    maker.put_marked("Get")
    maker.put("($id: ID!, $first: Int = 10, $after: String")
    if maker.random.has_luck(40):
        maker.put(', $filter: [Filter!]! = [{kind: NAME, tags: ["a", "b"]}]')
    maker.put(")")
    if maker.random.has_luck(20):
        maker.put(" @cached(ttl: 60)")


def put_selections(maker, size):
    """A selection set, until the text has so many bytes."""
    floor = maker.depth
    maker.open()
    put_selection_field(maker)
    while maker.length < size:
        put_selection(maker, floor)
    for _ in range(floor, maker.depth):
        maker.close()


def put_selection(maker, floor):
    inner = maker.depth - floor
    choice = maker.random.below(20)
    if 3 <= choice <= 5 and inner > 1:
        maker.close()
        return
    maker.put_line()
    if choice <= 2 and inner < DEEPEST:
        put_selection_field(maker)
        maker.open()
    elif choice == 6:
        maker.put("...")
        maker.put_marked("Parts")
        return
    elif choice == 7 and inner < DEEPEST:
        maker.put("... on ")
        maker.put_type_name()
        maker.open()
    elif choice == 8 and maker.is_pretty:
        maker.put("# ")
        maker.put_prose(6)
        maker.put_line()
    put_selection_field(maker)


def put_selection_field(maker):
    random = maker.random
    if random.has_luck(12):
        maker.put_word()
        maker.put(":")
        maker.put_blank()
    maker.put_word()
    if random.has_luck(22):
        maker.put("(")
        for at in range(random.between(1, 4)):
            maker.put(", " if at > 0 else "")
            maker.put_word()
            maker.put(": ")
            if random.has_luck(45):
                maker.put("$first")
            else:
                maker.put_value()
        maker.put(")")
    if random.has_luck(6):
        maker.put(" @include(if: $withDetails)")


def put_fragments(maker):
    for _ in range(maker.random.between(0, 3)):
        maker.put_line()
        maker.put("fragment ")
        maker.put_marked("Parts")
        maker.put(" on ")
        maker.put_type_name()
        put_selections(maker, maker.length + maker.random.between(50, 600))


# Schema files as gateways and code generators load them.


def schema_of(seed, size):
    """A schema file of about this size."""
    maker = Maker(seed)
    maker.put("schema {\n  query: QueryRoot\n  mutation: Mutation\n}\n")
    while maker.length < size:
        put_definition(maker)
        maker.put("\n")
    return maker


def put_definition(maker):
    maker.put("\n")
    choice = maker.random.below(20)
    if choice <= 8:
        put_object(maker, "type ")
    elif choice <= 10:
        put_object(maker, "interface ")
    elif choice <= 13:
        put_input(maker)
    elif choice <= 16:
        put_enum(maker)
    elif choice == 17:
        put_union(maker)
    elif choice == 18:
        put_directive(maker)
    else:
        put_described(maker, "scalar ", "Scalar")
        maker.put(' @specifiedBy(url: "https://tools.ietf.org/html/rfc3339")')


def put_description(maker):
    """A description of one line to ten, mostly in a block string."""
    if maker.random.has_luck(20):
        maker.put('"')
        maker.put_prose(8)
        maker.put('"')
        maker.put_line()
        return
    maker.put('"""')
    maker.put_line()
    choice = maker.random.below(10)
    lines = 1 if choice <= 6 else maker.random.between(2, 4) if choice <= 8 else maker.random.between(5, 10)
    for _ in range(lines):
        maker.put_prose(maker.random.between(5, 14))
        maker.put_line()
    maker.put('"""')
    maker.put_line()


def put_described(maker, keyword, name):
    put_description(maker)
    maker.put(keyword)
    maker.put_marked(name)


def put_object(maker, keyword):
    if maker.random.has_luck(8):
        maker.put("extend ")
    else:
        put_description(maker)
    maker.put(keyword)
    maker.put_marked("Type")
    if maker.random.has_luck(30):
        maker.put(" implements Node & Entity")
    if maker.random.has_luck(15):
        maker.put(' @key(fields: "id", resolvable: true)')
    maker.open()
    for at in range(maker.random.between(1, 16)):
        if at > 0:
            maker.put_line()
            maker.put_line()
        put_field(maker)
    maker.close()


def put_field(maker):
    if maker.random.has_luck(85):
        put_description(maker)
    maker.put_word()
    if maker.random.has_luck(25):
        maker.put("(")
        maker.depth += 1
        for _ in range(maker.random.between(1, 4)):
            maker.put_line()
            put_input_value(maker)
        maker.depth -= 1
        maker.put_line()
        maker.put(")")
    maker.put(": ")
    maker.put_type()
    if maker.random.has_luck(6):
        maker.put(' @deprecated(reason: "Use `')
        maker.put_word()
        maker.put('` instead.")')


def put_input_value(maker):
    if maker.random.has_luck(70):
        put_description(maker)
    maker.put_word()
    maker.put(": ")
    maker.put_type()
    if maker.random.has_luck(30):
        maker.put(" = ")
        maker.put_value()


def put_input(maker):
    put_described(maker, "input ", "Input")
    maker.open()
    for at in range(maker.random.between(1, 12)):
        if at > 0:
            maker.put_line()
        put_input_value(maker)
    maker.close()


def put_enum(maker):
    put_described(maker, "enum ", "Kind")
    maker.open()
    is_long = maker.random.has_luck(20)
    for at in range(maker.random.between(2, 120 if is_long else 12)):
        if at > 0:
            maker.put_line()
        if maker.random.has_luck(15 if is_long else 80):
            put_description(maker)
        maker.put("VALUE_")
        maker.put_number(6)
    maker.close()


def put_union(maker):
    put_described(maker, "union ", "Any")
    maker.put(" = User")
    for _ in range(maker.random.between(1, 8)):
        maker.put(" | ")
        maker.put_type_name()


def put_directive(maker):
    put_described(maker, "directive @", "rule")
    maker.put('(reason: String = "No longer supported", fields: [String!]) repeatable on FIELD_DEFINITION | OBJECT | ENUM_VALUE')


# What strangers send: texts at the limits of depth, of one long part, and such as are refused.


def put_nests(maker):
    """Sets, lists, objects and list types nest as deep as they may."""
    for _ in range(250):
        maker.put("query ")
        maker.put_marked("Deep")
        maker.put("($a:" + "[" * 64 + "Int" + "]" * 64 + "=" + "[" * 64 + "]" * 64 + ")" + "{ab" * 64)
        maker.put("(x:" + "{k:" * 64 + "1" + "}" * 64 + ")" + "}" * 64)


def put_list(maker):
    maker.put("query ")
    maker.put_marked("List")
    maker.put("{a(b:[")
    for _ in range(40_000):
        maker.put_number(7)
        maker.put(",")
    maker.put("])}")


def put_set(maker):
    maker.put("query ")
    maker.put_marked("Set")
    maker.put("{")
    for _ in range(50_000):
        maker.put_word()
        maker.put(" ")
    maker.put("}")


def put_objects(maker):
    maker.put("query ")
    maker.put_marked("Objects")
    maker.put("{")
    for fields in [5, 15, 30, 400, 3_000]:
        maker.put("a(b:{")
        for at in range(fields):
            maker.put(f"k{maker.random.below(100_000)}_{at}:{at} ")
        maker.put("}) ")
    maker.put("}")


def put_strings(maker):
    """Strings with escapes and with characters that aren't ASCII."""
    maker.put("query ")
    maker.put_marked("Strings")
    maker.put("{a(b:[")
    for at in range(2_000):
        maker.put('"')
        maker.put_prose(10)
        maker.put("é – \\u00e9 😀" if at % 3 == 0 else "\\n")
        maker.put('",')
    maker.put("])}")


def put_block(maker):
    """One block string of many lines."""
    maker.put('"""\n')
    for _ in range(3_000):
        maker.put("    ")
        maker.put_prose(9)
        maker.put("\n")
    maker.put('"""\ntype ')
    maker.put_marked("Told")
    maker.put(" { a: Int }\n")


def put_comments(maker):
    """Comments and blanks."""
    for _ in range(4_000):
        maker.put("# ")
        maker.put_prose(9)
        maker.put("\n\n        ,,  \t\n")
    maker.put("query ")
    maker.put_marked("Told")
    maker.put("{a}")


def put_refused_at_once(maker):
    """No token may stand first."""
    maker.put(maker.random.word([") ", "type ", '"told" ', "quary ", "7 "]))
    maker.put_marked("X")
    maker.put(" { a }")


def put_broken(maker):
    """A mistake in a short request."""
    maker.put("query ")
    maker.put_marked("Broken")
    maker.put("($id: ID!) {\n  user(id: $id) {\n    id\n    name\n")
    for _ in range(maker.random.below(20)):
        maker.put("    ")
        maker.put_word()
        maker.put("\n")
    maker.put(maker.random.word(["a(b: }", "... on {", "x: 1", "a(b: [1, )", "@ {", '"t"']))
    maker.put("\n  }\n}\n")


def put_late_in_request(maker, seed, size):
    maker.put(long_request_of(seed, size).text())
    maker.put("query ")
    maker.put_marked("Last")
    maker.put(" { name(first: ) }\n")


def put_late_in_schema(maker, seed, size):
    maker.put(schema_of(seed, size).text())
    maker.put("\ntype ")
    maker.put_marked("Last")
    maker.put(" {\n  name String\n}\n")


def put_cut(maker, seed):
    """A request without its last brace."""
    maker.put("# ")
    maker.put_marked("Request")
    maker.put("\n")
    maker.put(request_of(seed).text().rstrip().removesuffix("}"))


# Texts as people keep them, with comments, and with other line ends and blanks than line feeds and spaces.

# Which comments, and which line ends and blanks.
STYLES = [("hidden", "plain"), ("after", "plain"), ("before", "plain"), ("long", "plain"), ("bare", "plain"), ("none", "windows"),
          ("after", "windows"), ("before", "tabs"), ("none", "returns"), ("none", "runs"), ("none", "tab after"), ("none", "mark before")]
SIZES = [("query", 4_000), ("query", 4_000), ("query", 4_000), ("query", 20_000), ("schema", 30_000)]

# What is ignored, or else a token.
PIECES = re.compile(r'[\ufeff \t\r\n,]+|#[^\r\n]*'
                    r'|("""(?:[^"\\]|\\"""|\\|"(?!""))*"""|"(?:[^"\\\r\n]|\\.)*"|\.\.\.|-?\d[\d.eE+-]*|[A-Za-z_]\w*|[!$&()\[\]{}:=@|])', re.A)


def made_text(random, language, size):
    return (long_request_of if language == "query" else schema_of)(random.bits(), size).text()


def remarked_text(random, language, size, remarks):
    """A made text of about this size, with comments, none of them inside a description."""
    made = made_text(random, language, size)
    hidden = iter(made_text(random, language, size * 3).splitlines())
    maker = Maker(random.bits())
    is_described = False
    for line in made.splitlines():
        is_quotes = line.strip() == '"""'
        is_described ^= is_quotes
        is_free = not is_described and not is_quotes
        if is_free:
            put_before(maker, remarks, line, hidden)
        maker.put(line)
        if is_free and remarks == "after" and line.strip():
            maker.put("  ")
            put_comment(maker)
        maker.put("\n")
    return maker.text()


def put_before(maker, remarks, line, hidden):
    if remarks == "hidden" and not line:
        put_hidden(maker, hidden, 400)
    elif remarks == "hidden" and maker.random.has_luck(10):
        put_hidden(maker, hidden, 8)
    elif remarks == "before":
        maker.put("    ")
        put_comment(maker)
        maker.put("\n")
    elif remarks == "long":
        maker.put(LONG * 3)
    elif remarks == "bare":
        maker.put("#\n")


def put_hidden(maker, hidden, most):
    """Writes the next lines commented out, up to the end of a definition and no more than so many."""
    for _ in range(most):
        line = next(hidden, "")
        if not line:
            break
        maker.put(f"#{line}\n")


def put_comment(maker):
    maker.put("# ")
    maker.put_prose(maker.random.between(2, 6))
    if maker.random.has_luck(20):
        maker.put(maker.random.word(FOREIGN))


def put_laid_out(maker, layout, text):
    if layout == "plain":
        maker.put_made(text)
    elif layout == "windows":
        maker.put(BYTE_ORDER_MARK)
        maker.put_made(text.replace("\n", "\r\n"))
    elif layout == "returns":
        maker.put_made(text.replace("\n", "\r"))
    elif layout == "runs":
        maker.put_made(text.replace("\n", "\r" * 8))
    elif layout == "tabs":
        maker.put_made(text.replace("  ", "\t"))
    elif layout == "tab after":
        put_tokens(maker, text, "", "\t")
    else:
        put_tokens(maker, text, BYTE_ORDER_MARK, "")


def put_tokens(maker, text, before, after):
    """Writes a text with something before and after each of its tokens, the last of which is its end."""
    end = 0
    for piece in PIECES.finditer(text):
        if piece[1] is None:
            continue
        maker.put(text[end:piece.start()])
        maker.put(before)
        maker.put_made(piece[1])
        maker.put(after)
        end = piece.end()
    maker.put(text[end:] + before + after)


# Texts in which keys are pressed: definitions of six lines, a name in each that begins its fourth, and one mistake in the middle.


def edited_text(random, language, size):
    maker = Maker(0)
    index, has_mistake = 0, False
    while maker.length < size:
        is_mistaken = not has_mistake and maker.length >= size // 2
        has_mistake |= is_mistaken
        put_lines = put_operation_lines if language == "query" else put_type_lines
        put_lines(maker, index, random.below(1_000_000), is_mistaken)
        index += 1
    return maker


def put_operation_lines(maker, index, number, is_mistaken):
    maker.put(f"""# {number}: é 日本 😀
query Hero{index}($id: ID = {number}) {{
  hero(id: $id, note: "é日😀") {{ name age
    friends(first: {number}) {{ ... on Human {{ height }}
      name{"( )" if is_mistaken else ""} }} appearsIn }}
}}
""")


def put_type_lines(maker, index, number, is_mistaken):
    maker.put(f"""# {number}: é 日本 😀
"Of {number}." type Hero{index} implements Node & Character {{
  "é日😀" id: ID! name{"" if is_mistaken else ":"} String
    friends(first: Int = {number}, after: ID): [Character!]
    appearsIn: [Episode] @deprecated(reason: "{number}")
}}
""")


# The jobs: each gives what is done with a text, the text's language, and the text.


def requests_and_schemas(random, way, requests, schemas):
    for _ in range(requests):
        yield way, "query", request_of(random.bits())
    for size in schemas:
        yield way, "schema", schema_of(random.bits(), size)


def checks(random):
    yield from requests_and_schemas(random, "check", 400, [])
    yield "check", "query", long_request_of(random.bits(), 500_000)
    yield from requests_and_schemas(random, "check", 0, [50_000, 120_000, 300_000])


def awkward(random):
    for put in [put_nests, put_list, put_set, put_objects, put_strings, put_block, put_comments, put_late_in_request, put_late_in_schema]:
        maker = Maker(random.bits())
        if put == put_late_in_request:
            put(maker, random.bits(), 60_000)
        elif put == put_late_in_schema:
            put(maker, random.bits(), 100_000)
        else:
            put(maker)
        way = "check" if put == put_comments else "explain" if "late" in put.__name__ else "walk"
        yield way, "schema" if put in (put_block, put_late_in_schema) else "query", maker
    for _ in range(40):
        for put in [put_refused_at_once, put_broken]:
            maker = Maker(random.bits())
            put(maker)
            yield "explain", "query", maker


def reports(random, requests, schemas):
    for _ in range(requests):
        seed = random.bits()
        maker = Maker(seed)
        put_cut(maker, seed)
        yield "explain", "query", maker
    for size in schemas:
        seed = random.bits()
        maker = Maker(seed)
        put_late_in_schema(maker, seed, size)
        yield "explain", "schema", maker


def remarks(random, styles, sizes):
    for comments, layout in styles:
        for language, size in sizes:
            text = remarked_text(random, language, size, comments)
            maker = Maker(random.bits())
            put_laid_out(maker, layout, text)
            yield "cut", language, maker


def editing(random, sizes):
    for language, size in sizes:
        yield "edit", language, edited_text(random, language, size)


def few(random):
    """Some short texts for each of what is done with them."""
    for way in ["walk", "check", "give", "write"]:
        yield from requests_and_schemas(random, way, 2, [1_000])
    yield from reports(random, 2, [1_000])
    yield from remarks(random, STYLES[6::5], [("query", 400), ("schema", 400)])


JOBS = {
    "requests": lambda random: requests_and_schemas(random, "walk", 400, []),
    "schemas": lambda random: requests_and_schemas(random, "walk", 0, [50_000, 80_000, 120_000, 200_000, 300_000, 1_200_000]),
    "checks": checks,
    "trees": lambda random: requests_and_schemas(random, "give", 400, [50_000, 150_000]),
    "awkward": awkward,
    "reports": lambda random: reports(random, 200, [50_000, 120_000, 300_000]),
    "remarks": lambda random: remarks(random, STYLES, SIZES),
    "printing": lambda random: requests_and_schemas(random, "write", 400, [50_000, 150_000]),
    "editing": lambda random: editing(random, [("query", 100_000), ("schema", 100_000), ("schema", 2_000_000)]),
    "few": few,
    "few-edited": lambda random: editing(random, [("query", 2_000), ("schema", 2_000)]),
}


def main():
    if len(sys.argv) != 3 or sys.argv[1] not in JOBS or not sys.argv[2].isdigit():
        sys.exit(f"usage: make_texts.py {'|'.join(JOBS)} SEED > FILE")
    random = Random(int(sys.argv[2]))
    parts = []
    for way, language, maker in JOBS[sys.argv[1]](random):
        text = maker.text().encode()
        parts += [" ".join([way, language, str(len(text)), *map(str, maker.marks)]).encode(), b"\n", text, b"\n"]
    sys.stdout.buffer.write(f"{random.state}\n".encode())
    sys.stdout.buffer.writelines(parts)


if __name__ == "__main__":
    main()
