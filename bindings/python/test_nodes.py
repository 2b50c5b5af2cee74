"""`graphql_parser.parse` beside `graphql.parse` of graphql-core, with nodes that are made in C and in Python.

RANDOM_TEXTS in the environment says how many random texts are read, in place of 2,000.
"""

import contextlib
import copy
import gc
import os
import pickle
import random
import subprocess
import sys
import threading
import unittest
import unittest.mock

import graphql
from graphql.language import Node, Source, ast

import four_threads
import graphql_parser
from graphql_parser import Kind, _library, _nodes

IN_C = _nodes._in_c


@contextlib.contextmanager
def made_by(module):
    """Makes nodes by the module in C, or in Python where that is None."""
    before = _nodes._in_c
    _nodes._in_c = module
    try:
        yield
    finally:
        _nodes._in_c = before


class InPython:
    """Tests whose nodes are made in Python."""

    def run(self, result=None):
        with made_by(None):
            return super().run(result)

REQUESTS = [
    "{a}",
    "query{a}",
    "mutation M{a}",
    "subscription S @d{a}",
    '\ufeff# é\n query Q($a:Int=1@d,$b:[[T!]!]!={x:[1,{y:null}]},$ c:S="a\\u00e9\\n\\"")@e(f:$g){a}',
    "{a:b c(d:1,e:-0,f:1.5e+10,g:E,h:true,i:false,j:null,k:$v,l:$ v,m:$ #\n v)@d@e(f:$g){h}}",
    '{...F...on T@d{a}...@e{b}...{c}...F@g(h:"")}fragment F on T@a(b:[$c,"d"]){e}fragment #\n G #x\n on U{f}',
    '{a(b:"",c:""" d\n\n   e\n""",f:["""g""","h",{i:"""j"""}],k:"\\\\",l:[],m:{})}',
    '{é:a}'.replace("é", "b"),
    '{a(s:"é中😀")b,c}query B{d}'.replace("{a", "query A{a", 1),
    '{a(b:[1,[2,[3]],{c:{d:[$e,{f:"g"}]}},[],{}],h:{i:1,j:[{k:$ l}]})}',
    '{a(b:{c:1,c:2},d:[{e:{f:"""x""",f:$g},h:E,e:["}",-1.5]}],i:3)}',
    "{\ra\r(\rb:[\r1,#\r2\r])}\r\n{c}".replace("\r\n{c}", "\r\nfragment F on T\r{d}"),
    '{a(b:"""c\r  d\r\n  e""")}',
]

SCHEMA_FILES = [
    "scalar A",
    '"d" scalar A @e(f:[1])',
    'schema{query:A}',
    '"""d""" schema @a(b:{mutation:Q}){ # query\n subscription:S mutation #x\n : #y\n M query:Q}',
    "extend schema @a extend schema{mutation:M} extend schema @b{query:Q}",
    'type A implements & B & C @d{"e" f("""g""" h:[I!]!=[1] @j k:L):M! @n o:[[P]!]}',
    "type A type B implements C type D @e type F{g:H}",
    "extend type A implements B extend type C @d extend type E{f:G} extend interface H @i extend interface J implements K",
    'interface A implements B & C @d{e:F}"""x\n  y""" interface G',
    "union A = B union C @d = | E | F union G extend union H = I extend union J @k",
    'enum A{"b" C @d E}enum F extend enum G{H}extend enum I @j',
    'input A{b:C={d:[1,"e",F]} "g" h:[I]=[] @j}input K extend input L{m:N}extend input O @p',
    "extend scalar A @b",
    'directive @a on FIELD "b" directive @c(d:E=1) repeatable on | QUERY | FIELD_DEFINITION directive @on on ENUM',
    "type query{type:type!}\n\rinput\rinput{on:on}",
]


class Random:
    """Texts with random tokens of both languages, and random ignored text between them."""

    def __init__(self, seed):
        self.random = random.Random(seed)

    def text(self):
        definitions = self.some(1, 4, self.request if self.random.random() < 0.5 else self.schema)
        return self.with_ignored([token for definition in definitions for token in definition])

    def some(self, least, most, part, *arguments):
        return [part(*arguments) for _ in range(self.random.randint(least, most))]

    def flat(self, least, most, part, *arguments):
        return sum(self.some(least, most, part, *arguments), [])

    def maybe(self, tokens):
        return tokens if self.random.random() < 0.4 else []

    def name(self):
        return self.random.choice(["a", "on_", "query", "type", "B2", "_", "input", "repeatable", "schema"])

    def unique(self):
        return f"n{self.random.getrandbits(40)}"

    def with_ignored(self, tokens):
        ignored = [" ", "  ", ",", "\n", "\r", "\r\n", "\t", "\ufeff", "# c \" {\n", "#é\r", "#\r\n"]
        text = self.random.choice(["", "\ufeff", "\n", "#😀\n"])
        for token in tokens:
            text += token + "".join(self.random.choices(ignored, k=self.random.choice([1, 1, 1, 2, 4])))
        return text

    def value(self, depth, is_const):
        kind = self.random.randrange(10)
        if depth and kind == 0:
            return ["[", *self.flat(0, 3, self.value, depth - 1, is_const), "]"]
        if depth and kind == 1:
            return ["{", *self.flat(0, 3, lambda: [self.name(), ":", *self.value(depth - 1, is_const)]), "}"]
        if kind == 2 and not is_const:
            return ["$", self.name()]
        leaves = ["0", "-1", "1.50", "2E3", "null", "true", "false", "E", '""', '"a\\n\\u00e9 # }"', '"""b\n   c"""', '"""]"""']
        return [self.random.choice(leaves)]

    def arguments(self, is_const):
        return self.maybe(["(", *self.flat(1, 3, lambda: [self.name(), ":", *self.value(3, is_const)]), ")"])

    def directives(self, is_const):
        return self.maybe(self.flat(1, 2, lambda: ["@", self.name(), *self.arguments(is_const)]))

    def type(self, depth=2):
        inner = ["[", *self.type(depth - 1), "]"] if depth and self.random.random() < 0.3 else [self.name()]
        return inner + self.maybe(["!"])

    def selection(self, depth):
        kind = self.random.randrange(6)
        if kind == 0:
            return ["...", self.name(), *self.directives(False)]
        if kind == 1 and depth:
            return ["...", *self.maybe(["on", self.name()]), *self.directives(False), *self.selections(depth - 1)]
        inner = self.maybe(self.selections(depth - 1)) if depth else []
        return [*self.maybe([self.name(), ":"]), self.name(), *self.arguments(False), *self.directives(False), *inner]

    def selections(self, depth):
        return ["{", *self.flat(1, 4, self.selection, depth), "}"]

    def request(self):
        if self.random.random() < 0.3:
            return ["fragment", self.unique(), "on", self.name(), *self.directives(False), *self.selections(2)]
        variable = lambda: ["$", self.name(), ":", *self.type(), *self.maybe(["=", *self.value(2, True)]), *self.directives(True)]
        variables = self.maybe(["(", *self.flat(1, 3, variable), ")"])
        kind = self.random.choice(["query", "mutation", "subscription"])
        return [kind, self.unique(), *variables, *self.directives(False), *self.selections(3)]

    def description(self):
        return self.maybe([self.random.choice(['"a"', '"""b\n  c"""'])])

    def input(self):
        default = self.maybe(["=", *self.value(2, True)])
        return [*self.description(), self.name(), ":", *self.type(), *default, *self.directives(True)]

    def field(self):
        inputs = self.maybe(["(", *self.flat(1, 2, self.input), ")"])
        return [*self.description(), self.name(), *inputs, ":", *self.type(), *self.directives(True)]

    def schema(self):
        kind = self.random.choice(["schema", "scalar", "type", "interface", "union", "enum", "input", "directive"])
        named = [*self.description(), kind, self.name()]
        if kind == "schema":
            roots = self.random.sample(["mutation", "subscription"], 1) + ["query"]
            tokens = [token for root in roots for token in (root, ":", self.name())]
            return [*self.description(), kind, *self.directives(True), "{", *tokens, "}"]
        if kind == "directive":
            inputs = self.maybe(["(", *self.flat(1, 2, self.input), ")"])
            return [*self.description(), kind, "@", self.name(), *inputs, *self.maybe(["repeatable"]), "on", "FIELD", "|", "ENUM"]
        named += self.maybe(["implements", self.name(), "&", self.name()]) if kind in ("type", "interface") else []
        named += self.directives(True)
        if kind == "union":
            return named + self.maybe(["=", self.name(), "|", self.name()])
        part = {"enum": lambda: [*self.description(), self.name(), *self.directives(True)], "input": self.input}.get(kind, self.field)
        return named + (self.maybe(["{", *self.flat(1, 3, part), "}"]) if kind != "scalar" else [])


def difference(ours, theirs, path="document"):
    """Where two trees differ; None where they are equal, in each class, attribute and location. It doesn't recur."""
    waiting = [(ours, theirs, path)]
    while waiting:
        one, other, path = waiting.pop()
        if isinstance(other, tuple) and isinstance(one, tuple) and len(one) == len(other):
            waiting.extend((*pair, f"{path}[{index}]") for index, pair in enumerate(zip(one, other)))
        elif isinstance(other, Node) and type(one) is type(other):
            waiting.extend((getattr(one, key), getattr(other, key), f"{path}.{key}") for key in other.keys if key != "loc")
            places = [node.loc and (node.loc.start, node.loc.source.body) for node in (one, other)]
            if places[0] != places[1]:
                return f"{path}.loc", *places
        elif type(one) is not type(other) or one != other:
            return path, one, other
    return None


class Trees(unittest.TestCase):
    def assert_same(self, text):
        with self.subTest(text=text):
            self.assertIsNone(difference(graphql_parser.parse(text), graphql.parse(text)))
            ours, theirs = graphql_parser.parse(text, no_location=True), graphql.parse(text, no_location=True)
            self.assertIsNone(difference(ours, theirs))
            self.assertEqual(ours, theirs)
            self.assertEqual(hash(ours), hash(theirs))

    def test_each_construct(self):
        for text in REQUESTS + SCHEMA_FILES:
            self.assert_same(text)

    def test_a_source_is_kept(self):
        source = Source("{a}", "A.graphql", (3, 5))
        self.assertIs(graphql_parser.parse(source).loc.source, source)
        self.assertIsNone(difference(graphql_parser.parse(b"{a}"), graphql.parse("{a}")))

    def test_ends_and_tokens_are_those_of_graphql_core(self):
        text = 'query A{a(b: [1, "c"]) {d}} query B($e: [F!] = []) {f}'
        ours, theirs = graphql_parser.parse(text), graphql.parse(text)
        self.assertEqual(str(ours.loc), f"0:{len(text)}")
        self.assertEqual(ours, theirs)
        operation = ours.definitions[1]
        self.assertEqual((operation.loc.end, operation.loc.start_token.value, operation.loc.end_token.kind.value), (len(text), "query", "}"))
        self.assertFalse(hasattr(operation.loc, "other"))
        self.assertEqual(graphql_parser.parse(text), graphql_parser.parse(text))
        self.assertNotEqual(graphql_parser.parse("{a}").definitions[0].loc, graphql_parser.parse("{a b}").definitions[0].loc)

    def test_an_end_that_graphql_core_cannot_tell_is_no_attribute(self):
        deep = "{a" * 257 + "}" * 257
        document = graphql_parser.parse(deep, selections=256)
        self.assertFalse(hasattr(document.loc, "end"))

    def test_nothing_is_read_again_by_validation(self):
        schema = graphql.build_schema("type Query {a(b: [Int]): Query c: Int}")
        text = "{a(b: [1, null]) {...F ...G}} fragment F on Query {c} fragment G on Query {c: a(b: {d: 1}) {c}}"
        document = graphql_parser.parse(text)
        self.assertGreater(len(graphql.validate(schema, document)), 1)
        self.assertEqual(vars(document.loc.source), {})

    def test_validation_finds_the_same(self):
        schema = graphql.build_schema("input I {a: Int b: I} type Query {c(d: I e: [Int]): Int}")
        for text in (
            "{c(d: {a: 1, a: 2})}",
            '{c(d: {b: {a: "x", f: 1}} e: [1, [2], $v])}',
            "query A($v: [I!] = [{a: 1, b: {a: X}}]) {c(d: $v)}",
            "query A($v: Int $v: Int) {c @e @include(if: 1)}",
        ):
            with self.subTest(text=text):
                errors = graphql.validate(schema, graphql_parser.parse(text))
                self.assertGreater(len(errors), 0)
                found, expected = ([(error.message, error.locations) for error in graphql.validate(schema, document)]
                                   for document in (graphql_parser.parse(text), graphql.parse(text)))
                self.assertEqual(found, expected)

    def test_nodes_are_copied_and_pickled(self):
        document = graphql_parser.parse('{a(b: {c: "d"})}')
        for other in (pickle.loads(pickle.dumps(document)), copy.deepcopy(document)):
            self.assertIsNone(difference(other, document))
            self.assertEqual(other, document)
            self.assertEqual(hash(other), hash(document))

    def test_nodes_may_be_changed(self):
        document = graphql_parser.parse("{a}")
        before = hash(document)
        document.definitions = ()
        document.note = "mine"
        self.assertNotEqual(hash(document), before)
        self.assertEqual(graphql.print_ast(graphql_parser.parse("{a}")), "{\n  a\n}")


class RandomTexts(unittest.TestCase):
    def test_each_is_read_as_graphql_core_reads_it(self):
        made = Random(1)
        count = int(os.environ.get("RANDOM_TEXTS", 2000))
        read = 0
        for number in range(count):
            text = made.text()
            is_without = number % 4 == 0
            try:
                ours = graphql_parser.parse(text, is_without)
            except graphql.GraphQLSyntaxError as error:
                # The rules for whole documents, which graphql-core leaves to its validation.
                self.assertNotIn(error.__cause__.kind, (Kind.SYNTAX, Kind.NOT_UTF8), (text, error))
                continue
            theirs = graphql.parse(text, is_without)
            self.assertIsNone(difference(ours, theirs), text)
            with made_by(None):
                self.assertIsNone(difference(graphql_parser.parse(text, is_without), theirs), text)
            read += 1
        self.assertGreater(read, count * 3 // 4)


class Deep(unittest.TestCase):
    """However deep a text nests, and wherever its caller stands on the stack."""

    def test_the_deepest_texts(self):
        def from_below(frames, text, **options):
            if frames:
                return from_below(frames - 1, text, **options)
            return graphql_parser.parse(text, **options)

        for frames, limit in ((0, 64), (700, 64), (0, 256), (700, 256)):
            with self.subTest(frames=frames, limit=limit):
                values = "{c:" * (limit - 1) + '["d"]' + "}" * (limit - 1)
                twice = "{a:{b:1,b:2}" + "}"
                types = "[" * limit + "T" + "]" * limit
                text = f"query($v:{types})" + "{a" * limit + "{b(c:%s,d:%s)}" % (values, twice) + "}" * limit
                document = from_below(frames, text, selections=256, values=256, types=256)
                node = document.definitions[0].variable_definitions[0].type
                for depth in range(limit):
                    self.assertEqual(node.loc.start, 9 + depth)
                    node = node.type
                self.assertEqual((node.name.value, node.name.loc.start), ("T", 9 + limit))
                node = document.definitions[0].selection_set
                while node.selections[0].selection_set:
                    node = node.selections[0].selection_set
                node, other = node.selections[0].arguments
                self.assertEqual(len(other.value.fields[0].value.fields), 2)
                node = node.value
                for _ in range(limit - 1):
                    node = node.fields[0].value
                self.assertEqual(node.values[0].loc.start, text.index('"d"'))

    def test_a_deeper_text_is_refused(self):
        deep = [
            ("{a" * 66 + "}" * 66, {}, "selection sets may nest 64 deep"),
            ("{a(b:" + "[" * 65 + "]" * 65 + ")}", {}, "lists and objects may nest 64 deep"),
            ("{a{b{c}}}", {"selections": 1}, "selection sets may nest 1 deep"),
            ("query($a:[Int]){b}", {"types": 0}, "list types may nest 0 deep"),
            ("input A{b:C={d:{e:1}}}", {"values": 1}, "lists and objects may nest 1 deep"),
        ]
        for text, limits, message in deep:
            with self.subTest(text=text), self.assertRaises(graphql.GraphQLSyntaxError) as caught:
                graphql_parser.parse(text, **limits)
            error = caught.exception
            self.assertEqual(error.__cause__.kind, Kind.RECURSION_LIMIT_EXCEEDED)
            self.assertEqual((error.positions, error.locations), (None, None))
            self.assertEqual(error.message, "Syntax Error: recursion limit exceeded: " + message)
        with self.assertRaisesRegex(ValueError, "limit"):
            graphql_parser.parse("{a}", values=257)


# What may begin a definition of either language, and what may follow a field.
REQUEST = '"{", "fragment", "mutation", "query"'
SCHEMA = '"directive", "enum", "extend", "input", "interface", "scalar", "schema", "type"'
AFTER_FIELD = 'a name, "{", "(", "...", ":", "@" or "}"'

REFUSED = [
    ("{a", Kind.SYNTAX, [2], f"found the end of the text, expected {AFTER_FIELD}"),
    ("", Kind.SYNTAX, [0], f'found the end of the text, expected {REQUEST} or "subscription"'),
    ("é", Kind.SYNTAX, [0], f'the character é begins no token, expected {REQUEST} or "subscription"'),
    ("{a(b:)}", Kind.SYNTAX, [5], 'found ")", expected a value or "$"'),
    ("query($a:B=){c}", Kind.SYNTAX, [11], 'found ")", expected a value'),
    ("qurey{a}", Kind.SYNTAX, [0], f'found "qurey", expected {REQUEST} or "subscription" (did you mean "query"?)'),
    (
        "{a}\n  type A",
        Kind.SYNTAX,
        [6],
        f'found "type", expected {REQUEST}, "subscription" or the end of the text '
        '("type" begins a definition of a schema file, and this text is read as a request)',
    ),
    ("scalar A {a}", Kind.SYNTAX, [9], f'found "{{", expected a string, "@", {SCHEMA}, "union" or the end of the text'),
    ("input A{b:C=}", Kind.SYNTAX, [12], 'found "}", expected a value'),
    ("{\ra(:1)}", Kind.SYNTAX, [4], 'found ":", expected a name'),
    # What ends a line elsewhere ends no message.
    ('{a "\u2028\x0b\x85"}', Kind.SYNTAX, [3], f'found the string "\u2028\ufffd\ufffd", expected {AFTER_FIELD}'),
    ("query A{a}\nquery A{a}", Kind.OPERATION_DUPLICATED, [11, 0], "operation A is defined twice"),
    ("fragment F on T{a}", Kind.MISSING_OPERATION, None, "document does not contain an operation"),
    ("schema{mutation:M}", Kind.MISSING_QUERY_ROOT, [0], "schema definition is missing query root"),
    ("{a}#\ud800", Kind.NOT_UTF8, None, "the text isn't UTF-8"),
    (b"{a}#\xff", Kind.NOT_UTF8, None, "the text isn't UTF-8"),
]

# Each with what is expected in place of the string, and where that begins.
BAD_ESCAPES = [
    (r'{a(b:"\n\q")}', r"\q", 'a value or "$"', (1, 6)),
    ('{a(b:\n"x\\u00zz")}', r"\u00", 'a value or "$"', (2, 1)),
    ('\r"é\\ud800" type A', r"\ud800", f'a string, {SCHEMA} or "union"', (2, 1)),
]


class Errors(unittest.TestCase):
    def test_each_error(self):
        for text, kind, positions, message in REFUSED:
            with self.subTest(text=text), self.assertRaises(graphql.GraphQLSyntaxError) as caught:
                graphql_parser.parse(text)
            error = caught.exception
            self.assertEqual((error.__cause__.kind, error.positions), (kind, positions))
            self.assertEqual(error.message, "Syntax Error: " + message)
            self.assertEqual(len(error.locations or ()), len(positions or ()))
            self.assertEqual(error.formatted["message"], error.message)
            self.assertIsInstance(str(error), str)

    def test_a_bad_escape_is_told_where_graphql_core_tells_it(self):
        for text, escape, expected, place in BAD_ESCAPES:
            with self.subTest(text=text):
                error, theirs = (self.error_of(parse, text) for parse in (graphql_parser.parse, graphql.parse))
                self.assertEqual(
                    error.message, f"Syntax Error: the escape {escape} in this string stands for no character, expected {expected}"
                )
                self.assertEqual((error.positions, error.locations), (theirs.positions, theirs.locations))
                self.assertEqual(error.__cause__.places, [place])

    def test_what_is_expected_keeps_to_the_limits_of_the_call(self):
        error = self.error_of(graphql_parser.parse, "{a 1}", selections=0)
        self.assertEqual(error.message, 'Syntax Error: found the number 1, expected a name, "(", "...", ":", "@" or "}"')

    def test_without_memory_for_its_message_an_error_has_the_short_one(self):
        for text, name, positions, message in (
            ("{a", "explain_query", [2], "syntax error at 1:3"),
            ("type", "explain_schema", [4], "syntax error at 1:5"),
            ("{a" * 66, "explain_query", None, "recursion limit exceeded."),
            (r'{a(b:"\q")}', "explain_query", [5], "syntax error at 1:6"),
        ):
            with self.subTest(text=text):
                self.assertNotEqual(self.error_of(graphql_parser.parse, text).message, "Syntax Error: " + message)
                with unittest.mock.patch.object(_library, name, lambda *asked: 1):
                    error = self.error_of(graphql_parser.parse, text)
                self.assertEqual((error.message, error.positions), ("Syntax Error: " + message, positions))

    def test_no_refused_request_for_memory_hides_an_error_behind_its_message(self):
        try:
            import _testcapi
        except ImportError:
            self.skipTest("this Python has no module _testcapi")
        expected = self.error_of(graphql_parser.parse, "{a").message
        told = []
        for number in range(1, 10000):
            message = None
            _testcapi.set_nomemory(number, number + 1)
            try:
                graphql_parser.parse("{a")
            except Exception as error:
                message = getattr(error, "message", None)
            finally:
                _testcapi.remove_mem_hooks()
            told.append(message)
            if message == expected:
                break
        short = "Syntax Error: syntax error at 1:3"
        first, count = told.index(short), told.count(short)
        self.assertGreater(count, 30)
        self.assertEqual(told[first : first + count], [short] * count)
        self.assertEqual(message, expected)

    def test_another_report_of_a_later_library_is_not_taken(self):
        for report in ("a report\n", "\n1:3: syntax error: at the second line", None):
            with unittest.mock.patch.object(_library, "explain", lambda *asked: report):
                error = self.error_of(graphql_parser.parse, "{a")
            self.assertEqual((error.message, error.positions), ("Syntax Error: syntax error at 1:3", [2]))

    def error_of(self, parse, text, **limits):
        """The error with which a text is refused."""
        with self.assertRaises(graphql.GraphQLSyntaxError) as caught:
            parse(text, **limits)
        return caught.exception

    def test_texts_are_texts(self):
        for text in (None, 1, ["{a}"]):
            with self.assertRaises(TypeError):
                graphql_parser.parse(text)

    def test_without_graphql_core(self):
        program = (
            "import sys; sys.modules['graphql'] = None\n"
            "import graphql_parser; graphql_parser.parse_query('{a}')\n"
            "try: graphql_parser.parse('{a}')\n"
            "except ImportError as error: print(error)"
        )
        done = subprocess.run([sys.executable, "-c", program], capture_output=True, text=True)
        self.assertIn("pip install", done.stdout, done.stderr)
        done = subprocess.run([sys.executable, "-c", "import graphql_parser, sys; print('graphql' in sys.modules)"],
                              capture_output=True, text=True)
        self.assertEqual(done.stdout, "False\n", done.stderr)


class Process(unittest.TestCase):
    """What all of a process shares."""

    def test_the_collector_is_as_it_was(self):
        for call in (lambda: graphql_parser.parse("{a}"), lambda: self.assertRaises(graphql.GraphQLSyntaxError, graphql_parser.parse, "{")):
            call()
            self.assertTrue(gc.isenabled())
            gc.disable()
            try:
                call()
                self.assertFalse(gc.isenabled())
            finally:
                gc.enable()

    def test_several_threads(self):
        expected = graphql.parse(REQUESTS[5])
        wrong = []

        def rounds():
            for _ in range(50):
                found = difference(graphql_parser.parse(REQUESTS[5]), expected)
                if found:
                    wrong.append(found)

        four_threads.run(rounds)
        self.assertEqual(wrong, [])


class TreesInPython(InPython, Trees):
    pass


class DeepInPython(InPython, Deep):
    pass


class ErrorsInPython(InPython, Errors):
    pass


class ProcessInPython(InPython, Process):
    pass


TEXT = """query A($a: [T!] = [1, {b: "c"}]) @d {e: f(g: [$a, {h: "\\u00e9\\n", h: 2}], i: true) {...F ... on T {j}}}
fragment F on T {k(l: {m: [{}]})}"""
SCHEMA_FILE = 'schema {query: Q mutation: M} "a" type Q implements I {b(c: [D!] = ["e"]): F} directive @g repeatable on FIELD'


def texts_in_c():
    """Texts, with the JSON of each, and a call that makes the nodes of such JSON."""
    for call, body in ((_library.parse_query, TEXT), (_library.parse_schema, SCHEMA_FILE)):
        text = _nodes._Text(Source(body), True)
        written = _library.parse_bytes(call, body, (64, 64, 64), True)
        yield body, written, lambda written, text=text: _nodes._document_in_c(written, text)


@unittest.skipIf(IN_C is None, "the module in C isn't built")
class InC(unittest.TestCase):
    """What the module in C has to keep to beyond the nodes."""

    def test_other_json_is_refused(self):
        choose = random.Random(1)
        for _, written, document in texts_in_c():
            self.assertIsInstance(document(written), ast.DocumentNode)
            for length in range(len(written)):
                with self.assertRaises(ValueError):
                    document(written[:length])
            with self.assertRaises(ValueError):
                document(written + b" ")
            for _ in range(3000):
                changed = bytearray(written)
                for _ in range(choose.choice((1, 1, 2, 5))):
                    changed[choose.randrange(len(changed))] = choose.choice(b'{}[]",:\\$19ea\x00\xff')
                with contextlib.suppress(ValueError, TypeError, AttributeError, IndexError, KeyError, graphql.GraphQLError):
                    document(bytes(changed))
        nested = b'{"kind":"ListValue","line":1,"column":1,"values":[' * 3000
        with self.assertRaises(ValueError):
            IN_C.document(nested, "[" * 3000, None, None)

    def test_other_arguments_are_refused(self):
        for arguments in ((), ("{}", "", None, None), (b"", b"", None, None), (b"", "", None)):
            with self.assertRaises(TypeError):
                IN_C.document(*arguments)
        with self.assertRaises(TypeError):
            IN_C.setup()

    def test_nothing_is_kept(self):
        refused = (b"", b'{"kind":"Document","definitions":[{"kind":"OperationDefinition","line":1,"column":1,"operation":"que')

        def rounds(count):
            for _ in range(count):
                for body, written, document in texts_in_c():
                    document(written)
                    graphql_parser.parse(body, no_location=True)
                    for other in (*refused, written[:-3]):
                        with contextlib.suppress(ValueError):
                            document(other)

        # Python's own free lists have to be full.
        rounds(300)
        gc.collect()
        before = sys.getallocatedblocks(), sys.getrefcount(ast.NameNode), sys.getrefcount(True)
        rounds(500)
        gc.collect()
        after = sys.getallocatedblocks(), sys.getrefcount(ast.NameNode), sys.getrefcount(True)
        for one, other in zip(before, after):
            self.assertLess(abs(other - one), 400)

    def test_each_refused_request_for_memory_is_answered(self):
        try:
            import _testcapi
        except ImportError:
            self.skipTest("this Python has no module _testcapi")
        for body, call in ((TEXT.replace("h: 2", "i: 2"), _library.parse_query), (SCHEMA_FILE, _library.parse_schema)):
            json = _library.parse_bytes(call, body, (64, 64, 64), True)
            source = Source(body)
            expected = IN_C.document(json, body, source, None)
            gc.collect()
            before = sys.getallocatedblocks()
            for number in range(1, 100000):
                document = None
                _testcapi.set_nomemory(number, number + 1)
                try:
                    document = IN_C.document(json, body, source, None)
                except MemoryError:
                    pass
                finally:
                    _testcapi.remove_mem_hooks()
                if document is not None:
                    break
            self.assertGreater(number, 50)
            self.assertEqual(document, expected)
            del document
            gc.collect()
            self.assertLess(abs(sys.getallocatedblocks() - before), 50)

    def test_the_deepest_text_takes_little_stack(self):
        limit = 256
        text = "{a" * limit + "{b(c:" + "{d:" * (limit - 1) + '["e"]' + "}" * (limit - 1) + ")}" + "}" * limit
        found = []

        def read():
            found.append(graphql_parser.parse(text, selections=limit, values=limit, types=limit))

        before = threading.stack_size(512 * 1024)
        try:
            thread = threading.Thread(target=read)
            thread.start()
            thread.join()
        finally:
            threading.stack_size(before)
        self.assertEqual(len(found), 1)


if __name__ == "__main__":
    unittest.main()
