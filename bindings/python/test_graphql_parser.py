"""The calls on good, refused and too deep texts of both languages, from one thread and from several."""

import concurrent.futures
import copy
import doctest
import json
import multiprocessing
import pickle
import unittest

import four_threads
import graphql_parser
from graphql_parser import GraphQLError, Kind, _json, _library

FIELD = {
    "kind": "Document",
    "definitions": [
        {
            "kind": "OperationDefinition",
            "operation": "query",
            "variableDefinitions": [],
            "directives": [],
            "selectionSet": {
                "kind": "SelectionSet",
                "selections": [
                    {"kind": "Field", "name": {"kind": "Name", "value": "a"}, "arguments": [], "directives": []}
                ],
            },
        }
    ],
}

SCALAR = (
    '{"kind":"Document","definitions":[{"kind":"ScalarTypeDefinition","line":1,"column":1,'
    '"name":{"kind":"Name","line":1,"column":8,"value":"A"},"directives":[]}]}'
)

REQUEST = (graphql_parser.check_query, graphql_parser.parse_query)
SCHEMA_FILE = (graphql_parser.check_schema, graphql_parser.parse_schema)
ANEW = {
    REQUEST: (graphql_parser.minify_query, graphql_parser.format_query),
    SCHEMA_FILE: (graphql_parser.minify_schema, graphql_parser.format_schema),
}
EXPLAIN = {REQUEST: graphql_parser.explain_query, SCHEMA_FILE: graphql_parser.explain_schema}

REFUSED = [
    (REQUEST, "{a", Kind.SYNTAX, [(1, 3)]),
    (REQUEST, "", Kind.SYNTAX, [(1, 1)]),
    (REQUEST, "{é ?}", Kind.SYNTAX, [(1, 2)]),
    (REQUEST, "{a" * 66, Kind.RECURSION_LIMIT_EXCEEDED, []),
    (REQUEST, "{a}query B{b}", Kind.MULTIPLE_OPERATIONS, [(1, 1), (1, 4)]),
    (REQUEST, "query A{a}\nquery A{a}", Kind.OPERATION_DUPLICATED, [(2, 1), (1, 1)]),
    (REQUEST, "fragment F on T{a}{b}fragment F on T{c}", Kind.FRAGMENT_DUPLICATED, [(1, 22), (1, 1)]),
    (REQUEST, "fragment F on T{a}", Kind.MISSING_OPERATION, []),
    (SCHEMA_FILE, "type", Kind.SYNTAX, [(1, 5)]),
    (SCHEMA_FILE, "input A{f:" + "[" * 65, Kind.RECURSION_LIMIT_EXCEEDED, []),
    (SCHEMA_FILE, "schema{query:A query:B}", Kind.MULTIPLE_ROOTS, [(1, 16), (1, 1)]),
    (SCHEMA_FILE, "scalar A schema{mutation:M}", Kind.MISSING_QUERY_ROOT, [(1, 10)]),
]


class Calls(unittest.TestCase):
    def test_each_error_has_its_kind_and_its_places(self):
        for (check, parse), text, kind, places in REFUSED:
            for call in (check, parse):
                with self.subTest(text=text, call=call), self.assertRaises(GraphQLError) as caught:
                    call(text)
                self.assertEqual((caught.exception.kind, caught.exception.places), (kind, places))
                self.assertEqual(caught.exception.json is not None, call is parse)

    def test_each_refused_text_is_explained(self):
        for language, text, kind, places in REFUSED:
            with self.subTest(text=text):
                report = EXPLAIN[language](text)
                if places:
                    self.assertTrue(report.startswith("%d:%d: " % places[0]), report)
                if kind == Kind.SYNTAX:
                    self.assertRegex(report.splitlines()[0], ": syntax error: .*, expected ")
                self.assertTrue(report.endswith("\n"), report)
        self.assertEqual(
            graphql_parser.explain_query("{\u00e9 ?}".encode()),
            '1:2: syntax error: the character \u00e9 begins no token, expected a name or "..."\n 1 | {\u00e9 ?}\n   |  ^\n',
        )
        self.assertEqual(
            graphql_parser.explain_query("{a{b}}", selections=0),
            "1:3: recursion limit exceeded: selection sets may nest 0 deep\n 1 | {a{b}}\n   |   ^\n",
        )
        self.assertIsNone(graphql_parser.explain_query("{a}"))
        self.assertIsNone(graphql_parser.explain_schema("scalar A"))

    def test_a_text_is_written_anew(self):
        query, schema = "query A { b(c: [1 -2]) } # d", '"e" scalar F, type G { h: I! }'
        self.assertEqual(graphql_parser.minify_query(query), "query A{b(c:[1-2])}")
        self.assertEqual(graphql_parser.format_query(query.encode()), "query A {\n  b(c: [1, -2])\n} # d")
        self.assertEqual(graphql_parser.minify_schema(schema), '"e"scalar F type G{h:I!}')
        self.assertEqual(graphql_parser.format_schema(schema), '"e"\nscalar F\n\ntype G {\n  h: I!\n}')
        described = 'type A{"""\n    b\n    c\n""" d:E}'
        self.assertEqual(graphql_parser.minify_schema(described), 'type A{"""b\nc"""d:E}')
        self.assertEqual(graphql_parser.format_schema(described), 'type A {\n  """\n  b\n  c\n  """\n  d: E\n}')
        for language, text, kind, places in REFUSED:
            for call in ANEW[language]:
                with self.subTest(text=text, call=call.__name__):
                    with self.assertRaises(GraphQLError) as caught:
                        call(text)
                    self.assertEqual((caught.exception.kind, caught.exception.places), (kind, places))

    def test_an_accepted_text_gives_its_tree(self):
        self.assertIsNone(graphql_parser.check_query("{a}"))
        self.assertIsNone(graphql_parser.check_schema(b"scalar A"))
        self.assertEqual(graphql_parser.parse_query("{a}", selections=0), FIELD)
        self.assertEqual(graphql_parser.schema_json("scalar A", places=True), SCALAR)
        self.assertEqual(graphql_parser.parse_schema("scalar A")["definitions"][0]["name"]["value"], "A")

    def test_an_error_has_json(self):
        with self.assertRaises(GraphQLError) as caught:
            graphql_parser.query_json("{a")
        error = '{"message":"syntax error at 1:3","locations":[{"line":1,"column":3}]}'
        self.assertEqual(caught.exception.json, error)
        self.assertEqual(str(caught.exception), "syntax error at 1:3")

    def test_an_error_has_the_message_of_its_json(self):
        twice = "query A{a}\nquery A{a}"
        for (check, parse), text, kind, places in REFUSED + [(REQUEST, twice, Kind.OPERATION_DUPLICATED, [(2, 1), (1, 1)])]:
            with self.subTest(text=text), self.assertRaises(GraphQLError) as caught:
                parse(text)
            error = caught.exception
            self.assertEqual(error.message, json.loads(error.json)["message"])
            self.assertTrue(str(error).startswith(error.message))
        self.assertEqual(str(error), "operation A is defined twice at 2:1 and 1:1")
        with self.assertRaises(GraphQLError) as caught:
            graphql_parser.check_query(twice)
        self.assertEqual(str(caught.exception), "an operation is defined twice at 2:1 and 1:1")

    def test_an_error_goes_through_pickle(self):
        for call in (graphql_parser.check_query, graphql_parser.query_json):
            with self.assertRaises(GraphQLError) as caught:
                call("query A{a}\nquery A{a}")
            error = caught.exception
            for other in (pickle.loads(pickle.dumps(error)), copy.copy(error)):
                self.assertIs(type(other), GraphQLError)
                self.assertEqual(
                    (str(other), other.kind, other.message, other.places, other.json),
                    (str(error), error.kind, error.message, error.places, error.json),
                )

    def test_an_error_comes_out_of_another_process(self):
        context = multiprocessing.get_context("spawn")
        with concurrent.futures.ProcessPoolExecutor(1, mp_context=context) as pool:
            with self.assertRaises(GraphQLError) as caught:
                pool.submit(graphql_parser.check_query, "{a").result()
            self.assertEqual((caught.exception.kind, caught.exception.places), (Kind.SYNTAX, [(1, 3)]))
            self.assertIsNone(pool.submit(graphql_parser.check_query, "{a}").result())

    def test_a_status_of_a_later_library_keeps_its_number(self):
        self.assertEqual((int(Kind(12)), Kind(12).name), (12, "OTHER_12"))
        self.assertIs(Kind(12), Kind(12))
        self.assertIs(pickle.loads(pickle.dumps(Kind(12))), Kind(12))
        places = _library.Places(_library.Place(2, 3))
        for written in (None, '{"message":"too long"}'):
            with self.assertRaises(GraphQLError) as caught:
                _library.refuse(12, places, written)
            self.assertEqual((caught.exception.kind, caught.exception.places), (12, [(2, 3)]))
        self.assertEqual(str(caught.exception), "too long at 2:3")

    def test_a_character_of_number_0_goes_through(self):
        tree = graphql_parser.parse_query('{a(b:"\\u0000c")}')
        argument = tree["definitions"][0]["selectionSet"]["selections"][0]["arguments"][0]
        self.assertEqual(argument["value"]["value"], "\0c")
        with self.assertRaises(GraphQLError) as caught:
            graphql_parser.check_query("{a}\0")
        self.assertEqual(caught.exception.places, [(1, 4)])

    def test_limits_are_numbers_from_0_to_256(self):
        self.assertIsNone(graphql_parser.check_query("{a" * 257 + "}" * 257, selections=256))
        with self.assertRaises(GraphQLError):
            graphql_parser.check_query("{a{b}}", selections=0)
        for limit in (-1, 257, 2**64):
            for name in ("selections", "values", "types"):
                with self.assertRaisesRegex(ValueError, "limit"):
                    graphql_parser.check_query("{a}", **{name: limit})

    def test_the_deepest_trees_are_read(self):
        def deep(limit):
            values = "{c:" * limit + "1" + "}" * limit
            return "{a" * limit + "{a(b:" + values + ")}" + "}" * limit

        def from_below(frames, text, **options):
            if frames:
                return from_below(frames - 1, text, **options)
            return graphql_parser.parse_query(text, **options)

        shallow = graphql_parser.parse_query('{a(b:"{\\\\\\"[",c:[1,true]){d}}', places=True)
        for frames, limit in ((0, 64), (700, 64), (0, 256), (700, 256)):
            with self.subTest(frames=frames, limit=limit):
                options = {"selections": limit, "values": limit, "places": True}
                tree = from_below(frames, deep(limit), **options)
                node = tree["definitions"][0]["selectionSet"]
                for _ in range(limit):
                    node = node["selections"][0]["selectionSet"]
                node = node["selections"][0]["arguments"][0]["value"]
                for _ in range(limit):
                    self.assertEqual(node["fields"][0]["name"]["value"], "c")
                    node = node["fields"][0]["value"]
                self.assertEqual(node, {"kind": "IntValue", "value": "1"})
        written = graphql_parser.query_json('{a(b:"{\\\\\\"[",c:[1,true]){d}}', places=True)
        self.assertEqual(_json.decoded_in_a_loop(written), shallow)

    def test_texts_are_str_and_bytes(self):
        for text in (b"{a}", bytearray(b"{a}"), memoryview(b"{a}"), memoryview(b"}xax{")[::-2]):
            self.assertIsNone(graphql_parser.check_query(text))
        for text in ([123, 97, 125], 2_000_000_000, None, 1.5, object(), ("{a}",), iter(b"{a}")):
            for call in (*REQUEST, *SCHEMA_FILE, *EXPLAIN.values()):
                with self.assertRaises(TypeError):
                    call(text)

    def test_texts_that_are_not_utf8_are_refused(self):
        for text in (b"{a}\xff", bytearray(b"#\xed\xa0\x80"), "{a}#\ud800"):
            for call in (*REQUEST, *SCHEMA_FILE, *EXPLAIN.values()):
                with self.assertRaises(GraphQLError) as caught:
                    call(text)
                error = caught.exception
                self.assertEqual((error.kind, error.places, error.json), (Kind.NOT_UTF8, [], None))
                self.assertEqual(str(error), "the text isn't UTF-8")

    def test_the_library_has_the_version_of_the_module(self):
        major, minor, patch = map(int, graphql_parser.__version__.split("."))
        self.assertEqual(_library.version(), major * 10000 + minor * 100 + patch)

    def test_several_threads_may_call_at_once(self):
        wrong = []

        def rounds():
            for _ in range(200):
                if graphql_parser.parse_query("{a}") != FIELD:
                    wrong.append("tree")
                try:
                    graphql_parser.parse_query("{a")
                    wrong.append("accepted")
                except GraphQLError as error:
                    if error.places != [(1, 3)]:
                        wrong.append("places")

        four_threads.run(rounds)
        self.assertEqual(wrong, [])

    def test_the_examples_of_the_module(self):
        self.assertEqual(doctest.testmod(graphql_parser).failed, 0)


if __name__ == "__main__":
    unittest.main()
