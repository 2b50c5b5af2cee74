"""`print_ast` and `strip_ignored_characters` beside those of graphql-core.

RANDOM_TEXTS in the environment says how many random texts are compared, in place of 500.
"""

import os
import sys
import unittest
import unittest.mock
from pathlib import Path

import graphql
from graphql.language import Node, OperationType, Source, ast

import graphql_parser
from graphql_parser import Kind
from test_nodes import REFUSED, REQUESTS, SCHEMA_FILES, Random

COUNT = int(os.environ.get("RANDOM_TEXTS", 500))
SIGNS = str.maketrans("␊␍␉␠", "\n\r\t ")


def texts_of_rows():
    """The texts of the library's tables (notation: `crates/rows/src/lib.rt`), but for those with marks that repeat."""
    root = Path(__file__).resolve().parents[2]
    files = [*root.glob("crates/*/data/tables/*"), *root.glob("tests/tables/*.rows")]
    lines = [line for file in sorted(files) for line in file.read_text().splitlines() if " ⇒" in line]
    texts = {line.partition(" ⇒")[0] for line in lines if not line.startswith("-- ") and "⟨" not in line}
    return sorted(text.translate(SIGNS) for text in texts)


def texts():
    made = Random(3)
    return REQUESTS + SCHEMA_FILES + texts_of_rows() + [made.text() for _ in range(COUNT)]


def trees():
    """graphql-core's trees of the texts that it reads."""
    for text in texts():
        try:
            yield text, graphql.parse(text)
        except (graphql.GraphQLError, RecursionError, IndexError):
            # The last at a backslash that ends the text.
            pass


def nodes_in(tree):
    waiting = [tree]
    while waiting:
        node = waiting.pop()
        if isinstance(node, tuple):
            waiting.extend(node)
        elif isinstance(node, Node):
            yield node
            waiting.extend(getattr(node, key) for key in node.keys if key != "loc")


def answer(call, *arguments):
    """What a call gives or raises."""
    try:
        return call(*arguments)
    except Exception as error:
        return type(error), str(error)


def name(value):
    return ast.NameNode(value=value)


def field(value, **parts):
    return ast.FieldNode(name=name(value), **parts)


def nested(node, count):
    for _ in range(count):
        node = ast.ListValueNode(values=[node])
    return node


STRINGS = [
    "",
    "a",
    " ",
    " a",
    "a ",
    "a\n",
    "\na",
    "a\nb",
    " a\n b",
    "a\n  b",
    "a\n\n \nb",
    "\ta\\",
    'a"',
    '"',
    '"""',
    'a"""b',
    'a\\"""',
    "a\rb\r\nc",
    "a\u2028b\x0bc\x85",
    "é😀",
    "".join(map(chr, range(160))),
    "a" * 70,
    "a" * 71,
    " " + "a" * 71,
    "a\n" * 40 + "b",
]

# Nodes that a program makes, some of which no text has.
MADE = [
    field("a"),
    field("a", arguments=(), directives=[], selection_set=ast.SelectionSetNode(selections=[])),
    field("a", alias=name(""), selection_set=ast.SelectionSetNode(selections=[field("b"), field("")])),
    field(""),
    field(None),
    ast.FieldNode(),
    ast.Node(),
    ast.DocumentNode(definitions=[]),
    ast.DocumentNode(),
    ast.OperationDefinitionNode(operation=OperationType.QUERY, selection_set=ast.SelectionSetNode(selections=[field("a")])),
    ast.OperationDefinitionNode(operation=OperationType.QUERY, name=name("A"), selection_set=ast.SelectionSetNode(selections=[])),
    ast.OperationDefinitionNode(operation=OperationType.QUERY),
    ast.FragmentDefinitionNode(
        name=name("A"),
        variable_definitions=[
            ast.VariableDefinitionNode(
                variable=ast.VariableNode(name=name("b")),
                type=ast.NamedTypeNode(name=name("C")),
                default_value=ast.ConstListValueNode(values=[ast.ConstObjectValueNode(fields=[])]),
                directives=[ast.ConstDirectiveNode(name=name("d"), arguments=[])],
            )
        ],
        type_condition=ast.NamedTypeNode(name=name("E")),
        directives=[ast.DirectiveNode(name=name("f"))],
        selection_set=ast.SelectionSetNode(selections=[field("g")]),
    ),
    ast.FragmentDefinitionNode(name=name("A")),
    ast.InlineFragmentNode(),
    ast.FragmentSpreadNode(name=name("A")),
    ast.ArgumentNode(name=name("a")),
    ast.VariableDefinitionNode(variable=ast.VariableNode(name=name("b"))),
    ast.StringValueNode(value="a"),
    ast.StringValueNode(value=1),
    ast.IntValueNode(value=1),
    ast.ListValueNode(values=[ast.IntValueNode(value=1)]),
    ast.BooleanValueNode(value=None),
    ast.SchemaDefinitionNode(),
    ast.SchemaExtensionNode(),
    ast.ObjectTypeDefinitionNode(name=name("A")),
    ast.ObjectTypeExtensionNode(name=name("A")),
    ast.UnionTypeExtensionNode(name=name("A")),
    ast.EnumTypeExtensionNode(name=name("A")),
    ast.InputObjectTypeExtensionNode(name=name("A")),
    ast.ScalarTypeDefinitionNode(),
    ast.FieldDefinitionNode(name=name("a"), type=ast.NamedTypeNode(name=name("B"))),
    ast.FieldDefinitionNode(name=name("a")),
    ast.DirectiveDefinitionNode(name=name("a")),
    "{a}",
    None,
    1,
    [field("a")],
]


class OtherFieldNode(ast.FieldNode):
    """Of a kind that graphql-core doesn't know."""


class PrintAst(unittest.TestCase):
    def test_each_node_of_each_text(self):
        compared = 0
        for text, tree in trees():
            for node in nodes_in(tree) if len(text) < 300 else [tree]:
                self.assertEqual(graphql_parser.print_ast(node), graphql.print_ast(node), text)
                compared += 1
        self.assertGreater(compared, 10_000)

    def test_nothing_is_left_to_graphql_core(self):
        for text in REQUESTS + SCHEMA_FILES:
            tree = graphql.parse(text)
            with unittest.mock.patch.object(graphql, "print_ast", None):
                for node in nodes_in(tree):
                    graphql_parser.print_ast(node)

    def test_trees_of_parse(self):
        for text in REQUESTS + SCHEMA_FILES:
            with self.subTest(text=text):
                self.assertEqual(graphql_parser.print_ast(graphql_parser.parse(text)), graphql.print_ast(graphql.parse(text)))

    def test_each_string(self):
        for value in STRINGS:
            for block in (True, False):
                node = ast.StringValueNode(value=value, block=block)
                argument = ast.ArgumentNode(name=name("a"), value=node)
                definition = ast.FieldDefinitionNode(description=node, name=name("b"), type=ast.NamedTypeNode(name=name("C")))
                whole = ast.ObjectTypeDefinitionNode(description=node, name=name("D"), fields=[definition])
                for one in (node, field("e", arguments=[argument, argument]), whole):
                    with self.subTest(value=value, block=block):
                        self.assertEqual(graphql_parser.print_ast(one), graphql.print_ast(one))

    def test_nodes_made_by_hand(self):
        for node in MADE + [OtherFieldNode(name=name("a"))]:
            with self.subTest(node=node):
                self.assertEqual(answer(graphql_parser.print_ast, node), answer(graphql.print_ast, node))

    def test_a_tree_deeper_than_the_stack(self):
        for count in (100, sys.getrecursionlimit() * 2):
            self.assertEqual(graphql_parser.print_ast(nested(name("a"), count)), "[" * count + "a" + "]" * count)


class StripIgnoredCharacters(unittest.TestCase):
    def test_each_text(self):
        compared = with_blanks = 0
        for text, tree in trees():
            try:
                same = graphql_parser.parse(text, True) == graphql.parse(text, True)
            except graphql.GraphQLSyntaxError:
                continue
            if same:
                found = graphql_parser.strip_ignored_characters(text)
                wanted = graphql.strip_ignored_characters(text)
                if found != wanted:
                    # A block string that graphql-core would write longer stays as it is.
                    self.assertLess(len(found), len(wanted), text)
                    self.assertEqual(graphql.strip_ignored_characters(found), wanted, text)
                compared += 1
                minify = graphql_parser.minify_query if found[0] in "{qmsf" else graphql_parser.minify_schema
                with_blanks += answer(minify, text) != found
        self.assertGreater(compared, COUNT // 2)
        self.assertGreater(with_blanks, COUNT // 4)

    def test_what_may_touch(self):
        for text in (
            '{a(b:[1 -2 E -3 "" "c" """d""" 4.5e-6 "e" f $g "-7" "\\"8"])...H i ...J}query...'.replace("query...", ""),
            '"a" scalar B """c""" scalar D',
            '"" scalar A "" "b" scalar C'.replace('"" "b"', '"b"'),
        ):
            with self.subTest(text=text):
                self.assertEqual(graphql_parser.strip_ignored_characters(text), graphql.strip_ignored_characters(text))

    def test_a_source(self):
        for source in ("{ a }", b"{ a }", Source("{ a }")):
            self.assertEqual(graphql_parser.strip_ignored_characters(source), "{a}")

    def test_errors_are_those_of_parse(self):
        for text, kind, positions, _ in REFUSED:
            with self.subTest(text=text):
                errors = []
                for call in (graphql_parser.parse, graphql_parser.strip_ignored_characters):
                    with self.assertRaises(graphql.GraphQLSyntaxError) as caught:
                        call(text)
                    errors.append(caught.exception)
                parsed, stripped = errors
                # This call is told no names.
                message = parsed.message.replace("operation A is", "an operation is").replace("fragment A is", "a fragment is")
                self.assertEqual(stripped.message, message)
                self.assertEqual((stripped.__cause__.kind, stripped.positions), (kind, positions))

    def test_limits(self):
        with self.assertRaises(graphql.GraphQLSyntaxError) as caught:
            graphql_parser.strip_ignored_characters("{a{b}}", selections=0)
        self.assertEqual(caught.exception.__cause__.kind, Kind.RECURSION_LIMIT_EXCEEDED)
        with self.assertRaisesRegex(ValueError, "limit"):
            graphql_parser.strip_ignored_characters("{a}", types=257)
        with self.assertRaises(TypeError):
            graphql_parser.strip_ignored_characters(None)


if __name__ == "__main__":
    unittest.main()
