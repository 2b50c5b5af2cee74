"""graphql-core's nodes, from the library's JSON.

The module in C that `nodes.c` is, if there is one, makes them. Else the standard library reads the JSON, and calls a
function for each object in it, innermost first. That function makes the node from its members. What the library's places leave
out is found in the text: where the nodes inside lists and objects begin, and which strings are block strings.
"""

import ctypes
import gc
import importlib.machinery
import importlib.util
import itertools
import json
import os
import re

import graphql

# Before what is missing in an older one is asked of it.
_found = getattr(graphql, "__version__", "a module graphql without a version")
if [int(number) for number in re.findall("[0-9]+", _found)[:2]] < [3, 2]:
    raise ImportError(f"graphql_parser needs graphql-core 3.2 or later, and found {_found}: pip install 'graphql-core>=3.2,<3.3'")

from graphql.error import GraphQLSyntaxError
from graphql.language import Location, OperationType, Source, ast

from . import _library
from ._errors import GraphQLError, Kind
from ._json import decoded

_IGNORED = r"(?:[ \t\n\r,\ufeff]+|#[^\n\r]*)*"
_FIRST = re.compile(_IGNORED + r'("|\w*)')
_SCHEMA_WORDS = {'"', "schema", "scalar", "type", "interface", "union", "enum", "input", "directive", "extend"}
# A dollar sign or a keyword, and what is ignored after it.
_BEFORE_NAME = re.compile(r"(?:\$|\w+)" + _IGNORED)
_LONE_CARRIAGE_RETURN = re.compile("\r(?!\n)")
_BLOCK = '"""'
# A comment, a mark, or in one of the groups a token at which a value, a type or a name begins, or one that closes a list or an
# object.
_TOKEN = re.compile(r'#[^\n\r]*|([\w.+-]+|"""(?:\\"""|[^"]|"(?!""))*"""|"(?:\\.|[^"\\])*"|\$)|([\[{])|([\]}])|[():!=@&|]')
# In a minified text a token that is no mark, and in the group how one begins that touches it, before which graphql-core leaves a
# blank: another of these, or dots.
_WHOLE_TOKEN = re.compile(
    r'(?:"""(?:[^"\\]+|\\"""|\\|"(?!""))*"""|"(?:[^"\\]+|\\.)*"|[^\W\d]\w*|-?\d+(?:\.\d+)?(?:[eE][+-]?\d+)?)'
    r'(?=(["\w-]|\.\.\.)?)'
)
_OPENS = 2
_CLOSES = 3
_CACHE = "_graphql_parser_locations"
# The first line of a report of a rejected token, or of one that nests too deep: its place, and what is said of it.
_REPORT = re.compile("([0-9]+):([0-9]+): (?:syntax error: )?(.+)")


class _Text:
    """A text that is read, and whether its nodes get locations."""

    __slots__ = "source", "body", "is_located", "starts"

    def __init__(self, source, is_located):
        self.source = source
        self.is_located = is_located
        # The library begins no line at a lone carriage return, so places after one aren't unique. A line feed in its stead
        # is as good: either ends a comment, or a line of a block string, and neither may be in a string.
        self.body = _LONE_CARRIAGE_RETURN.sub("\n", source.body) if "\r" in source.body else source.body

    def find_lines(self):
        # For each line, counted from 1, one less than the offset that it begins at: columns are counted from 1 too.
        lengths = (len(line) + 1 for line in self.body.split("\n"))
        self.starts = [0, *itertools.accumulate(lengths, initial=-1)]


def _text_of(source, is_located):
    if not isinstance(source, Source):
        # What isn't UTF-8 becomes lone surrogates, which have none.
        is_text = isinstance(source, str)
        source = Source(source if is_text else _library.raw_bytes(source).decode(errors="surrogateescape"))
    return _Text(source, is_located)


def _answer(text, name, take, limits, *options):
    """What a call of the language that the first token decides returns for a text; graphql-core's error if it is rejected."""
    language = "schema" if _FIRST.match(text.body).group(1) in _SCHEMA_WORDS else "query"
    call, explain = (getattr(_library, f"{word}_{language}") for word in (name, "explain"))
    try:
        return take(call, text.body, limits, *options)
    except GraphQLError as error:
        raise _syntax_error(text, *_told(error, text, explain, limits)) from error


def parse(source, no_location, limits):
    """What `graphql_parser.parse` returns."""
    text = _text_of(source, not no_location)
    return _document(_answer(text, "parse", _library.parse_bytes, limits, True), text)


def strip_ignored_characters(source, limits):
    """What `graphql_parser.strip_ignored_characters` returns."""
    minified = _answer(_text_of(source, False), "minify", _library.rewrite, limits)
    return _WHOLE_TOKEN.sub(_with_blank, minified)


def _with_blank(token):
    return token[0] + " " if token[1] else token[0]


def _syntax_error(text, message, places):
    """graphql-core's error, with our message and places."""
    text.find_lines()
    positions = [text.starts[line] + column for line, column in places]
    refused = GraphQLSyntaxError(text.source, positions[0] if positions else 0, message)
    refused.positions = positions or None
    refused.locations = [text.source.get_location(position) for position in positions] or None
    return refused


def _told(error, text, explain, limits):
    """The message and the places of an error.

    Of a rejected token they are those of the library's report, which says what was found and what was expected. Its place is the
    error's, but for a bad escape in a string: there it is that of the escape, as in graphql-core. Of a text that nests too deep
    the message is the report's. If there is no memory for a report, both are the error's own.
    """
    if error.kind in (Kind.SYNTAX, Kind.RECURSION_LIMIT_EXCEEDED):
        try:
            found = _REPORT.match(_library.explain(explain, text.body, limits) or "")
            if found:
                line, column, message = found.groups()
                return message, [(int(line), int(column))] if error.places else []
        except (MemoryError, ctypes.ArgumentError):
            # The second is how ctypes says that it got no memory for an argument.
            pass
    return error.message, error.places


def _document(written, text):
    # A tree has no cycles, and the collector would look through it again and again while it grows.
    collects = gc.isenabled()
    gc.disable()
    try:
        return (_document_in_c if _in_c else _document_in_python)(written, text)
    finally:
        if collects:
            gc.enable()


def _document_in_c(written, text):
    def repeated(start):
        return _located_value(text, start)

    return _in_c.document(written, text.body, text.source if text.is_located else None, repeated)


def _document_in_python(written, text):
    def made(members):
        return _MAKERS[members["kind"]](members, text)

    text.find_lines()
    return decoded(written.decode(), made)


class _Location(Location):
    """Where a node starts. Its end and its tokens are those that graphql-core's parser finds, which runs when the first of
    them is asked for."""

    __slots__ = ()

    # Each class of nodes has a class of locations.
    node_class = None

    def __getattr__(self, name):
        if name not in ("end", "start_token", "end_token"):
            raise AttributeError(f"a location has no attribute {name!r}")
        whole = _whole_locations(self.source).get((self.start, self.node_class))
        if whole is None:
            raise AttributeError(f"graphql-core doesn't read this text, which {name!r} is asked of")
        self.end, self.start_token, self.end_token = whole.end, whole.start_token, whole.end_token
        return getattr(self, name)

    def __eq__(self, other):
        if isinstance(other, _Location) and self.source == other.source:
            return (self.start, self.node_class) == (other.start, other.node_class)
        return super().__eq__(other)

    def __hash__(self):
        return hash(self.start)

    def __reduce__(self):
        return _location, (self.node_class, self.start, self.source)


def _whole_locations(source):
    """graphql-core's locations of the nodes of a text, by where they start and their class; none if it rejects the text."""
    found = getattr(source, _CACHE, None)
    if found is None:
        found = {}
        try:
            waiting = [graphql.parse(source)]
        except (graphql.GraphQLError, RecursionError):
            waiting = []
        while waiting:
            node = waiting.pop()
            if isinstance(node, tuple):
                waiting.extend(node)
            elif isinstance(node, ast.Node):
                found[node.loc.start, type(node)] = node.loc
                waiting.extend(getattr(node, key) for key in node.keys if key != "loc")
        setattr(source, _CACHE, found)
    return found


_new = object.__new__


def _location(node_class, start, source):
    location = _new(_LOCATIONS[node_class])
    location.start = start
    location.source = source
    return location


# The slots themselves: `Node.__setattr__` first looks for a cached hash, which a node that nobody has seen hasn't got.
_set_loc = ast.Node.loc.__set__
_set_block = ast.StringValueNode.block.__set__


def _place(node, start, text):
    if text.is_located:
        _set_loc(node, _location(node.__class__, start, text.source))


def _place_document(node, start, text):
    _place(node, 0, text)


def _place_name(node, start, text):
    """Places the name of an operation or a fragment, which is after its keyword, or that of a variable."""
    name = node.name
    if name is not None and name.loc is None and text.is_located:
        _place(name, _BEFORE_NAME.match(text.body, start).end(), text)


def _place_roots(node, start, text):
    """Places the roots of a schema: each begins at its keyword, two tokens before its type."""
    roots = {root.type.loc.start: root for root in node.operation_types} if text.is_located else {}
    before = None
    tokens = _TOKEN.finditer(text.body, start)
    while roots:
        token = next(tokens)
        if token.lastindex:
            at = token.start()
            if at in roots:
                _place(roots.pop(at), before, text)
            before = at


def _tell_block(node, start, text):
    _set_block(node, text.body.startswith(_BLOCK, start))


def _place_inside(outermost, start, text):
    """Places what is inside a list, an object or a type, and finds which strings in it are block strings.

    Returns whether each token is of a node. If an object has a field twice some aren't: the library has it once.
    """
    source = text.source if text.is_located else None
    waiting = [outermost]
    depth = 0
    for token in _TOKEN.finditer(text.body, start):
        group = token.lastindex
        if group == _CLOSES:
            depth -= 1
            if not depth:
                return not waiting
        elif group:
            if not waiting:
                return False
            depth += group == _OPENS
            node = waiting.pop()
            at = token.start()
            while node is not None:
                if source is not None:
                    location = _new(_LOCATIONS[node.__class__])
                    location.start = at
                    location.source = source
                    _set_loc(node, location)
                after = _AFTER.get(node.__class__)
                node = after(node, waiting, token) if after else None


def _after_field(node, waiting, token):
    waiting.append(node.value)
    return node.name


def _after_list(node, waiting, token):
    waiting.extend(reversed(node.values))


def _after_object(node, waiting, token):
    waiting.extend(reversed(node.fields))


def _after_variable(node, waiting, token):
    waiting.append(node.name)


def _after_list_type(node, waiting, token):
    waiting.append(node.type)


def _after_string(node, waiting, token):
    _set_block(node, token.string.startswith(_BLOCK, token.start()))


# What follows a node that is placed: the nodes that begin at later tokens go to those that wait, the next one last; what is
# given begins at the same token.
_AFTER = {
    ast.ObjectFieldNode: _after_field,
    ast.ListValueNode: _after_list,
    ast.ObjectValueNode: _after_object,
    ast.VariableNode: _after_variable,
    ast.StringValueNode: _after_string,
    ast.ListTypeNode: _after_list_type,
    ast.NonNullTypeNode: lambda node, waiting, token: node.type,
    ast.NamedTypeNode: lambda node, waiting, token: node.name,
}


def _place_value(node, start, text):
    if not _place_inside(node, start, text):
        whole = _located_value(text, start)
        for key in node.keys:
            setattr(node, key, getattr(whole, key))


def _located_value(text, start):
    """The list or object at an offset, in which an object has a field twice."""
    node = _value_with_repeated_fields(text.body, start)
    _place_inside(node, start, text)
    return node


def _value_with_repeated_fields(body, start):
    """The list or object at an offset, with all the fields of its objects. Each string, number or word in it is read by
    graphql-core."""
    opened = []
    is_variable = False
    for token in _TOKEN.finditer(body, start):
        mark = token.group()
        if mark in "[{":
            opened.append((mark, []))
            continue
        elif mark in "]}":
            kind, items = opened.pop()
            if kind == "[":
                value = ast.ListValueNode(values=items)
            else:
                fields = zip(items[::2], items[1::2])
                value = ast.ObjectValueNode(fields=[ast.ObjectFieldNode(name=name, value=value) for name, value in fields])
            if not opened:
                return value
        elif not token.lastindex:
            continue
        elif mark == "$":
            is_variable = True
            continue
        elif is_variable:
            value = ast.VariableNode(name=ast.NameNode(value=mark))
            is_variable = False
        elif opened[-1][0] == "{" and len(opened[-1][1]) % 2 == 0:
            value = ast.NameNode(value=mark)
        else:
            value = graphql.parse_value(mark, no_location=True)
        opened[-1][1].append(value)


# What is done once a node that has a place is made.
_FINISHES = {
    ast.OperationDefinitionNode: _place_name,
    ast.FragmentDefinitionNode: _place_name,
    ast.VariableNode: _place_name,
    ast.SchemaDefinitionNode: _place_roots,
    ast.SchemaExtensionNode: _place_roots,
    ast.StringValueNode: _tell_block,
    ast.ListValueNode: _place_value,
    ast.ObjectValueNode: _place_value,
    ast.ListTypeNode: _place_inside,
}

# The members that are lists, which are there even if they are empty.
_LISTS = {
    "definitions",
    "variableDefinitions",
    "directives",
    "selections",
    "arguments",
    "values",
    "fields",
    "operationTypes",
    "interfaces",
    "types",
    "locations",
}

_OPERATIONS = {operation.value: operation for operation in OperationType}

# What the instances of a subclass have that is as quick as any object to make and to fill.
_PLAIN = {"__slots__": (), "__setattr__": object.__setattr__, "__init__": object.__init__}

_MAKER = """
def made(members, text):
    node = filled_class()
    node.loc = None
    if "line" in members:
        start = text.starts[members["line"]] + members["column"]
        if text.is_located:
            location = node.loc = location_class()
            location.start = start
            location.source = text.source
{attributes}
    node.__class__ = node_class
{finish}
    return node
"""


def _member(key):
    """The JSON's name of an attribute."""
    first, *others = key.split("_")
    return first + "".join(other.capitalize() for other in others)


def _attribute(node_class, key):
    """What an attribute of a node is, as an expression over `members`."""
    member = _member(key)
    if key == "operation":
        return 'operations[members["operation"]]'
    if key == "block":
        return "False"
    if member in _LISTS and (node_class, key) != (ast.FragmentDefinitionNode, "variable_definitions"):
        return f'tuple(members["{member}"]) if members["{member}"] else ()'
    return f'members.get("{member}")'


def _maker(node_class):
    """The function that makes a node of a class from its members.

    It fills an instance of a subclass, whose attributes are set as those of any object are, and makes it a node of the class
    at the end.
    """
    finish = _FINISHES.get(node_class)
    attributes = [f"    node.{key} = {_attribute(node_class, key)}" for key in node_class.keys if key != "loc"]
    names = {
        "node_class": node_class,
        "filled_class": type(node_class.__name__, (node_class,), _PLAIN),
        "location_class": _LOCATIONS[node_class],
        "operations": _OPERATIONS,
        "finish": finish,
    }
    called = "    if \"line\" in members:\n        finish(node, start, text)" if finish else ""
    if node_class is ast.DocumentNode:
        names["finish"], called = _place_document, "    finish(node, 0, text)"
    exec(_MAKER.format(attributes="\n".join(attributes), finish=called), names)
    return names["made"]


_CLASSES = [
    node_class
    for name, node_class in vars(ast).items()
    if name.endswith("Node") and not name.startswith("Const") and isinstance(node_class, type)
]
_LOCATIONS = {
    node_class: type("Location", (_Location,), {"__slots__": (), "__init__": object.__init__, "node_class": node_class}) for node_class in _CLASSES
}
_KINDS = {node_class.__name__[: -len("Node")]: node_class for node_class in _CLASSES}
_MAKERS = {kind: _maker(node_class) for kind, node_class in _KINDS.items()}


def _c_module():
    """The module in C, set up with graphql-core's classes; None if there is none that this interpreter takes, or if the classes
    don't keep their attributes in slots."""
    name = "_nodes_c"
    paths = _library.paths_of(name + importlib.machinery.EXTENSION_SUFFIXES[0])
    path = next(filter(os.path.exists, paths), None)
    if path is None:
        return None
    kinds = []
    for kind, node_class in _KINDS.items():
        members = tuple((_member(key), getattr(node_class, key)) for key in node_class.keys if key != "loc")
        kinds.append((kind, node_class, _LOCATIONS[node_class], members))
    spec = importlib.util.spec_from_file_location(f"{__package__}.{name}", path)
    try:
        module = importlib.util.module_from_spec(spec)
        spec.loader.exec_module(module)
        module.setup(_OPERATIONS, json.decoder.scanstring, ast.Node.loc, Location.start, Location.source, tuple(kinds))
    except (ImportError, TypeError):
        return None
    return module


_in_c = _c_module()
