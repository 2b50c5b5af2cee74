"""graphql-core's nodes as text, as its own `print_ast` prints them, whose visitor copies each node that it passes.

Each kind of node has a function that returns its text, as if it were at the left: what contains a text indents it. Strings are
written by graphql-core's functions.
"""

import graphql
from graphql.language.block_string import print_block_string
from graphql.language.print_string import print_string

# The arguments of a field are broken over lines if it would be longer than this with them.
_LONGEST = 80


def print_ast(node):
    """What `graphql_parser.print_ast` returns. A tree that nests too deep for Python's stack, a node without a part and one of
    an unknown kind are left to graphql-core, with its answers and errors."""
    try:
        return _text(node)
    except (RecursionError, AttributeError, KeyError, TypeError):
        return graphql.print_ast(node)


def _text(node):
    return _TEXTS[node.kind](node)


def _maybe(node):
    return node and _text(node)


def _all(nodes, between):
    """The texts of nodes, with another between each two; the empty text for none."""
    return between.join(filter(None, map(_text, nodes))) if nodes else ""


def _joined(*texts):
    """Those of the texts that are there, a blank apart."""
    return " ".join(filter(None, texts))


def _wrapped(before, text, after=""):
    """A text between two others; nothing if it is empty."""
    return f"{before}{text}{after}" if text else ""


def _lines(opening, text, closing):
    """A text on lines of its own, indented; nothing if it is empty."""
    indented = text.replace("\n", "\n  ")
    return f"{opening}\n  {indented}\n{closing}" if text else ""


def _block(nodes):
    return _lines("{", _all(nodes, "\n"), "}")


def _directives(node):
    return _all(node.directives, " ")


def _document(node):
    return _all(node.definitions, "\n\n")


def _operation(node):
    variables = _wrapped("(", _all(node.variable_definitions, ", "), ")")
    name = node.name.value if node.name else ""
    front = _joined(node.operation.value, name + variables, _directives(node))
    body = _text(node.selection_set)
    return body if front == "query" else f"{front} {body}"


def _variable_definition(node):
    default = _wrapped(" = ", _maybe(node.default_value))
    return f"{_text(node.variable)}: {_text(node.type)}{default}{_wrapped(' ', _directives(node))}"


def _field(node):
    front = _wrapped("", node.alias and node.alias.value, ": ") + node.name.value
    line = front + _wrapped("(", _all(node.arguments, ", "), ")")
    if len(line) > _LONGEST:
        line = front + _lines("(", _all(node.arguments, "\n"), ")")
    return _joined(line, _directives(node), node.selection_set and _block(node.selection_set.selections))


def _named_value(node):
    return f"{node.name.value}: {_text(node.value)}"


def _spread(node):
    return f"...{node.name.value}{_wrapped(' ', _directives(node))}"


def _inline_fragment(node):
    condition = _wrapped("on ", _maybe(node.type_condition))
    return _joined("...", condition, _directives(node), node.selection_set and _block(node.selection_set.selections))


def _fragment(node):
    variables = _wrapped("(", _all(node.variable_definitions, ", "), ")")
    front = f"fragment {node.name.value}{variables} on {_text(node.type_condition)}"
    return f"{front} {_wrapped('', _directives(node), ' ')}{_text(node.selection_set)}"


def _string(node):
    return print_block_string(node.value) if node.block else print_string(node.value)


def _directive(node):
    return f"@{node.name.value}{_wrapped('(', _all(node.arguments, ', '), ')')}"


def _root(node):
    return f"{node.operation.value}: {_text(node.type)}"


def _parameters(node):
    """The arguments of a definition, each on a line of its own if one has more lines."""
    texts = [_text(argument) for argument in node.arguments or ()]
    if any("\n" in text for text in texts):
        return _lines("(", "\n".join(texts), ")")
    return _wrapped("(", ", ".join(texts), ")")


def _field_definition(node):
    return f"{node.name.value}{_parameters(node)}: {_text(node.type)}{_wrapped(' ', _directives(node))}"


def _input_value(node):
    default = _wrapped("= ", _maybe(node.default_value))
    return _joined(f"{node.name.value}: {_text(node.type)}", default, _directives(node))


def _enum_value(node):
    return _joined(node.name.value, _directives(node))


def _directive_definition(node):
    repeatable = " repeatable" if node.repeatable else ""
    return f"directive @{node.name.value}{_parameters(node)}{repeatable} on {_all(node.locations, ' | ')}"


def _schema(node):
    return _joined("schema", _directives(node), _block(node.operation_types))


def _scalar(node):
    return _joined("scalar", node.name.value, _directives(node))


def _with_fields(keyword):
    """The function for a type that may have interfaces."""

    def text(node):
        interfaces = _wrapped("implements ", _all(node.interfaces, " & "))
        return _joined(keyword, node.name.value, interfaces, _directives(node), _block(node.fields))

    return text


def _union(node):
    return _joined("union", node.name.value, _directives(node), _wrapped("= ", _all(node.types, " | ")))


def _enum(node):
    return _joined("enum", node.name.value, _directives(node), _block(node.values))


def _input(node):
    return _joined("input", node.name.value, _directives(node), _block(node.fields))


def _described(text):
    """The function for a definition that may have a description, where `text` is that for all else of it."""
    return lambda node: f"{_text(node.description)}\n{text(node)}" if node.description else text(node)


def _extending(text):
    return lambda node: "extend " + text(node)


# The functions of each kind of node.
_TEXTS = {
    "name": lambda node: node.value,
    "document": _document,
    "operation_definition": _operation,
    "variable_definition": _variable_definition,
    "selection_set": lambda node: _block(node.selections),
    "field": _field,
    "argument": _named_value,
    "fragment_spread": _spread,
    "inline_fragment": _inline_fragment,
    "fragment_definition": _fragment,
    "variable": lambda node: f"${node.name.value}",
    "int_value": lambda node: node.value,
    "float_value": lambda node: node.value,
    "string_value": _string,
    "boolean_value": lambda node: "true" if node.value else "false",
    "null_value": lambda node: "null",
    "enum_value": lambda node: node.value,
    "list_value": lambda node: f"[{_all(node.values, ', ')}]",
    "object_value": lambda node: f"{{{_all(node.fields, ', ')}}}",
    "object_field": _named_value,
    "directive": _directive,
    "named_type": lambda node: node.name.value,
    "list_type": lambda node: f"[{_text(node.type)}]",
    "non_null_type": lambda node: f"{_text(node.type)}!",
    "operation_type_definition": _root,
    "field_definition": _described(_field_definition),
    "input_value_definition": _described(_input_value),
    "enum_value_definition": _described(_enum_value),
    "directive_definition": _described(_directive_definition),
    "schema_definition": _described(_schema),
    "schema_extension": _extending(_schema),
}
for _kind, _function in (
    ("scalar", _scalar),
    ("object", _with_fields("type")),
    ("interface", _with_fields("interface")),
    ("union", _union),
    ("enum", _enum),
    ("input_object", _input),
):
    _TEXTS[f"{_kind}_type_definition"] = _described(_function)
    _TEXTS[f"{_kind}_type_extension"] = _extending(_function)
