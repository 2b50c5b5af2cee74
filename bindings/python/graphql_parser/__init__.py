"""A parser of GraphQL requests and schema files whose every function is proved, for Python.

    >>> import graphql_parser
    >>> graphql_parser.parse_query("{ hero }")["kind"]
    'Document'
    >>> graphql_parser.check_query("{ hero")
    Traceback (most recent call last):
    graphql_parser.GraphQLError: syntax error at 1:7

`check_query` and `check_schema` raise an error or return None. `explain_query` and `explain_schema` return a report for people
of what is wrong with a text. `minify_query`, `format_query` and those of schema files return a text written anew.
`parse_query` and `parse_schema` return the tree in the form of GraphQL.js, as dicts and lists;
`query_json` and `schema_json` return it as JSON. `parse`, `print_ast` and `strip_ignored_characters` replace those of
graphql-core: they take and return its nodes, and raise its errors.

A text is a str, or bytes, a bytearray or a memoryview in UTF-8; anything else is a TypeError. A text that isn't UTF-8, or a
str with a lone surrogate, which has no UTF-8, is rejected with the kind NOT_UTF8. `selections`, `values` and `types` say how
deep each may nest, 0 to LARGEST_LIMIT; another number is a ValueError. Other threads run while a text is read.

The shared object, which `bindings/build.sh` makes, is looked for in the folder that the environment variable
GRAPHQL_PARSER_LIB names, beside this file, and in the folder `bindings/out`.
"""

from . import _library
from ._errors import GraphQLError, Kind
from ._library import LARGEST_LIMIT

__all__ = [
    "GraphQLError",
    "Kind",
    "LARGEST_LIMIT",
    "check_query",
    "check_schema",
    "explain_query",
    "explain_schema",
    "format_query",
    "format_schema",
    "minify_query",
    "minify_schema",
    "parse",
    "parse_query",
    "parse_schema",
    "print_ast",
    "query_json",
    "schema_json",
    "strip_ignored_characters",
]

__version__ = "1.0.0"

for _class in (GraphQLError, Kind):
    _class.__module__ = __name__


def check_query(text, *, selections=64, values=64, types=64):
    """Raises a GraphQLError if `text` isn't a request."""
    _library.check(_library.check_query, text, (selections, values, types))


def check_schema(text, *, selections=64, values=64, types=64):
    """Raises a GraphQLError if `text` isn't a schema file. It has no selection sets: `selections` makes no difference."""
    _library.check(_library.check_schema, text, (selections, values, types))


def explain_query(text, *, selections=64, values=64, types=64):
    """A report for people of what is wrong with a request, a str of lines; None if nothing is.

    It says what was found and what was expected, with the line of the place and a caret under it. Its words may change with any
    version of the library. A text that isn't UTF-8 has no lines to show: it raises a GraphQLError.

    >>> print(explain_query("{ hero() }"), end="")
    1:8: syntax error: found ")", expected a name
     1 | { hero() }
       |        ^
    """
    return _library.explain(_library.explain_query, text, (selections, values, types))


def explain_schema(text, *, selections=64, values=64, types=64):
    """A report for people of what is wrong with a schema file, as `explain_query` returns one; None if nothing is."""
    return _library.explain(_library.explain_schema, text, (selections, values, types))


def minify_query(text, *, selections=64, values=64, types=64):
    """A request without what isn't needed in it: comments, and all blanks, line ends, commas and byte order marks, but for one
    blank between two tokens that would be read as others if they touched. Block strings are written in few characters with the
    same values, and other tokens as they are spelled, so it means the same.

    >>> minify_query("{ hero { name } } # all")
    '{hero{name}}'
    """
    return _library.rewrite(_library.minify_query, text, (selections, values, types))


def minify_schema(text, *, selections=64, values=64, types=64):
    """A schema file without what isn't needed in it, as `minify_query` leaves it out."""
    return _library.rewrite(_library.minify_schema, text, (selections, values, types))


def format_query(text, *, selections=64, values=64, types=64):
    """A request laid out anew: two blanks for each level, a selection a line, a blank line between definitions. Its comments
    stay, each between the same tokens. Block strings are laid out too, with the same values, and other tokens are as they were
    spelled. There is no line feed at the end. The layout may change with any version of the library.

    >>> print(format_query("{hero(id:7){name}} # all"))
    {
      hero(id: 7) {
        name
      }
    } # all
    """
    return _library.rewrite(_library.format_query, text, (selections, values, types))


def format_schema(text, *, selections=64, values=64, types=64):
    """A schema file laid out anew, as `format_query` lays out a request: a field, a value, a root a line."""
    return _library.rewrite(_library.format_schema, text, (selections, values, types))


def query_json(text, *, selections=64, values=64, types=64, places=False):
    """The tree of a request as JSON, a str; with `places` the nodes that have places have their `line` and `column`."""
    return _library.parse(_library.parse_query, text, (selections, values, types), places)


def schema_json(text, *, selections=64, values=64, types=64, places=False):
    """The tree of a schema file as JSON, a str; with `places` the nodes that have places have their `line` and `column`."""
    return _library.parse(_library.parse_schema, text, (selections, values, types), places)


def parse_query(text, *, selections=64, values=64, types=64, places=False):
    """The tree of a request, read from `query_json`, however deep it nests."""
    from ._json import decoded

    return decoded(query_json(text, selections=selections, values=values, types=types, places=places))


def parse_schema(text, *, selections=64, values=64, types=64, places=False):
    """The tree of a schema file, read from `schema_json`, however deep it nests."""
    from ._json import decoded

    return decoded(schema_json(text, selections=selections, values=values, types=types, places=places))


def parse(source, no_location=False, *, selections=64, values=64, types=64):
    """The tree of a request or a schema file, as the DocumentNode that `graphql.parse` of graphql-core 3.2 returns.

    `source` is a text, or a Source of graphql-core. Its first token decides whether it is a request or a schema file; one that
    is neither is rejected. With `no_location` the nodes have no `loc`.

    Raises graphql-core's GraphQLSyntaxError if the text is rejected, with a GraphQLError as its `__cause__`, and an ImportError
    if graphql-core isn't installed, or is older. The message says what was found and what was expected, as
    'Syntax Error: found ")", expected a name'; as in a report, its words may change with any version of the library.
    """
    return _beside_graphql_core().parse(source, no_location, (selections, values, types))


def strip_ignored_characters(source, *, selections=64, values=64, types=64):
    """A request or a schema file without what isn't needed in it, as `graphql.strip_ignored_characters` of graphql-core 3.2
    leaves it out: between two tokens that aren't punctuators, and before dots after one, a blank is left.

    `source`, its language and what is raised are as at `parse`.
    """
    return _beside_graphql_core().strip_ignored_characters(source, (selections, values, types))


def print_ast(ast):
    """A node of graphql-core as text: what `graphql.print_ast` of graphql-core 3.2 returns for it."""
    _beside_graphql_core()
    from . import _printing

    return _printing.print_ast(ast)


def _beside_graphql_core():
    """The module that reads with graphql-core; an ImportError if that isn't installed, or is older."""
    try:
        from . import _nodes
    except ModuleNotFoundError as error:
        if error.name != "graphql":
            raise
        raise ImportError("this call goes by graphql-core: pip install 'graphql-core>=3.2,<3.3'") from error
    return _nodes
