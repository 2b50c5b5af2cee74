"""The calls of the shared object."""

import ctypes
import operator
import os

from ._errors import GraphQLError, Kind

LARGEST_LIMIT = 256


class Place(ctypes.Structure):
    _fields_ = [("line", ctypes.c_size_t), ("column", ctypes.c_size_t)]


class Places(ctypes.Structure):
    _fields_ = [("first", Place), ("second", Place)]


class Block(ctypes.Structure):
    """A text that the library returns, in UTF-8, or nothing."""

    _fields_ = [("start", ctypes.c_void_p), ("length", ctypes.c_size_t)]


# Its number is the first one of the version: a library with another may have other calls.
SHARED_OBJECT = "libgraphql_parser.so.1"


def paths_of(name):
    """Where a file may be that `bindings/build.sh` makes."""
    here = os.path.dirname(os.path.abspath(__file__))
    folders = [os.environ.get("GRAPHQL_PARSER_LIB"), here, os.path.join(here, "..", "..", "out")]
    return [os.path.join(folder, name) for folder in folders if folder]


def _loaded():
    paths = paths_of(SHARED_OBJECT)
    for path in paths:
        if os.path.exists(path):
            return ctypes.CDLL(path)
    raise ImportError(SHARED_OBJECT + " is missing, looked for at: " + ", ".join(paths))


_TEXT = [ctypes.c_char_p, ctypes.c_size_t, ctypes.c_size_t, ctypes.c_size_t, ctypes.c_size_t]


def _call(name, arguments, result):
    """A call of the library."""
    call = getattr(library, "graphql_parser_" + name)
    call.argtypes = arguments
    call.restype = result
    return call


library = _loaded()
_CHECK = _TEXT + [ctypes.POINTER(Places)]
_PARSE = _TEXT + [ctypes.c_bool, ctypes.POINTER(Places), ctypes.POINTER(Block)]
_EXPLAIN = _TEXT + [ctypes.POINTER(Places), ctypes.POINTER(Block)]
check_query = _call("check_query", _CHECK, ctypes.c_uint32)
check_schema = _call("check_schema", _CHECK, ctypes.c_uint32)
parse_query = _call("parse_query", _PARSE, ctypes.c_uint32)
parse_schema = _call("parse_schema", _PARSE, ctypes.c_uint32)
explain_query = _call("explain_query", _EXPLAIN, ctypes.c_uint32)
explain_schema = _call("explain_schema", _EXPLAIN, ctypes.c_uint32)
minify_query = _call("minify_query", _EXPLAIN, ctypes.c_uint32)
minify_schema = _call("minify_schema", _EXPLAIN, ctypes.c_uint32)
format_query = _call("format_query", _EXPLAIN, ctypes.c_uint32)
format_schema = _call("format_schema", _EXPLAIN, ctypes.c_uint32)
version = _call("version", [], ctypes.c_uint32)
# The `free` that goes with the library's `malloc`: both are bound in the shared object. A `free` that is looked up from here
# isn't the same one if another allocator was loaded before the C library.
_free = _call("free", [ctypes.c_void_p], None)


def raw_bytes(text):
    """The bytes of a text that isn't a str."""
    if isinstance(text, (bytes, bytearray, memoryview)):
        return bytes(text)
    raise TypeError(f"a text is a str, bytes, a bytearray or a memoryview, not {type(text).__name__}")


def encoded(text):
    """The bytes of a text."""
    if isinstance(text, str):
        try:
            return text.encode()
        except UnicodeEncodeError as error:
            raise GraphQLError(Kind.NOT_UTF8, [], None) from error
    return raw_bytes(text)


def _asked(text, limits):
    """The bytes of a text and the limits, as the library takes them."""
    limits = [operator.index(limit) for limit in limits]
    if not all(0 <= limit <= LARGEST_LIMIT for limit in limits):
        raise ValueError(f"a limit is a number from 0 to {LARGEST_LIMIT}")
    raw = encoded(text)
    return (raw, len(raw), *limits)


def refuse(status, places, json):
    """Raises what a status that isn't 0 means."""
    if status == 1:
        raise MemoryError
    pairs = [(place.line, place.column) for place in (places.first, places.second) if place.line]
    raise GraphQLError(Kind(status), pairs, json)


def _taken(block):
    """The bytes in a block, which is freed; None if there is none."""
    try:
        return ctypes.string_at(block.start, block.length) if block.start else None
    finally:
        _free(block.start)


def check(call, text, limits):
    """Raises a GraphQLError if a check rejects a text; `limits` are those of selections, values and types."""
    asked = _asked(text, limits)
    places = Places()
    status = call(*asked, ctypes.byref(places))
    if status:
        refuse(status, places, None)


def explain(call, text, limits):
    """The report of a text, or None if it is accepted; a GraphQLError if it isn't UTF-8."""
    asked = _asked(text, limits)
    places = Places()
    block = Block()
    status = call(*asked, ctypes.byref(places), ctypes.byref(block))
    report = _taken(block)
    if status and report is None:
        refuse(status, places, None)
    return report and report.decode()


def rewrite(call, text, limits):
    """A text minified or formatted; a GraphQLError if it is rejected."""
    asked = _asked(text, limits)
    places = Places()
    block = Block()
    status = call(*asked, ctypes.byref(places), ctypes.byref(block))
    written = _taken(block)
    if status:
        refuse(status, places, None)
    return written.decode()


def parse_bytes(call, text, limits, with_places):
    """The JSON of a text, in UTF-8; a GraphQLError if it is rejected."""
    asked = _asked(text, limits)
    places = Places()
    block = Block()
    status = call(*asked, bool(with_places), ctypes.byref(places), ctypes.byref(block))
    written = _taken(block)
    if status:
        refuse(status, places, written and written.decode())
    return written


def parse(call, text, limits, with_places):
    """The JSON of a text; a GraphQLError if it is rejected."""
    return parse_bytes(call, text, limits, with_places).decode()
