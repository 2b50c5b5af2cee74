"""What is wrong with a text."""

import enum
import json as _json


class Kind(enum.IntEnum):
    """What is wrong with a text. The numbers are those of the library's statuses.

    A number that isn't here is of a later version of the library: `Kind(12)` is a kind too, with the name OTHER_12.
    """

    NOT_UTF8 = 2
    SYNTAX = 4
    RECURSION_LIMIT_EXCEEDED = 5
    MULTIPLE_OPERATIONS = 6
    OPERATION_DUPLICATED = 7
    FRAGMENT_DUPLICATED = 8
    MISSING_OPERATION = 9
    MULTIPLE_ROOTS = 10
    MISSING_QUERY_ROOT = 11

    @classmethod
    def _missing_(cls, value):
        if not isinstance(value, int):
            return None
        other = int.__new__(cls, value)
        other._name_ = f"OTHER_{value}"
        other._value_ = value
        return cls._value2member_map_.setdefault(value, other)


# What is said if the library returns no message: its message, without the names and places in it.
_TEXTS = {
    Kind.NOT_UTF8: "the text isn't UTF-8",
    Kind.SYNTAX: "syntax error",
    Kind.RECURSION_LIMIT_EXCEEDED: "recursion limit exceeded.",
    Kind.MULTIPLE_OPERATIONS: "document contains multiple operations",
    Kind.OPERATION_DUPLICATED: "an operation is defined twice",
    Kind.FRAGMENT_DUPLICATED: "a fragment is defined twice",
    Kind.MISSING_OPERATION: "document does not contain an operation",
    Kind.MULTIPLE_ROOTS: "multiple roots of one kind in schema definition",
    Kind.MISSING_QUERY_ROOT: "schema definition is missing query root",
}


def _message(kind, written):
    if written is not None:
        return _json.loads(written)["message"]
    return _TEXTS.get(kind, "refused as only a later version of this module can tell")


class GraphQLError(ValueError):
    """Why a text is rejected. As a str it is the message, and the places if the message doesn't contain them.

    kind     what is wrong, a Kind
    message  the message of `json`, as "operation A is defined twice"; if the text was only checked, what the kind says,
             as "an operation is defined twice"
    places   a list of none, one or two pairs of a line and a column, the most important first; both count from 1,
             columns in characters
    json     the error as an entry of `errors` in a response, as JSON; None if the text was only checked, or isn't UTF-8
    """

    def __init__(self, kind, places, json):
        self.kind = kind
        self.message = _message(kind, json)
        self.places = places
        self.json = json
        shown = [f"{line}:{column}" for line, column in places]
        names_them = not shown or self.message.endswith(" at " + shown[0])
        super().__init__(self.message if names_them else self.message + " at " + " and ".join(shown))

    def __reduce__(self):
        return type(self), (self.kind, self.places, self.json), self.__dict__
