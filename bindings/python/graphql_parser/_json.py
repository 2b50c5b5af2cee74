"""Reading the library's JSON, however deep it nests."""

import json
import re

# A mark, a string, or a number or word. The JSON has no blanks outside strings.
_TOKEN = re.compile(r'[{}\[\]:,]|"(?:[^"\\]|\\.)*"|[^{}\[\]:,"]+')


def decoded_in_a_loop(written, made=None):
    """The same by a loop over the tokens, for which no depth is too deep."""
    whole = []
    # The open lists and dicts, each with the key of the member that comes next.
    opened = [[whole, None]]

    def put(value):
        holder, key = opened[-1]
        if isinstance(holder, list):
            holder.append(value)
        else:
            holder[key] = value
            opened[-1][1] = None

    for token in _TOKEN.findall(written):
        if token in "{[":
            opened.append([{} if token == "{" else [], None])
        elif token in "}]":
            value = opened.pop()[0]
            put(made(value) if made and token == "}" else value)
        elif token not in ":,":
            value = json.loads(token)
            if isinstance(opened[-1][0], dict) and opened[-1][1] is None:
                opened[-1][1] = value
            else:
                put(value)
    return whole[0]


def decoded(written, made=None):
    """The value of a JSON text. `made` makes what an object becomes, from the dict of its members."""
    try:
        return json.loads(written, object_hook=made)
    except RecursionError:
        # The tree is deep, or the caller is.
        return decoded_in_a_loop(written, made)
