"""Reads a request or a schema file from standard input, and prints its tree as JSON, or what is wrong with it.

    python3 example.py query < FILE        python3 example.py schema < FILE
"""

import sys

import graphql_parser

CALLS = {"query": graphql_parser.query_json, "schema": graphql_parser.schema_json}


def main():
    if len(sys.argv) != 2 or sys.argv[1] not in CALLS:
        sys.exit("usage: example.py query|schema")
    try:
        print(CALLS[sys.argv[1]](sys.stdin.buffer.read()))
        return 0
    except graphql_parser.GraphQLError as error:
        print(error)
        print(error.json)
        return 1


if __name__ == "__main__":
    sys.exit(main())
