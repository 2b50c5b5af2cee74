/* Reads a request or a schema file from standard input, and prints what it is told of it: the status, the places, and the
 * JSON in the next line.
 *
 *     example query < FILE        example schema < FILE
 */
#include "graphql_parser.h"

#include <stdio.h>
#include <stdlib.h>
#include <string.h>

/* All of standard input, in a block of its own that is never null. */
static uint8_t *read_all(size_t *length) {
    size_t room = 4096;
    uint8_t *text = malloc(room);
    *length = 0;
    while (text) {
        *length += fread(text + *length, 1, room - *length, stdin);
        if (*length < room) return text;
        room *= 2;
        text = realloc(text, room);
    }
    fputs("out of memory\n", stderr);
    exit(2);
}

int main(int argc, char **argv) {
    if (argc != 2 || (strcmp(argv[1], "query") && strcmp(argv[1], "schema"))) {
        fputs("usage: example query|schema\n", stderr);
        return 2;
    }
    size_t length;
    uint8_t *text = read_all(&length);
    graphql_parser_places places;
    graphql_parser_json json;
    uint32_t status = !strcmp(argv[1], "query")
        ? graphql_parser_parse_query(text, length, GRAPHQL_PARSER_DEFAULT_LIMITS, false, &places, &json)
        : graphql_parser_parse_schema(text, length, GRAPHQL_PARSER_DEFAULT_LIMITS, false, &places, &json);
    free(text);
    printf("%u", (unsigned)status);
    if (places.first.line) printf(" %zu:%zu", places.first.line, places.first.column);
    if (places.second.line) printf(" %zu:%zu", places.second.line, places.second.column);
    printf("\n");
    if (json.start) {
        fwrite(json.start, 1, json.length, stdout);
        printf("\n");
    }
    free(json.start);
    if (status == GRAPHQL_PARSER_OUT_OF_MEMORY || status == GRAPHQL_PARSER_NOT_UTF8) return 2;
    return status == GRAPHQL_PARSER_ACCEPTED ? 0 : 1;
}
