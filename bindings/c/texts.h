/* Texts with what each call must tell of them, worked out by hand. The tests in C share them. */
#ifndef TEXTS_H
#define TEXTS_H

#include "graphql_parser.h"

#include <stdio.h>
#include <stdlib.h>
#include <string.h>

typedef uint32_t check_call(const uint8_t *, size_t, size_t, size_t, size_t, graphql_parser_places *);
typedef uint32_t parse_call(
    const uint8_t *, size_t, size_t, size_t, size_t, bool, graphql_parser_places *, graphql_parser_json *);

/* The same within a budget. */
typedef uint32_t check_within_call(
    const uint8_t *, size_t, size_t, size_t, size_t, size_t, graphql_parser_places *, graphql_parser_left *);
typedef uint32_t parse_within_call(
    const uint8_t *, size_t, size_t, size_t, size_t, size_t, bool, graphql_parser_places *, graphql_parser_json *,
    graphql_parser_left *);

/* An explanation, a text written anew, or a pack. */
typedef uint32_t handing_call(
    const uint8_t *, size_t, size_t, size_t, size_t, graphql_parser_places *, graphql_parser_block *);

typedef struct {
    check_call *check;
    parse_call *parse;
    handing_call *explain;
    handing_call *pack;
    handing_call *minify;
    handing_call *format;
    check_within_call *check_within;
    parse_within_call *parse_within;
} language;

static const language requests = {
    graphql_parser_check_query, graphql_parser_parse_query, graphql_parser_explain_query, graphql_parser_pack_query,
    graphql_parser_minify_query, graphql_parser_format_query,
    graphql_parser_check_query_within, graphql_parser_parse_query_within};
static const language schema_files = {
    graphql_parser_check_schema, graphql_parser_parse_schema, graphql_parser_explain_schema, graphql_parser_pack_schema,
    graphql_parser_minify_schema, graphql_parser_format_schema,
    graphql_parser_check_schema_within, graphql_parser_parse_schema_within};

/* A text of a language, and what it gives. */
typedef struct {
    const language *language;
    const char *text; /* null is the empty text */
    size_t limit;     /* of each of the three */
    uint32_t status;
    graphql_parser_places places;
    const char *json; /* without places of nodes; null where it isn't compared */
} row;

#define NOWHERE {{0, 0}, {0, 0}}

/* A text so many times. */
#define TIMES_4(text) text text text text
#define TIMES_16(text) TIMES_4(TIMES_4(text))
#define TIMES_64(text) TIMES_4(TIMES_16(text))
#define TIMES_256(text) TIMES_16(TIMES_16(text))
#define TIMES_4096(text) TIMES_16(TIMES_256(text))

/* Rows that are the same of both languages. The limits are looked at first. Of what isn't UTF-8 there are a lone continuation
 * byte, a word cut short, a surrogate and an overlong form (the Unicode Standard, section 3.9). */
#define ROWS_OF(language) \
    {language, "", 64, GRAPHQL_PARSER_SYNTAX, {{1, 1}, {0, 0}}, 0}, \
    {language, NULL, 64, GRAPHQL_PARSER_SYNTAX, {{1, 1}, {0, 0}}, \
     "{\"message\":\"syntax error at 1:1\",\"locations\":[{\"line\":1,\"column\":1}]}"}, \
    {language, NULL, 257, GRAPHQL_PARSER_LIMIT_TOO_LARGE, NOWHERE, 0}, \
    {language, "?", 257, GRAPHQL_PARSER_LIMIT_TOO_LARGE, NOWHERE, 0}, \
    {language, "{a}\x80", 64, GRAPHQL_PARSER_NOT_UTF8, NOWHERE, 0}, \
    {language, "{a}\x80", 257, GRAPHQL_PARSER_LIMIT_TOO_LARGE, NOWHERE, 0}, \
    {language, "{a}#\xC3", 64, GRAPHQL_PARSER_NOT_UTF8, NOWHERE, 0}, \
    {language, "{a}#\xE2\x82", 64, GRAPHQL_PARSER_NOT_UTF8, NOWHERE, 0}, \
    {language, "#\xE2\x82", 64, GRAPHQL_PARSER_NOT_UTF8, NOWHERE, 0}, \
    {language, "#\xED\xA0\x80", 64, GRAPHQL_PARSER_NOT_UTF8, NOWHERE, 0}, \
    {language, "#\xC0\xAF", 64, GRAPHQL_PARSER_NOT_UTF8, NOWHERE, 0}, \
    {language, "#\xC0\xAF", 257, GRAPHQL_PARSER_LIMIT_TOO_LARGE, NOWHERE, 0}

static const row rows[] = {
    ROWS_OF(&requests),
    ROWS_OF(&schema_files),
    {&requests, "{a(b:\"\\u0000c\")}", 64, GRAPHQL_PARSER_ACCEPTED, NOWHERE,
     "{\"kind\":\"Document\",\"definitions\":[{\"kind\":\"OperationDefinition\",\"operation\":\"query\","
     "\"variableDefinitions\":[],\"directives\":[],\"selectionSet\":{\"kind\":\"SelectionSet\",\"selections\":["
     "{\"kind\":\"Field\",\"name\":{\"kind\":\"Name\",\"value\":\"a\"},\"arguments\":[{\"kind\":\"Argument\","
     "\"name\":{\"kind\":\"Name\",\"value\":\"b\"},\"value\":{\"kind\":\"StringValue\",\"value\":\"\\u0000c\"}}],"
     "\"directives\":[]}]}}]}"},
    {&requests, "query A($v: [Int!]! = [1, 2]) @d { b: a(c: {d: $v}) { ...F ... on T { e } } } fragment F on T { f }",
     64, GRAPHQL_PARSER_ACCEPTED, NOWHERE, 0},
    {&requests, "{" TIMES_4096("a ") "}", 64, GRAPHQL_PARSER_ACCEPTED, NOWHERE, 0},
    /* As deep as the limits let a text be, in all three ways. */
    {&requests,
     "query($v:" TIMES_256("[") "A" TIMES_256("]") ")" TIMES_256("{a") "{a(b:" TIMES_256("{c:") TIMES_256("}") ")}" TIMES_256("}"), 256,
     GRAPHQL_PARSER_SYNTAX, {{1, 1809}, {0, 0}}, 0},
    {&requests,
     "query($v:" TIMES_256("[") "A" TIMES_256("]") ")" TIMES_256("{a") "{a(b:" TIMES_256("{c:") "1" TIMES_256("}") ")}" TIMES_256("}"), 256,
     GRAPHQL_PARSER_ACCEPTED, NOWHERE, 0},
    {&requests, "{a(b:" TIMES_256("[") TIMES_256("]") ")}", 256, GRAPHQL_PARSER_ACCEPTED, NOWHERE, 0},
    {&requests, TIMES_256("{a") "{a", 256, GRAPHQL_PARSER_SYNTAX, {{1, 515}, {0, 0}}, 0},
    {&requests, "{a", 64, GRAPHQL_PARSER_SYNTAX, {{1, 3}, {0, 0}},
     "{\"message\":\"syntax error at 1:3\",\"locations\":[{\"line\":1,\"column\":3}]}"},
    {&requests, TIMES_64("{a") "{a{a", 64, GRAPHQL_PARSER_RECURSION_LIMIT_EXCEEDED, NOWHERE,
     "{\"message\":\"recursion limit exceeded.\"}"},
    {&requests, "{a{b}}", 0, GRAPHQL_PARSER_RECURSION_LIMIT_EXCEEDED, NOWHERE, 0},
    {&requests, "{a}query B{b}", 64, GRAPHQL_PARSER_MULTIPLE_OPERATIONS, {{1, 1}, {1, 4}}, 0},
    {&requests, "query A{a}\nquery A{a}", 64, GRAPHQL_PARSER_OPERATION_DUPLICATED, {{2, 1}, {1, 1}},
     "{\"message\":\"operation A is defined twice\",\"locations\":[{\"line\":2,\"column\":1},"
     "{\"line\":1,\"column\":1}]}"},
    {&requests, "fragment F on T{a}{b}fragment F on T{c}", 64, GRAPHQL_PARSER_FRAGMENT_DUPLICATED,
     {{1, 22}, {1, 1}}, 0},
    {&requests, "fragment F on T{a}", 64, GRAPHQL_PARSER_MISSING_OPERATION, NOWHERE, 0},
    {&requests, "{a}", 257, GRAPHQL_PARSER_LIMIT_TOO_LARGE, NOWHERE, 0},
    {&requests, "{a}", 256, GRAPHQL_PARSER_ACCEPTED, NOWHERE, 0},
    {&requests, "{a\n  ?}", 64, GRAPHQL_PARSER_SYNTAX, {{2, 3}, {0, 0}}, 0},
    {&requests, " ", 64, GRAPHQL_PARSER_SYNTAX, {{1, 2}, {0, 0}}, 0},
    {&requests, TIMES_64("{a") "{a" TIMES_64("}") "}", 64, GRAPHQL_PARSER_ACCEPTED, NOWHERE, 0},
    {&requests, "query A{a}query B{b}query A{c}", 64, GRAPHQL_PARSER_OPERATION_DUPLICATED, {{1, 21}, {1, 1}}, 0},
    {&requests, "{a}", 0, GRAPHQL_PARSER_ACCEPTED, NOWHERE, 0},
    {&requests, "{a(b:[1])}", 0, GRAPHQL_PARSER_RECURSION_LIMIT_EXCEEDED, NOWHERE, 0},
    {&requests, "query($a:[A]){a}", 0, GRAPHQL_PARSER_RECURSION_LIMIT_EXCEEDED, NOWHERE, 0},
    {&schema_files, "scalar A", 64, GRAPHQL_PARSER_ACCEPTED, NOWHERE,
     "{\"kind\":\"Document\",\"definitions\":[{\"kind\":\"ScalarTypeDefinition\",\"name\":{\"kind\":\"Name\","
     "\"value\":\"A\"},\"directives\":[]}]}"},
    {&schema_files, "\"d\" type A implements B & C @d(e: 1) { f(g: H = \"i\"): [J!]! } extend schema { query: Q }",
     64, GRAPHQL_PARSER_ACCEPTED, NOWHERE, 0},
    {&schema_files, "type A{" TIMES_4096("a:B ") "}", 64, GRAPHQL_PARSER_ACCEPTED, NOWHERE, 0},
    {&schema_files, "input A{f:" TIMES_256("[") "B" TIMES_256("]") "=" TIMES_256("{c:") "1" TIMES_256("}") "}", 256,
     GRAPHQL_PARSER_ACCEPTED, NOWHERE, 0},
    {&schema_files, "type", 64, GRAPHQL_PARSER_SYNTAX, {{1, 5}, {0, 0}}, 0},
    {&schema_files, "{a}", 64, GRAPHQL_PARSER_SYNTAX, {{1, 1}, {0, 0}}, 0},
    {&schema_files, "scalar A", 256, GRAPHQL_PARSER_ACCEPTED, NOWHERE, 0},
    {&schema_files, "input A{f:" TIMES_64("[") "B" TIMES_64("]") "}", 64, GRAPHQL_PARSER_ACCEPTED, NOWHERE, 0},
    {&schema_files, "input A{f:B=1}", 0, GRAPHQL_PARSER_ACCEPTED, NOWHERE, 0},
    {&schema_files, "input A{f:B=[1]}", 0, GRAPHQL_PARSER_RECURSION_LIMIT_EXCEEDED, NOWHERE, 0},
    {&schema_files, "input A{f:[B]}", 0, GRAPHQL_PARSER_RECURSION_LIMIT_EXCEEDED, NOWHERE, 0},
    {&schema_files, "input A{f:" TIMES_64("[") "[", 64, GRAPHQL_PARSER_RECURSION_LIMIT_EXCEEDED, NOWHERE, 0},
    {&schema_files, "schema{query:A query:B}", 64, GRAPHQL_PARSER_MULTIPLE_ROOTS, {{1, 16}, {1, 1}}, 0},
    {&schema_files, "scalar A schema{mutation:M}", 64, GRAPHQL_PARSER_MISSING_QUERY_ROOT,
     {{1, 10}, {0, 0}}, 0},
    {&schema_files, "scalar A", 257, GRAPHQL_PARSER_LIMIT_TOO_LARGE, NOWHERE, 0},
    {&schema_files, "\"\xFF\" scalar A", 64, GRAPHQL_PARSER_NOT_UTF8, NOWHERE, 0},
};

#define ROW_COUNT (sizeof rows / sizeof *rows)

static inline const char *shown(const row *row) {
    return row->text ? row->text : "null";
}

/* What a caller may have in a `json` or a `report` before a call: no block, and no length of one. */
static const graphql_parser_block garbage = {(uint8_t *)1, 700};

static inline bool is_nothing(const graphql_parser_block *block) {
    return !block->start && !block->length;
}

/* The text of a row, in a block of exactly its length, so that a tool that looks for reads past a block sees one; or null. */
static inline uint8_t *text_of(const row *row, size_t *length) {
    *length = 0;
    if (!row->text) return NULL;
    *length = strlen(row->text);
    uint8_t *text = malloc(*length ? *length : 1);
    if (!text) abort();
    return memcpy(text, row->text, *length);
}

static inline bool are_same(const graphql_parser_places *one, const graphql_parser_places *other) {
    return one->first.line == other->first.line && one->first.column == other->first.column &&
        one->second.line == other->second.line && one->second.column == other->second.column;
}

/* Whether a status comes with JSON. */
static inline bool is_of_the_text(uint32_t status) {
    return status != GRAPHQL_PARSER_OUT_OF_MEMORY && status != GRAPHQL_PARSER_NOT_UTF8 &&
        status != GRAPHQL_PARSER_LIMIT_TOO_LARGE;
}

/* Whether a status comes with a report. */
static inline bool is_explained(uint32_t status) {
    return is_of_the_text(status) && status != GRAPHQL_PARSER_ACCEPTED;
}

#endif
