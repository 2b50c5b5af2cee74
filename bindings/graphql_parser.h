/* graphql_parser: a parser of GraphQL requests and schema files whose every function is proved.
 *
 * Five calls for each language, two of them also within a budget of memory. A check returns a status and up to two places,
 * which say whether a text is a request or a schema file. A parse also returns the tree, or the error, as JSON, an explanation
 * a report of the error for people, and two more the accepted text minified or formatted. A sixth, at the end, is for the
 * wrapper in Rust.
 *
 * After every parse, whatever its status and whatever was in its `json` before, `free(json.start)` is right, and so is
 * `free(report.start)` after every explanation, and likewise after every other call that returns a block.
 *
 * Needs Linux on x86-64-v2 (Intel from Nehalem on, AMD from Bulldozer on). Of the C library it calls `malloc`, `realloc`,
 * `free`, `memcpy`, `memmove` and `memset`, and nothing else. README.md, beside this file, says how to link it.
 *
 * Any number of threads may call at once: a call keeps nothing between calls and shares nothing with another. It takes
 * less than 256 KiB of stack. Don't call from a signal handler, or from the child of a fork of a process with threads.
 */
#ifndef GRAPHQL_PARSER_H
#define GRAPHQL_PARSER_H

#include <stdbool.h>
#include <stddef.h>
#include <stdint.h>

#ifdef __cplusplus
extern "C" {
#endif

/* The version of this header, as a text and as a number: its first number times 10000, its second times 100, and its third,
 * together. */
#define GRAPHQL_PARSER_VERSION "1.0.0"
#define GRAPHQL_PARSER_VERSION_NUMBER 10000

/* The version, as such a number, of the library that the program runs with. What a program is compiled with may be used with
 * any later library of the same first number, the one in the shared object's name. */
uint32_t graphql_parser_version(void);

/* What a call returns. The numbers never change; a later version may add others. */
enum {
    /* The text is a document of the language, within the limits: it has one tree, which breaks no rule. */
    GRAPHQL_PARSER_ACCEPTED = 0,
    /* `malloc` or `realloc` failed, or a budget was used up. Nothing is known of the text. */
    GRAPHQL_PARSER_OUT_OF_MEMORY = 1,
    /* The bytes aren't UTF-8. They weren't read. */
    GRAPHQL_PARSER_NOT_UTF8 = 2,
    /* One of the limits is over GRAPHQL_PARSER_LARGEST_LIMIT. The text wasn't read. */
    GRAPHQL_PARSER_LIMIT_TOO_LARGE = 3,
    /* The text has no tree. The token at the first place is rejected: what is before it could still become a document,
     * but not with it. */
    GRAPHQL_PARSER_SYNTAX = 4,
    /* The same, but the rejected token could go on if the limits were greater. It has no place. */
    GRAPHQL_PARSER_RECURSION_LIMIT_EXCEEDED = 5,
    /* A request has an operation without a name, at the first place, and another operation, at the second. */
    GRAPHQL_PARSER_MULTIPLE_OPERATIONS = 6,
    /* Two operations have one name: the later is at the first place, the earlier at the second. */
    GRAPHQL_PARSER_OPERATION_DUPLICATED = 7,
    /* Two fragments have one name: the later is at the first place, the earlier at the second. */
    GRAPHQL_PARSER_FRAGMENT_DUPLICATED = 8,
    /* A request has only fragments. It has no place. */
    GRAPHQL_PARSER_MISSING_OPERATION = 9,
    /* A schema names a kind of operation twice: again at the first place. The schema is at the second. */
    GRAPHQL_PARSER_MULTIPLE_ROOTS = 10,
    /* The schema at the first place has no type for queries. */
    GRAPHQL_PARSER_MISSING_QUERY_ROOT = 11
};

/* The name of a status, as in "SYNTAX"; "UNKNOWN" for one that a later library added. It is never null. */
static inline const char *
graphql_parser_status_name(uint32_t status) {
    switch (status) {
    case GRAPHQL_PARSER_ACCEPTED: return "ACCEPTED";
    case GRAPHQL_PARSER_OUT_OF_MEMORY: return "OUT_OF_MEMORY";
    case GRAPHQL_PARSER_NOT_UTF8: return "NOT_UTF8";
    case GRAPHQL_PARSER_LIMIT_TOO_LARGE: return "LIMIT_TOO_LARGE";
    case GRAPHQL_PARSER_SYNTAX: return "SYNTAX";
    case GRAPHQL_PARSER_RECURSION_LIMIT_EXCEEDED: return "RECURSION_LIMIT_EXCEEDED";
    case GRAPHQL_PARSER_MULTIPLE_OPERATIONS: return "MULTIPLE_OPERATIONS";
    case GRAPHQL_PARSER_OPERATION_DUPLICATED: return "OPERATION_DUPLICATED";
    case GRAPHQL_PARSER_FRAGMENT_DUPLICATED: return "FRAGMENT_DUPLICATED";
    case GRAPHQL_PARSER_MISSING_OPERATION: return "MISSING_OPERATION";
    case GRAPHQL_PARSER_MULTIPLE_ROOTS: return "MULTIPLE_ROOTS";
    case GRAPHQL_PARSER_MISSING_QUERY_ROOT: return "MISSING_QUERY_ROOT";
    default: return "UNKNOWN";
    }
}

/* How deep selection sets, values and types may nest if the caller has no limits of its own: the three arguments
 * `selections`, `values` and `types` of each call, as in
 *
 *     graphql_parser_check_query(text, length, GRAPHQL_PARSER_DEFAULT_LIMITS, &places)
 */
#define GRAPHQL_PARSER_DEFAULT_SELECTIONS 64
#define GRAPHQL_PARSER_DEFAULT_VALUES 64
#define GRAPHQL_PARSER_DEFAULT_TYPES 64
#define GRAPHQL_PARSER_DEFAULT_LIMITS \
    GRAPHQL_PARSER_DEFAULT_SELECTIONS, GRAPHQL_PARSER_DEFAULT_VALUES, GRAPHQL_PARSER_DEFAULT_TYPES

/* The largest number that each of them may be. */
#define GRAPHQL_PARSER_LARGEST_LIMIT 256

/* A place in the text: the line and the column, both counted from 1, the column in characters (Unicode scalar values).
 * 0:0 is no place. */
typedef struct {
    size_t line;
    size_t column;
} graphql_parser_place;

/* The places of a status, the most important first; each that it doesn't have is 0:0. */
typedef struct {
    graphql_parser_place first;
    graphql_parser_place second;
} graphql_parser_places;

/* A text that a call returns, in UTF-8, or nothing: null, and the length 0. It does not end with a zero byte: `length` is its
 * length in bytes.
 *
 * A call writes it every time and doesn't read what was there, so it needs no first value. Then the block at `start` is
 * yours: free it, once and before the next call into the same place, by `free(json.start)`, of the C library (or what took
 * its place) whose `malloc` the program has. */
typedef struct {
    uint8_t *start;
    size_t length;
} graphql_parser_block;

/* What a parse returns: JSON. */
typedef graphql_parser_block graphql_parser_json;

/* What an explanation returns: lines for people, each of which ends in a line feed. */
typedef graphql_parser_block graphql_parser_report;

/* Nothing. */
#define GRAPHQL_PARSER_NO_JSON { NULL, 0 }

/* Frees the block that a call returned; null is allowed. It is the `free` that goes with the library's `malloc`, for languages
 * that can't name the program's own. */
void graphql_parser_free(void *block);

/* Checks whether a text is a request, or a schema file.
 *
 * text, length             the text, in UTF-8. If `length` is 0, `text` may be null: that is the empty text. Nothing may change
 *                          the text during the call.
 * selections, values,      how deep each of these may nest, 0 to 256: the selection sets inside an operation's or a
 * types                    fragment's own set, the lists and objects of one value, the lists of one type. A schema file
 *                          has no selection sets: then the first number only has to be in this range.
 * places                   is written on every call, unless it is null. What was there isn't read.
 *
 * Returns one of the statuses above. If several apply, that of the limits comes first, then that of UTF-8, then that of the
 * text. All memory is freed before the call returns. */
uint32_t graphql_parser_check_query(
    const uint8_t *text, size_t length, size_t selections, size_t values, size_t types, graphql_parser_places *places);
uint32_t graphql_parser_check_schema(
    const uint8_t *text, size_t length, size_t selections, size_t values, size_t types, graphql_parser_places *places);

/* The same, and returns JSON.
 *
 * with_places              whether the nodes of the tree are written with their `line` and `column`. These have none: the
 *                          `Document`, the `Name` of an `OperationDefinition` or a `FragmentDefinition`, the `Name` in
 *                          a `Variable` that is a value, each `OperationTypeDefinition` of a schema, and all that is
 *                          inside a `ListValue`, an `ObjectValue` or a `ListType`.
 * json                     is written on every call; what was there isn't read. After GRAPHQL_PARSER_ACCEPTED it is the
 *                          tree, in the form of GraphQL.js. A field that an object repeats is one field, with the first
 *                          place and the last value. After GRAPHQL_PARSER_OUT_OF_MEMORY, GRAPHQL_PARSER_NOT_UTF8 and
 *                          GRAPHQL_PARSER_LIMIT_TOO_LARGE it is null, and its length 0. After any other status it is the
 *                          error, as an entry of `errors` in a response: its `message`, and its `locations` if it has
 *                          places.
 *
 * Operations are in the order of the text, and so are fragments; the next operation is before the next fragment unless the
 * fragment's place is smaller, by line and then by column, and the roots of a schema are in the order of their places.
 * That is the order of the text, except after a lone carriage return: there the columns begin again at 1 on the same line,
 * so a later definition, or root, can have a smaller place.
 *
 * `text`, `places` and `json` don't overlap. */
uint32_t graphql_parser_parse_query(
    const uint8_t *text, size_t length, size_t selections, size_t values, size_t types, bool with_places,
    graphql_parser_places *places, graphql_parser_json *json);
uint32_t graphql_parser_parse_schema(
    const uint8_t *text, size_t length, size_t selections, size_t values, size_t types, bool with_places,
    graphql_parser_places *places, graphql_parser_json *json);

/* What a call within a budget leaves of it. A call writes it every time and doesn't read what was there. */
typedef struct {
    size_t bytes;        /* what is left of `memory` */
    uint8_t heap_denied; /* 1 after GRAPHQL_PARSER_OUT_OF_MEMORY if `malloc` or `realloc` failed, else 0 */
} graphql_parser_left;

/* The same as a check and a parse, within a budget.
 *
 * memory                   how many bytes reading the text may take, by this count: those of each block that is asked for; of a
 *                          block that grows those that are added, though both blocks are held while it moves; of each entry of
 *                          a map, of named operations, fragments or the fields of an object that repeats one, its key's and
 *                          value's and 16 more, whatever blocks the map asks for.
 *                          Freed bytes still count. A list that moves into a block of just its length, the JSON and what
 *                          writing it takes don't.
 * left                     must not be null.
 *
 * For a text that needs more the status is GRAPHQL_PARSER_OUT_OF_MEMORY, as if `malloc` failed; `left->heap_denied` tells the two
 * apart. By this count no text of n bytes and t tokens, its end among them, needs more than 1104 * t + n + 57 bytes, so none more
 * than 1105 * n + 1161; and no check of a schema file, or of a request of one definition, more than 57. */
uint32_t graphql_parser_check_query_within(
    const uint8_t *text, size_t length, size_t selections, size_t values, size_t types, size_t memory,
    graphql_parser_places *places, graphql_parser_left *left);
uint32_t graphql_parser_check_schema_within(
    const uint8_t *text, size_t length, size_t selections, size_t values, size_t types, size_t memory,
    graphql_parser_places *places, graphql_parser_left *left);
uint32_t graphql_parser_parse_query_within(
    const uint8_t *text, size_t length, size_t selections, size_t values, size_t types, size_t memory, bool with_places,
    graphql_parser_places *places, graphql_parser_json *json, graphql_parser_left *left);
uint32_t graphql_parser_parse_schema_within(
    const uint8_t *text, size_t length, size_t selections, size_t values, size_t types, size_t memory, bool with_places,
    graphql_parser_places *places, graphql_parser_json *json, graphql_parser_left *left);

/* The same as a check, and returns a report for people, such as
 *
 *     1:4: syntax error: found ")", expected a name
 *      1 | {a()}
 *        |    ^
 *
 * report                   is written on every call; what was there isn't read. After GRAPHQL_PARSER_ACCEPTED,
 *                          GRAPHQL_PARSER_OUT_OF_MEMORY, GRAPHQL_PARSER_NOT_UTF8 and GRAPHQL_PARSER_LIMIT_TOO_LARGE it is
 *                          null, and its length 0. After any other status it says what is wrong, after the place if there
 *                          is one, with the line of the place and a caret under it; a second place follows in the same
 *                          way. Of a rejected token it says what was found and what was expected. For an invalid escape in a
 *                          string the report begins with the place of the escape, and `places` has that of the string.
 *
 * The words of a report may change with any version. Explaining a rejected text takes at most as long as some five checks of
 * it. `text`, `places` and `report` don't overlap. */
uint32_t graphql_parser_explain_query(
    const uint8_t *text, size_t length, size_t selections, size_t values, size_t types, graphql_parser_places *places,
    graphql_parser_report *report);
uint32_t graphql_parser_explain_schema(
    const uint8_t *text, size_t length, size_t selections, size_t values, size_t types, graphql_parser_places *places,
    graphql_parser_report *report);

/* The same as a check, and returns the text without what isn't needed in it: comments, and all blanks, line ends, commas and
 * byte order marks but for one blank between two tokens that would be read as others if they touched.
 *
 * minified                 is written on every call; what was there isn't read. After any status but
 *                          GRAPHQL_PARSER_ACCEPTED it is null, and its length 0. It is UTF-8 with the tokens of the text,
 *                          as they were spelled, except that block strings are written in few characters with the same
 *                          values; and no longer than the text.
 *
 * `text`, `places` and `minified` don't overlap. */
uint32_t graphql_parser_minify_query(
    const uint8_t *text, size_t length, size_t selections, size_t values, size_t types, graphql_parser_places *places,
    graphql_parser_block *minified);
uint32_t graphql_parser_minify_schema(
    const uint8_t *text, size_t length, size_t selections, size_t values, size_t types, graphql_parser_places *places,
    graphql_parser_block *minified);

/* The same as a check, and returns the text laid out anew: two blanks for each level, a selection, a field and a value a line, a
 * blank line between definitions, with the comments of the text, and no line end after the last. Block strings are laid out
 * too, with the same values. The layout may change with any version; the other tokens and the comments don't. `formatted` is
 * written as `minified` is; `text`, `places` and `formatted` don't overlap. */
uint32_t graphql_parser_format_query(
    const uint8_t *text, size_t length, size_t selections, size_t values, size_t types, graphql_parser_places *places,
    graphql_parser_block *formatted);
uint32_t graphql_parser_format_schema(
    const uint8_t *text, size_t length, size_t selections, size_t values, size_t types, graphql_parser_places *places,
    graphql_parser_block *formatted);

/* For a wrapper that comes with this library: the same as a parse, but it returns the tree in bytes that mean something to that
 * wrapper alone and may change with any version. `packed` is written on every call. It is null, and its length 0, after any
 * status but GRAPHQL_PARSER_ACCEPTED. `text`, `places` and `packed` don't overlap. */
uint32_t graphql_parser_pack_query(
    const uint8_t *text, size_t length, size_t selections, size_t values, size_t types, graphql_parser_places *places,
    graphql_parser_block *packed);
uint32_t graphql_parser_pack_schema(
    const uint8_t *text, size_t length, size_t selections, size_t values, size_t types, graphql_parser_places *places,
    graphql_parser_block *packed);

#ifdef __cplusplus
}
#endif

#endif
