/* Makes each call on each text, in one thread and in several at once. The stack of each thread has STACK bytes, which is
 * what the header says that a call needs at most. Prints what fails, and ends with status 1 if anything did. */
#include "texts.h"

#include <pthread.h>

#ifdef __SANITIZE_ADDRESS__
#define OF_THE_SANITIZER (1024 * 1024)
#else
#define OF_THE_SANITIZER 0
#endif

enum { THREADS = 8, ROUNDS = 20, STACK = 256 * 1024 + OF_THE_SANITIZER };

static const graphql_parser_places unwritten = {{700, 700}, {700, 700}};

/* What is wrong with what a parse told of a row, and handed over; null where nothing is. */
static const char *fault_of_parse(
    const row *row, uint32_t status, bool with_places, const graphql_parser_places *places, const graphql_parser_json *json) {
    if (status != row->status) return "status of parse";
    if (!are_same(places, &row->places)) return "places of parse";
    if (!is_of_the_text(status)) return is_nothing(json) ? NULL : "something is handed over";
    if (!json->start || json->length < 2) return "nothing is handed over";
    if (memchr(json->start, 0, json->length)) return "a zero byte in the JSON";
    if (json->start[0] != '{' || json->start[json->length - 1] != '}') return "the ends of the JSON";
    if (row->json && !with_places && (json->length != strlen(row->json) || memcmp(json->start, row->json, json->length)))
        return "the JSON";
    return NULL;
}

/* What is wrong with what an explanation told of a row, and handed over; null where nothing is. */
static const char *fault_of_explanation(
    const row *row, uint32_t status, const graphql_parser_places *places, const graphql_parser_report *report) {
    if (status != row->status) return "status of explanation";
    if (!are_same(places, &row->places)) return "places of explanation";
    if (!is_explained(status)) return is_nothing(report) ? NULL : "something is explained";
    if (!report->start || report->length < 2) return "nothing is explained";
    if (memchr(report->start, 0, report->length)) return "a zero byte in the report";
    if (report->start[report->length - 1] != '\n') return "the end of the report";
    return NULL;
}

/* What is wrong with what an explanation tells of a row, first with garbage in `report`, then with what the call before
 * handed over, given back, and then without places; null where nothing is. */
static const char *fault_of_explaining(const row *row, const uint8_t *text, size_t length) {
    size_t limit = row->limit;
    graphql_parser_report report = garbage;
    for (int round = 0; round < 3; round++) {
        graphql_parser_places places = round < 2 ? unwritten : row->places;
        uint32_t status = row->language->explain(text, length, limit, limit, limit, round < 2 ? &places : NULL, &report);
        const char *wrong = fault_of_explanation(row, status, &places, &report);
        if (round) free(report.start);
        else graphql_parser_free(report.start);
        if (wrong) return wrong;
    }
    return NULL;
}

/* What is wrong with what a call tells of a row that hands over something of a good text alone, and with that, with places and
 * without; null where nothing is. */
static const char *fault_of_handing(handing_call *call, const row *row, const uint8_t *text, size_t length) {
    size_t limit = row->limit;
    graphql_parser_block block = garbage;
    for (int round = 0; round < 2; round++) {
        graphql_parser_places places = unwritten;
        uint32_t status = call(text, length, limit, limit, limit, round ? NULL : &places, &block);
        bool is_handed = block.start && block.length;
        bool is_right = status == GRAPHQL_PARSER_ACCEPTED ? is_handed : is_nothing(&block);
        free(block.start);
        if (status != row->status) return "status of a call that hands over a block";
        if (!round && !are_same(&places, &row->places)) return "places of a call that hands over a block";
        if (!is_right) return "what is handed over of a good text";
    }
    return NULL;
}

/* Texts with what each is minified and formatted to. */
static const struct {
    const language *language;
    const char *text, *minified, *formatted;
} rewritten[] = {
    {&requests, "{ a, b } # c", "{a b}", "{\n  a\n  b\n} # c"},
    {&requests, "query Q($a:Int=1){f(x:$a,y:[1 -2]){...on T{g}}}", "query Q($a:Int=1){f(x:$a y:[1-2]){...on T{g}}}",
     "query Q($a: Int = 1) {\n  f(x: $a, y: [1, -2]) {\n    ... on T {\n      g\n    }\n  }\n}"},
    {&schema_files, "\"d\" type A{b(c:D=1):E!}\n\nscalar F", "\"d\"type A{b(c:D=1):E!}scalar F",
     "\"d\"\ntype A {\n  b(c: D = 1): E!\n}\n\nscalar F"},
    {&schema_files, "type A{\"\"\"\n    b\n    c\n\"\"\" d:E}", "type A{\"\"\"b\nc\"\"\"d:E}",
     "type A {\n  \"\"\"\n  b\n  c\n  \"\"\"\n  d: E\n}"},
};

static bool is_text(const graphql_parser_block *block, const char *text) {
    return block->length == strlen(text) && !memcmp(block->start, text, block->length);
}

/* The text that isn't written anew as it should be; null where there is none. */
static const char *fault_of_rewriting(void) {
    for (size_t i = 0; i < sizeof rewritten / sizeof *rewritten; i++) {
        const language *language = rewritten[i].language;
        const uint8_t *text = (const uint8_t *)rewritten[i].text;
        size_t length = strlen(rewritten[i].text);
        graphql_parser_block minified, formatted;
        uint32_t minify = language->minify(text, length, 64, 64, 64, NULL, &minified);
        uint32_t format = language->format(text, length, 64, 64, 64, NULL, &formatted);
        bool is_right = minify == GRAPHQL_PARSER_ACCEPTED && format == GRAPHQL_PARSER_ACCEPTED &&
            is_text(&minified, rewritten[i].minified) && is_text(&formatted, rewritten[i].formatted);
        free(minified.start);
        free(formatted.start);
        if (!is_right) return rewritten[i].text;
    }
    return NULL;
}

/* What is wrong with what the calls tell of a row within a budget that no text uses up, and within one of no bytes, which
 * is either used up or not needed; null where nothing is. */
static const char *fault_within(const row *row, const uint8_t *text, size_t length) {
    static const graphql_parser_places nowhere = NOWHERE;
    size_t limit = row->limit;
    for (int round = 0; round < 4; round++) {
        size_t memory = round % 2 ? 0 : SIZE_MAX;
        graphql_parser_places places = unwritten;
        graphql_parser_json json = garbage;
        graphql_parser_left left = {700, 7};
        uint32_t status = round < 2
            ? row->language->check_within(text, length, limit, limit, limit, memory, &places, &left)
            : row->language->parse_within(text, length, limit, limit, limit, memory, false, &places, &json, &left);
        if (left.heap_denied || left.bytes > memory) return "what is left of a budget";
        if (!memory && status == GRAPHQL_PARSER_OUT_OF_MEMORY) {
            if (!are_same(&places, &nowhere)) return "places of a budget that is used up";
            if (round > 1 && !is_nothing(&json)) return "something is handed over within a budget";
            continue;
        }
        const char *wrong = NULL;
        if (round > 1) {
            wrong = fault_of_parse(row, status, false, &places, &json);
            free(json.start);
        } else if (status != row->status || !are_same(&places, &row->places)) {
            wrong = "a check within a budget";
        }
        if (wrong) return wrong;
    }
    return NULL;
}

#define USED_UP GRAPHQL_PARSER_OUT_OF_MEMORY

/* Texts and budgets, with what a check and a parse answer. A check takes memory only for names, if there are two definitions
 * or more, and for an error. */
static const struct {
    const language *language;
    const char *text;
    size_t memory;
    uint32_t check, parse;
} budgets[] = {
    {&requests, "{a}", 0, GRAPHQL_PARSER_ACCEPTED, USED_UP},
    {&requests, "{a}", 1 << 12, GRAPHQL_PARSER_ACCEPTED, GRAPHQL_PARSER_ACCEPTED},
    {&requests, "query A{a}query B{b}", 0, USED_UP, USED_UP},
    {&requests, "query A{a}query B{b}", 1 << 12, GRAPHQL_PARSER_ACCEPTED, GRAPHQL_PARSER_ACCEPTED},
    {&requests, "{", 0, USED_UP, USED_UP},
    {&requests, "{", 1 << 12, GRAPHQL_PARSER_SYNTAX, GRAPHQL_PARSER_SYNTAX},
    {&requests, "{" TIMES_4096("a ") "}", 1 << 12, GRAPHQL_PARSER_ACCEPTED, USED_UP},
    {&requests, "{" TIMES_4096("a ") "}", 1 << 24, GRAPHQL_PARSER_ACCEPTED, GRAPHQL_PARSER_ACCEPTED},
    {&requests, "{a}", SIZE_MAX, GRAPHQL_PARSER_ACCEPTED, GRAPHQL_PARSER_ACCEPTED},
    {&schema_files, "scalar A", 0, GRAPHQL_PARSER_ACCEPTED, USED_UP},
    {&schema_files, "scalar A", 1 << 12, GRAPHQL_PARSER_ACCEPTED, GRAPHQL_PARSER_ACCEPTED},
    {&schema_files, "type A{" TIMES_4096("a:B ") "}", 1 << 12, GRAPHQL_PARSER_ACCEPTED, USED_UP},
    {&schema_files, "type A{" TIMES_4096("a:B ") "}", 1 << 24, GRAPHQL_PARSER_ACCEPTED, GRAPHQL_PARSER_ACCEPTED},
};

/* The text of a budget for which a call answers something else; null where there is none. */
static const char *fault_of_budgets(void) {
    for (size_t i = 0; i < sizeof budgets / sizeof *budgets; i++) {
        const language *language = budgets[i].language;
        const uint8_t *text = (const uint8_t *)budgets[i].text;
        size_t length = strlen(budgets[i].text), memory = budgets[i].memory;
        graphql_parser_json json;
        graphql_parser_left left;
        uint32_t check = language->check_within(text, length, 64, 64, 64, memory, NULL, &left);
        uint32_t parse = language->parse_within(text, length, 64, 64, 64, memory, false, NULL, &json, &left);
        free(json.start);
        if (check != budgets[i].check || parse != budgets[i].parse) return budgets[i].text;
    }
    return NULL;
}

/* Texts with the whole report of each, by the rules of docs/MESSAGES.md. */
static const struct {
    const language *language;
    const char *text;
    size_t limit;
    const char *report;
} explained[] = {
    {&requests, "{a()}", 64, "1:4: syntax error: found \")\", expected a name\n 1 | {a()}\n   |    ^\n"},
    {&requests, NULL, 64,
     "1:1: syntax error: found the end of the text, expected \"{\", \"fragment\", \"mutation\", \"query\" or "
     "\"subscription\"\n 1 | \n   | ^\n"},
    {&requests, "{a{b}}", 0, "1:3: recursion limit exceeded: selection sets may nest 0 deep\n 1 | {a{b}}\n   |   ^\n"},
    {&requests, "fragment F on T{a}", 64, "document does not contain an operation\n"},
    {&requests, "query A{a}\nquery A{a}", 64,
     "2:1: operation A is defined twice\n 2 | query A{a}\n   | ^\n1:1: it is first defined here\n 1 | query A{a}\n   | ^\n"},
    {&schema_files, "schema{query:A query:B}", 64,
     "1:16: multiple query roots in schema definition\n 1 | schema{query:A query:B}\n   |                ^\n"
     "1:1: the schema begins here\n 1 | schema{query:A query:B}\n   | ^\n"},
};

/* What is wrong with a whole report; null where nothing is. */
static const char *fault_of_reports(void) {
    for (size_t i = 0; i < sizeof explained / sizeof *explained; i++) {
        size_t limit = explained[i].limit;
        const char *text = explained[i].text;
        graphql_parser_report report;
        explained[i].language->explain(
            (const uint8_t *)text, text ? strlen(text) : 0, limit, limit, limit, NULL, &report);
        bool is_right = report.length == strlen(explained[i].report) &&
            !memcmp(report.start, explained[i].report, report.length);
        free(report.start);
        if (!is_right) return explained[i].report;
    }
    return NULL;
}

/* What is wrong with what the calls tell of a row; null where nothing is. Before a parse there is in `json` garbage, then
 * zeros, and then what the call before handed over, given back. */
static const char *fault(const row *row, const uint8_t *text, size_t length) {
    size_t limit = row->limit;
    graphql_parser_places places = unwritten;
    if (row->language->check(text, length, limit, limit, limit, &places) != row->status) return "status of check";
    if (!are_same(&places, &row->places)) return "places of check";
    graphql_parser_json json = garbage;
    for (int round = 0; round < 6; round++) {
        bool with_places = round % 2;
        if (round == 1) memset(&json, 0, sizeof json);
        places = unwritten;
        uint32_t status = row->language->parse(text, length, limit, limit, limit, with_places, &places, &json);
        const char *wrong = fault_of_parse(row, status, with_places, &places, &json);
        if (round < 3) free(json.start);
        else graphql_parser_free(json.start);
        if (wrong) return wrong;
    }
    return NULL;
}

/* What is wrong with what the calls tell of a row where no places are wanted; null where nothing is. */
static const char *fault_without_places(const row *row, const uint8_t *text, size_t length) {
    size_t limit = row->limit;
    if (row->language->check(text, length, limit, limit, limit, NULL) != row->status) return "status of check without places";
    graphql_parser_json json = garbage;
    uint32_t status = row->language->parse(text, length, limit, limit, limit, false, NULL, &json);
    const char *wrong = fault_of_parse(row, status, false, &row->places, &json);
    free(json.start);
    return wrong;
}

/* What is wrong where one of the three limits is too large; null where nothing is. */
static const char *fault_of_limits(const language *language) {
    static const size_t limits[][3] = {{257, 0, 0}, {0, 257, 0}, {0, 0, 257}, {SIZE_MAX, 0, 0}};
    static const graphql_parser_places nowhere = NOWHERE;
    const uint8_t *text = (const uint8_t *)"scalar A";
    for (size_t i = 0; i < sizeof limits / sizeof *limits; i++) {
        graphql_parser_places places = unwritten;
        const size_t *limit = limits[i];
        if (language->check(text, 8, limit[0], limit[1], limit[2], &places) != GRAPHQL_PARSER_LIMIT_TOO_LARGE)
            return "status of a limit that is too large";
        if (!are_same(&places, &nowhere)) return "places of a limit that is too large";
    }
    return NULL;
}

/* What is wrong with the names of statuses; null where nothing is. */
static const char *fault_of_names(void) {
    for (uint32_t status = 0; status <= GRAPHQL_PARSER_MISSING_QUERY_ROOT; status++) {
        if (!strcmp(graphql_parser_status_name(status), "UNKNOWN")) return "a status without a name";
        for (uint32_t other = 0; other < status; other++)
            if (!strcmp(graphql_parser_status_name(status), graphql_parser_status_name(other))) return "two statuses of one name";
    }
    if (strcmp(graphql_parser_status_name(GRAPHQL_PARSER_SYNTAX), "SYNTAX")) return "the name of SYNTAX";
    if (strcmp(graphql_parser_status_name(UINT32_MAX), "UNKNOWN")) return "the name of a status that there isn't";
    return NULL;
}

/* What is wrong with one `json` used for a call of each status, one after the other; null where nothing is. */
static const char *fault_of_reuse(void) {
    graphql_parser_json json = GRAPHQL_PARSER_NO_JSON;
    for (size_t i = 0; i < ROW_COUNT; i++) {
        size_t length, limit = rows[i].limit;
        uint8_t *text = text_of(&rows[i], &length);
        graphql_parser_places places;
        uint32_t status = rows[i].language->parse(text, length, limit, limit, limit, true, &places, &json);
        free(text);
        const char *wrong = fault_of_parse(&rows[i], status, true, &places, &json);
        free(json.start);
        if (wrong) return wrong;
    }
    return NULL;
}

/* How many rows fail. */
static size_t failures(void) {
    size_t count = 0;
    for (size_t i = 0; i < ROW_COUNT; i++) {
        size_t length;
        uint8_t *text = text_of(&rows[i], &length);
        const char *wrong = fault(&rows[i], text, length);
        if (!wrong) wrong = fault_without_places(&rows[i], text, length);
        if (!wrong) wrong = fault_of_explaining(&rows[i], text, length);
        if (!wrong) wrong = fault_of_handing(rows[i].language->pack, &rows[i], text, length);
        if (!wrong) wrong = fault_of_handing(rows[i].language->minify, &rows[i], text, length);
        if (!wrong) wrong = fault_of_handing(rows[i].language->format, &rows[i], text, length);
        if (!wrong) wrong = fault_within(&rows[i], text, length);
        if (wrong) {
            printf("wrong at %.60s: %s\n", shown(&rows[i]), wrong);
            count++;
        }
        free(text);
    }
    return count;
}

static void *rounds(void *count) {
    for (int i = 0; i < ROUNDS; i++) *(size_t *)count += failures();
    return NULL;
}

int main(void) {
    size_t counts[THREADS] = {0}, all = failures();
    const char *wrong = fault_of_reuse();
    if (!wrong) wrong = fault_of_limits(&requests);
    if (!wrong) wrong = fault_of_limits(&schema_files);
    if (!wrong) wrong = fault_of_names();
    if (!wrong) wrong = fault_of_reports();
    if (!wrong) wrong = fault_of_budgets();
    if (!wrong) wrong = fault_of_rewriting();
    if (!wrong && graphql_parser_version() != GRAPHQL_PARSER_VERSION_NUMBER) wrong = "the version";
    if (wrong) {
        printf("wrong: %s\n", wrong);
        all++;
    }
    graphql_parser_free(NULL);
    pthread_t threads[THREADS];
    pthread_attr_t attributes;
    if (pthread_attr_init(&attributes) || pthread_attr_setstacksize(&attributes, STACK)) return 2;
    for (int i = 0; i < THREADS; i++)
        if (pthread_create(&threads[i], &attributes, rounds, &counts[i])) return 2;
    for (int i = 0; i < THREADS; i++) {
        if (pthread_join(threads[i], NULL)) return 2;
        all += counts[i];
    }
    printf("%zu texts, in one thread and in %d at once with %d KiB of stack each: %zu wrong answers\n",
           ROW_COUNT, THREADS, STACK / 1024, all);
    return all != 0;
}
