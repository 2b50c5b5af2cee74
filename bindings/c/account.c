/* Compares what the calls within a budget ask the heap for with what they count: account FILE, where FILE has texts, each after its
 * length in four bytes, the lowest first, as account_texts.py writes them. Each text is checked and read in both languages:
 *
 * - within all memory, to find out what it counts: `need`;
 * - within `need` bytes: the same status;
 * - within less: memory runs out, not by the heap's denial, and no more bytes were asked for than the budget has. This is compared
 *   only if the text can have no map, whose blocks aren't counted: no named operation or fragment, and no object. Nor is it for a
 *   call that doesn't run out of memory, whose JSON isn't counted;
 * - with each of the first requests to the heap refused: memory runs out by the heap's denial, but where a block was to shrink. */
#include "heap.h"
#include "texts.h"

enum { MOST_REFUSED = 40 };

/* One call on a text. */
typedef struct {
    const language *language;
    const uint8_t *text;
    size_t length;
    bool is_parse;
} asking;

/* What a call answered, and what it asked the heap for. */
typedef struct {
    uint32_t status;
    graphql_parser_left left;
    size_t asked;
    bool is_refused, was_to_shrink;
} answer;

static answer answer_within(const asking *asking, size_t memory, long refused) {
    answer answer = {.left = {700, 7}};
    graphql_parser_json json = {NULL, 0};
    requests_made = 0;
    refused_request = refused;
    was_to_shrink = false;
    bytes_asked = 0;
    answer.status = asking->is_parse
        ? asking->language->parse_within(asking->text, asking->length, 64, 64, 64, memory, true, NULL, &json, &answer.left)
        : asking->language->check_within(asking->text, asking->length, 64, 64, 64, memory, NULL, &answer.left);
    answer.asked = bytes_asked;
    answer.is_refused = refused && requests_made >= refused;
    answer.was_to_shrink = was_to_shrink;
    refused_request = 0;
    free(json.start);
    return answer;
}

static bool has_word(const asking *asking, const char *word) {
    size_t length = strlen(word);
    for (size_t i = 0; i + length <= asking->length; i++)
        if (!memcmp(asking->text + i, word, length)) return true;
    return false;
}

/* Whether there may be an object: a brace after a colon, an equals sign or a bracket, or strings beside comments, which aren't told
 * apart here. */
static bool may_have_objects(const asking *asking) {
    if (has_word(asking, "#") && has_word(asking, "\"")) return true;
    uint8_t last = 0;
    bool is_comment = false;
    for (size_t i = 0; i < asking->length; i++) {
        uint8_t byte = asking->text[i];
        if (byte == '#') is_comment = true;
        if (byte == '\n' || byte == '\r') is_comment = false;
        if (is_comment || strchr(" \t\n\r,\xEF\xBB\xBF", byte)) continue;
        if (byte == '{' && (last == ':' || last == '=' || last == '[')) return true;
        last = byte;
    }
    return false;
}

static bool may_have_maps(const asking *asking) {
    static const char *const keywords[] = {"query", "mutation", "subscription", "fragment"};
    if (may_have_objects(asking)) return true;
    for (int i = 0; asking->language == &requests && i < 4; i++)
        if (has_word(asking, keywords[i])) return true;
    return false;
}

static bool has_run_out(const answer *answer, bool by_heap) {
    return answer->status == GRAPHQL_PARSER_OUT_OF_MEMORY && answer->left.heap_denied == by_heap;
}

/* What is wrong with a call; null if nothing is. Counts the calls whose bytes are compared. */
static const char *fault(const asking *asking, long *compared) {
    answer whole = answer_within(asking, SIZE_MAX, 0);
    if (whole.left.heap_denied || whole.left.bytes > SIZE_MAX) return "within all memory";
    size_t need = SIZE_MAX - whole.left.bytes;
    answer enough = answer_within(asking, need, 0);
    if (enough.status != whole.status || enough.left.bytes || enough.left.heap_denied) return "within what it needs";
    bool is_compared = !may_have_maps(asking);
    for (size_t memory = need; memory;) {
        memory = memory == need ? need - 1 : memory / 2;
        answer less = answer_within(asking, memory, 0);
        if (!has_run_out(&less, false)) return "within less than it needs";
        if (is_compared && less.asked > memory) return "bytes beside the budget";
        *compared += is_compared;
    }
    for (long number = 1; number <= MOST_REFUSED; number++) {
        answer refused = answer_within(asking, SIZE_MAX, number);
        if (!refused.is_refused) break;
        bool is_right = refused.was_to_shrink ? refused.status == whole.status : has_run_out(&refused, true);
        if (!is_right) return "at a refused request";
    }
    return NULL;
}

int main(int count, char **words) {
    FILE *file = count == 2 ? fopen(words[1], "rb") : NULL;
    if (!file) return 2;
    static const language *languages[] = {&requests, &schema_files};
    long texts = 0, wrong = 0, compared = 0;
    for (uint8_t size[4]; fread(size, 1, 4, file) == 4; texts++) {
        size_t length = size[0] | size[1] << 8 | size[2] << 16 | (size_t)size[3] << 24;
        uint8_t *text = malloc(length ? length : 1);
        if (!text || fread(text, 1, length, file) != length) return 2;
        for (int i = 0; i < 4; i++) {
            asking asking = {languages[i / 2], text, length, i % 2};
            const char *found = fault(&asking, &compared);
            if (found && wrong++ < 5)
                printf("%s of a %s, %s: %.60s\n", asking.is_parse ? "parse" : "check", i < 2 ? "request" : "schema file", found, (char *)text);
        }
        free(text);
    }
    fclose(file);
    printf("%ld texts, checked and read in both languages: %ld wrong; the bytes of %ld calls compared with their budgets\n", texts,
           wrong, compared);
    return wrong || !texts || !compared;
}
