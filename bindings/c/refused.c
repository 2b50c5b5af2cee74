/* Has each request for memory of each call refused, one after the other, until the call meets no refusal. A call must
 * tell then that memory was refused, hand nothing over, and have given back all that it took. But a request that makes a
 * block smaller asks for no memory: where it is refused, the call must answer as if nothing had been. So may an explanation, or
 * a text written anew, in any case, since a list in it that may not double asks for less. */
#include "heap.h"
#include "texts.h"

/* The calls of a language. */
typedef enum { CHECK, PARSE, PACK, EXPLAIN, MINIFY, FORMAT, CALLS } call;

/* A call on the text of a row, in which the request of this number is refused, or none where it is 0. */
typedef struct {
    uint32_t status;
    graphql_parser_places places;
    graphql_parser_block block;
    bool is_refused;
    bool lacks_memory; /* whether what was refused is memory */
    long kept_blocks;
} outcome;

static uint32_t made(call call, const row *row, const uint8_t *text, size_t length, outcome *outcome) {
    size_t limit = row->limit;
    switch (call) {
    case PARSE: return row->language->parse(text, length, limit, limit, limit, true, &outcome->places, &outcome->block);
    case EXPLAIN: return row->language->explain(text, length, limit, limit, limit, &outcome->places, &outcome->block);
    case PACK: return row->language->pack(text, length, limit, limit, limit, &outcome->places, &outcome->block);
    case MINIFY: return row->language->minify(text, length, limit, limit, limit, &outcome->places, &outcome->block);
    case FORMAT: return row->language->format(text, length, limit, limit, limit, &outcome->places, &outcome->block);
    default: return row->language->check(text, length, limit, limit, limit, &outcome->places);
    }
}

static outcome called(call call, const row *row, const uint8_t *text, size_t length, long refused) {
    long before = live_blocks;
    outcome outcome = {.places = {{700, 700}, {700, 700}}};
    if (call != CHECK) outcome.block = garbage;
    requests_made = 0;
    refused_request = refused;
    was_to_shrink = false;
    outcome.status = made(call, row, text, length, &outcome);
    refused_request = 0;
    outcome.is_refused = refused && requests_made >= refused;
    outcome.lacks_memory = outcome.is_refused && !was_to_shrink;
    outcome.kept_blocks = live_blocks - before;
    return outcome;
}

/* Whether the call answers as if no request had been refused, when it handed over what this block has. */
static bool is_whole(call call, const row *row, const outcome *outcome, const graphql_parser_block *whole) {
    bool is_handed = (call == PARSE && is_of_the_text(row->status)) || (call == EXPLAIN && is_explained(row->status)) ||
        (call != CHECK && call != EXPLAIN && row->status == GRAPHQL_PARSER_ACCEPTED);
    return outcome->status == row->status && are_same(&outcome->places, &row->places) &&
        is_nothing(&outcome->block) == !is_handed && outcome->kept_blocks == (is_handed ? 1 : 0) &&
        outcome->block.length == whole->length && (!is_handed || !memcmp(outcome->block.start, whole->start, whole->length));
}

static bool tells_refusal(const outcome *outcome) {
    static const graphql_parser_places nowhere = NOWHERE;
    return outcome->status == GRAPHQL_PARSER_OUT_OF_MEMORY && are_same(&outcome->places, &nowhere) &&
        is_nothing(&outcome->block) && outcome->kept_blocks == 0;
}

int main(void) {
    long calls = 0, refusals = 0, shrinks = 0, wrong = 0;
    for (size_t i = 0; i < ROW_COUNT; i++) {
        size_t length;
        uint8_t *text = text_of(&rows[i], &length);
        for (call call = CHECK; call < CALLS; call++) {
            graphql_parser_block whole = called(call, &rows[i], text, length, 0).block;
            bool goes_on = true;
            for (long number = 1; goes_on; number++) {
                outcome outcome = called(call, &rows[i], text, length, number);
                goes_on = outcome.is_refused;
                bool is_right = outcome.lacks_memory && tells_refusal(&outcome);
                if (!outcome.lacks_memory || call >= EXPLAIN) is_right |= is_whole(call, &rows[i], &outcome, &whole);
                if (!is_right && wrong++ < 5)
                    printf("wrong at %.60s, call %d, request %ld refused: status %u, %ld blocks kept\n", shown(&rows[i]),
                           call, number, (unsigned)outcome.status, outcome.kept_blocks);
                free(outcome.block.start);
                calls++;
                refusals += goes_on;
                shrinks += goes_on && !outcome.lacks_memory;
            }
            free(whole.start);
        }
        free(text);
    }
    if (live_blocks) wrong++;
    printf("%ld calls, with %ld requests refused, %ld of them to make a block smaller: ", calls, refusals, shrinks);
    printf("%ld wrong answers, %ld blocks leaked\n", wrong, live_blocks);
    return wrong != 0;
}
