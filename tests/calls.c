/* Every exported call with every refusal that it can give: its number, both places, and all that was lent to be written, compared whole;
 * results and NULL for a count of 0 as well. tests/cards.c, holdings.c, sets.c, piles.c, salvage.c, keys.c, adding.c, renewal.c and desk.c have the
 * cases; what they expect is worked out from docs/SCOPE.md, by hand where no rule is written here. It prints for each call the numbers that
 * were met, 0 for a result; its status is 0 only where all was as expected, and each call was seen to give all that it can. tools/firmware
 * builds it, runs it and holds what it prints to the header and to the archive. */
#include <stdio.h>
#include "calls.h"

enum { NUMBERS = 64 }; /* more than there are refusals */

/* The refusals that each call can give, as the header says. */
static const struct {
    const char *name;
    size_t gives[NUMBERS];
} calls[CALLS] = {
    [PLAN] = {"titmeadow_plan", {1, 2, 3, 4, 5, 6, 22}},
    [JUDGE] = {"titmeadow_judge", {1, 2, 3, 4, 5, 6, 22, 30}},
    [DEAL] = {"titmeadow_deal", {1, 2, 3, 4, 5, 6, 8, 9, 10, 11, 12, 22, 25}},
    [DEAL_BY_SETS] = {"titmeadow_deal_by_sets", {1, 2, 3, 4, 5, 6, 8, 9, 10, 11, 12, 22, 25}},
    [JOIN] = {"titmeadow_join", {12, 13, 14, 15, 16, 17, 18, 19, 20}},
    [JOIN_BY_DIFFERENCES] = {"titmeadow_join_by_differences", {12, 13, 14, 15, 16, 17, 18, 19, 20}},
    [JOIN_BY_WEIGHTS] = {"titmeadow_join_by_weights", {12, 13, 14, 15, 16, 17, 18, 19, 20}},
    [OPEN] = {"titmeadow_open", {13, 15, 16, 17}},
    [SALVAGE] = {"titmeadow_salvage", {12, 13, 14}},
    [PACK] = {"titmeadow_pack", {10}},
    [UNPACK] = {"titmeadow_unpack", {12, 23}},
    [DEAL_KEY] = {"titmeadow_deal_key", {1, 2, 3, 4, 5, 6, 8, 9, 10, 11, 12, 22, 25}},
    [JOIN_KEY] = {"titmeadow_join_key", {12, 13, 14, 15, 16, 17, 18, 19, 20, 23}},
    [ADD] = {"titmeadow_add", {8, 12, 13, 15, 16, 17, 24, 25}},
    [DESK_OPEN] = {"titmeadow_desk_open", {17, 26, 27, 28}},
    [DESK_HAND_IN] = {"titmeadow_desk_hand_in", {13, 15, 16, 17, 18, 19, 26, 29}},
    [DESK_ASK] = {"titmeadow_desk_ask", {12, 20, 26, 29}},
    [DESK_CLOSE] = {"titmeadow_desk_close", {26, 29}},
};
const struct joiner joiners[JOINERS] = {
    {JOIN, titmeadow_join}, {JOIN_BY_DIFFERENCES, titmeadow_join_by_differences}, {JOIN_BY_WEIGHTS, titmeadow_join_by_weights}};
/* Those that no input gives: the listing program alone reads texts. */
static const size_t never[] = {TITMEADOW_TEXT};

/* What is lent to be written lies inside a painted field, and what the field has to be afterwards is painted alike. */
enum { MARGIN = 64, FIELD = MARGIN + TITMEADOW_CARD_MOST * BLOCK + MARGIN };
static union {
    uint8_t bytes[FIELD];
    uint16_t words[FIELD / 2];
} lent, due;
static unsigned paint, met[CALLS][NUMBERS], wrong;

uint16_t *lend(void) {
    for (size_t i = 0; i < FIELD; i++)
        lent.bytes[i] = due.bytes[i] = (uint8_t)(paint + 37 * i);
    return lent.words + MARGIN / 2;
}

void fault(enum call call, const char *what, const char *how) {
    printf("%s: %s: %s\n", calls[call].name, what, how);
    wrong++;
}

void is(enum call call, const char *what, titmeadow_answer got, titmeadow_answer want, const void *written, size_t size) {
    if (size != 0)
        memcpy(due.bytes + MARGIN, written, size);
    if (got.number != want.number || got.a != want.a || got.b != want.b) {
        printf("%zu %zu %zu, and not %zu %zu %zu: ", got.number, got.a, got.b, want.number, want.a, want.b);
        fault(call, what, "another answer");
    }
    if (memcmp(lent.bytes, due.bytes, FIELD) != 0)
        fault(call, what, "what was lent is not as it should be");
    if (got.number < NUMBERS)
        met[call][got.number]++;
}

titmeadow_answer done(size_t value) { return (titmeadow_answer){0, value, 0}; }

titmeadow_answer refused(size_t number, size_t a, size_t b) { return (titmeadow_answer){number, a, b}; }

static uint16_t word(const uint8_t *block, size_t i) { return (uint16_t)(block[2 * i - 2] << 8 | block[2 * i - 1]); }

void put(uint8_t *block, size_t i, size_t value) {
    block[2 * i - 2] = (uint8_t)(value >> 8);
    block[2 * i - 1] = (uint8_t)value;
}

void put_check(uint8_t *block) {
    size_t sum = 0;
    for (size_t i = 1; i < TITMEADOW_BLOCK_WORDS; i++)
        sum += i * word(block, i);
    put(block, TITMEADOW_BLOCK_WORDS, sum % 32749);
}

void put_block(uint8_t *block, size_t deal, size_t holder, size_t n, size_t k, size_t w, size_t piece, const uint16_t *values) {
    const size_t head[TITMEADOW_HEAD_WORDS] = {TITMEADOW_MARK, deal, holder, n, k, w, piece};
    memset(block, 0, BLOCK);
    for (size_t i = 1; i <= TITMEADOW_HEAD_WORDS; i++)
        put(block, i, head[i - 1]);
    for (size_t i = 1; i <= w; i++)
        put(block, 7 + i, values[i - 1]);
    put_check(block);
}

void put_year(uint8_t *block, size_t year) {
    put(block, TITMEADOW_YEAR_WORD, year);
    put_check(block);
}

/* The check of the first is 12025 by SCOPE; that of the second 1987 + 14 + 6 + 16 + 15 + 6 + 14 + 8 * 1272 = 12234. */
uint8_t three[3][BLOCK];
uint16_t sixteen[TITMEADOW_SECRET_MOST], largest[TITMEADOW_SECRET_MOST];

static void prepare(void) {
    put_block(three[0], 7, 4, 4, 3, 1, 1, LISTED(1246));
    put_block(three[1], 7, 2, 4, 3, 1, 2, LISTED(1272));
    put_block(three[2], 7, 1, 4, 3, 1, 3, LISTED(1312));
    if (word(three[0], 256) != 12025 || word(three[1], 256) != 12234)
        fault(DEAL, "the blocks of the cases", "another check");
    for (size_t i = 0; i < TITMEADOW_SECRET_MOST; i++) {
        sixteen[i] = (uint16_t)(2000 * i);
        largest[i] = TITMEADOW_WORD_MOST;
    }
}

/* Prints what was met, and holds it to what each call can give; the exit status. */
static int summary(void) {
    for (enum call call = 0; call < CALLS; call++) {
        int can[NUMBERS] = {1}; /* a result, always */
        for (size_t i = 0; calls[call].gives[i] != 0; i++)
            can[calls[call].gives[i]] = 1;
        printf("%s:", calls[call].name);
        for (size_t number = 0; number < NUMBERS; number++)
            if (met[call][number] != 0)
                printf(" %zu", number);
        printf("\n");
        for (size_t number = 0; number < NUMBERS; number++)
            if ((met[call][number] != 0) != can[number]) {
                printf("%zu: ", number);
                fault(call, "all cases", can[number] ? "no case met it" : "it was met, and the call cannot give it");
            }
    }
    printf("no call:");
    for (size_t i = 0; i < COUNT(never); i++)
        printf(" %zu", never[i]);
    printf("\n");
    return wrong == 0 ? 0 : 1;
}

/* All cases under two paints, so that no byte that is written can pass for the paint. */
int main(void) {
    prepare();
    const unsigned paints[] = {0xA5, 0x5A};
    for (size_t i = 0; i < COUNT(paints); i++) {
        paint = paints[i];
        cards();
        holdings();
        sets();
        piles();
        salvage();
        keys();
        adding();
        renewal();
        desk();
    }
    return summary();
}
