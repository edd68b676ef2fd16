/* Four pairs of eight people may open, each by itself: few sets and many pieces. Deals a code to all eight by either scheme, compares what their cards take,
 * and joins cards by sets; then what such cards are not for.
 *   tools/archive && cc -I include examples/few_sets.c target/staticlib/libtitmeadow.a -o target/example && target/example
 * It prints its answers and ends with status 0 where they are those that SCOPE gives. */
#include <stdio.h>
#include <string.h>
#include "titmeadow.h"

enum { PEOPLE = 8, SETS = 4, BLOCK = TITMEADOW_BLOCK_BYTES };
static const uint16_t pairs[SETS] = {1 + 2, 4 + 8, 16 + 32, 64 + 128}, secret[] = {1234};

static int is(const char *what, titmeadow_answer answer, size_t number, size_t a, size_t b) {
    printf("%s: %zu %zu %zu\n", what, answer.number, answer.a, answer.b);
    return answer.number == number && answer.a == a && answer.b == b;
}

/* A unit draws its randomness even; this one is for show. */
static uint16_t random_words[TITMEADOW_RANDOM_MOST];

int main(void) {
    static uint8_t card[TITMEADOW_CARD_MOST * BLOCK], pile[4 * BLOCK];
    uint16_t groups[TITMEADOW_PIECES_MOST], joined[TITMEADOW_SECRET_MOST] = {0};
    for (size_t i = 0; i < TITMEADOW_RANDOM_MOST; i++)
        random_words[i] = (uint16_t)(7919 * i % 32749);

    /* Whoever cannot open lacks one of each pair: there are 2 * 2 * 2 * 2 such groups that are maximal, and each has a piece. Of these everybody has
     * the half whose group is without them. */
    int good = is("pieces of the first scheme", titmeadow_plan(PEOPLE, pairs, SETS, NULL, 0, groups), 0, 16, 0);
    good &= is("3's card by the first scheme", titmeadow_deal(PEOPLE, pairs, SETS, NULL, 0, 7, 2026, 3, secret, 1, random_words, 15, card, sizeof card), 0, 8, 0);
    /* By sets each pair has a deal of its own, of two pieces and so of one coefficient. */
    good &= is("with the first scheme's randomness", titmeadow_deal_by_sets(PEOPLE, pairs, SETS, NULL, 0, 7, 2026, 3, secret, 1, random_words, 15, card, sizeof card),
               TITMEADOW_RANDOM, 0, 0);
    good &= is("3's card by sets", titmeadow_deal_by_sets(PEOPLE, pairs, SETS, NULL, 0, 7, 2026, 3, secret, 1, random_words, SETS, pile, BLOCK), 0, 1, 0);
    good &= pile[2 * TITMEADOW_SET_WORD - 1] == 2; /* 3 is in the second set, {3, 4}; the low byte is the second of a word */
    good &= is("4's card by sets", titmeadow_deal_by_sets(PEOPLE, pairs, SETS, NULL, 0, 7, 2026, 4, secret, 1, random_words, SETS, pile + BLOCK, BLOCK), 0, 1, 0);
    good &= is("6's card by sets", titmeadow_deal_by_sets(PEOPLE, pairs, SETS, NULL, 0, 7, 2026, 6, secret, 1, random_words, SETS, pile + 2 * BLOCK, BLOCK), 0, 1, 0);

    good &= is("3 and 4", titmeadow_join(pile, 2 * BLOCK, joined, TITMEADOW_SECRET_MOST), 0, 1, 0) && joined[0] == 1234;
    good &= is("3, 4 and 6", titmeadow_join_by_differences(pile, 3 * BLOCK, joined, TITMEADOW_SECRET_MOST), 0, 1, 0);
    good &= is("4 and 6", titmeadow_join(pile + BLOCK, 2 * BLOCK, joined, TITMEADOW_SECRET_MOST), TITMEADOW_SHORT, 0, 0);
    /* A card of the first scheme is of another deal, though number, year, people and words are the same. */
    good &= is("6's card by the first scheme", titmeadow_deal(PEOPLE, pairs, SETS, NULL, 0, 7, 2026, 6, secret, 1, random_words, 15, card, sizeof card), 0, 8, 0);
    memcpy(pile + 3 * BLOCK, card, BLOCK);
    good &= is("6's first-scheme card behind them", titmeadow_join(pile, 4 * BLOCK, joined, TITMEADOW_SECRET_MOST), TITMEADOW_MIXED, 4, 0);

    /* Cards by sets are not renewed by adding, and not taken by a desk. */
    titmeadow_desk desk = TITMEADOW_DESK_FRESH;
    good &= is("two blocks added", titmeadow_add(pile, BLOCK, pile, BLOCK, 8, 2026, card, sizeof card), TITMEADOW_HEADER, 1, 1);
    good &= is("a desk opens", titmeadow_desk_open(&desk, 1, 7, PEOPLE, 2, 1, 2026), 0, 2, 0);
    good &= is("a block handed in", titmeadow_desk_hand_in(&desk, 1, pile, BLOCK), TITMEADOW_HEADER, 1, 1);
    return good ? 0 : 1;
}
