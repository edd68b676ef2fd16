/* A customer moves over from another maker, with five custodians and a list of who has which pieces. Holds the list against the policy that the customer
 * wrote down, until the two say the same; then plans our own holdings by that policy, deals, and joins.
 *   tools/archive && cc -I include examples/move_holdings.c target/staticlib/libtitmeadow.a -o target/example && target/example
 * It prints its nine answers and ends with status 0 where they are those that SCOPE gives. */
#include <stdio.h>
#include "titmeadow.h"

enum { PEOPLE = 5, PIECES = 6, NEEDED = 3 };

/* The customer's list: six pieces, any three of which open. The director, person 1, has two, the others one each. */
static const uint8_t theirs[PEOPLE][PIECES] = {
    {1, 1, 0, 0, 0, 0}, {0, 0, 1, 0, 0, 0}, {0, 0, 0, 1, 0, 0}, {0, 0, 0, 0, 1, 0}, {0, 0, 0, 0, 0, 1},
};

/* The policy: the director with anybody else, or any three of the others. The first four sets, and the last four. */
static const uint16_t required[] = {1 + 2, 1 + 4, 1 + 8, 1 + 16, 2 + 4 + 8, 2 + 4 + 16, 2 + 8 + 16, 4 + 8 + 16};

static int is(const char *what, titmeadow_answer answer, size_t number, size_t a, size_t b) {
    printf("%s: %zu %zu %zu\n", what, answer.number, answer.a, answer.b);
    return answer.number == number && answer.a == a && answer.b == b;
}

/* Their list against so many sets. */
static titmeadow_answer judged(const uint16_t *sets, size_t count) {
    return titmeadow_judge(PEOPLE, sets, count, NULL, 0, PEOPLE, PIECES, NEEDED, theirs[0], sizeof theirs);
}

/* The cards of two people by our holdings, one after the other; how many bytes they have. A unit draws its randomness even; this one is for show. */
static size_t cards(size_t first, size_t second, uint8_t *pile, size_t room) {
    const uint16_t secret[] = {1234}, randomness[] = {5, 7, 11, 13, 17, 19};
    size_t length = 0;
    for (int i = 0; i < 2; i++) {
        titmeadow_answer dealt = titmeadow_deal(PEOPLE, required, 8, NULL, 0, 7, 2026, i == 0 ? first : second, secret, 1, randomness, 6,
                                                pile + length, room - length);
        if (dealt.number != 0)
            return 0;
        length += TITMEADOW_BLOCK_BYTES * dealt.a;
    }
    return length;
}

int main(void) {
    /* What the customer wrote down at first has no word of the three who open without the director: 2, 3 and 4 have enough, and may not. */
    int good = is("with the director alone", judged(required, 4), 0, 2 + 4 + 8, TITMEADOW_ENOUGH);
    /* The next version has {2, 3} besides, who have two pieces. */
    const uint16_t more[] = {1 + 2, 1 + 4, 1 + 8, 1 + 16, 2 + 4, 2 + 8 + 16, 4 + 8 + 16};
    good &= is("2 and 3 as well", judged(more, 7), 0, 2 + 4, TITMEADOW_TOO_FEW);
    /* And this is what their units did all along. */
    good &= is("the director with one, or three others", judged(required, 8), 0, 0, 0);
    /* A list as a spreadsheet gives it: the director's row has the number of pieces in it. */
    const uint8_t counted[PEOPLE][1] = {{2}, {1}, {1}, {1}, {1}};
    good &= is("numbers in the place of marks", titmeadow_judge(PEOPLE, required, 8, NULL, 0, PEOPLE, 1, 1, counted[0], sizeof counted),
               TITMEADOW_ROWS, 0, 0);

    /* Our own holdings for that policy, all of whose pieces are needed: as a list they suit it too. */
    uint16_t groups[TITMEADOW_PIECES_MOST];
    titmeadow_answer planned = titmeadow_plan(PEOPLE, required, 8, NULL, 0, groups);
    good &= is("our pieces", planned, 0, 7, 0);
    const size_t k = planned.number == 0 ? planned.a : 0;
    uint8_t ours[PEOPLE * TITMEADOW_PIECES_MOST];
    for (size_t i = 0; i < PEOPLE; i++)
        for (size_t j = 0; j < k; j++)
            ours[i * k + j] = (groups[j] >> i & 1) == 0;
    good &= is("our own holdings", titmeadow_judge(PEOPLE, required, 8, NULL, 0, PEOPLE, k, k, ours, PEOPLE * k), 0, 0, 0);

    /* The code is dealt anew: the director's card has six blocks, and each of the others' four. */
    static uint8_t pile[12 * TITMEADOW_BLOCK_BYTES];
    uint16_t joined[TITMEADOW_SECRET_MOST] = {0};
    size_t length = cards(1, 4, pile, sizeof pile);
    good &= length == 10 * TITMEADOW_BLOCK_BYTES;
    good &= is("cards of 1 and 4", titmeadow_join(pile, length, joined, TITMEADOW_SECRET_MOST), 0, 1, 0) && joined[0] == 1234;
    length = cards(2, 3, pile, sizeof pile);
    good &= is("cards of 2 and 3", titmeadow_join(pile, length, joined, TITMEADOW_SECRET_MOST), TITMEADOW_SHORT, 6, 7);
    length = cards(1, 1, pile, sizeof pile);
    good &= is("the director's card, twice", titmeadow_join(pile, length, joined, TITMEADOW_SECRET_MOST), TITMEADOW_SHORT, 6, 7);
    return good ? 0 : 1;
}
