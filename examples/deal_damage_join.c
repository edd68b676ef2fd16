/* Deals to four custodians, damages a card and joins: what the unit does with a good pile, a short one, a dirty one and a torn one. Salvages the
 * dirty one, and renews the cards. Then splits a key among the four and restores it; and serves two clients at one desk, one with the code and one
 * with the key.
 *   tools/archive && cc -I include examples/deal_damage_join.c target/staticlib/libtitmeadow.a -o target/example && target/example
 * It prints its twenty-six answers and ends with status 0 where they are those that SCOPE gives. */
#include <stdio.h>
#include <string.h>
#include "titmeadow.h"

static const uint16_t required[] = {1 + 2, 2 + 4, 4 + 8};
static const uint16_t forbidden[] = {1 + 8};

/* A deal by that policy, of one word. */
struct deal {
    size_t number, year;
    uint16_t secret[1], randomness[2];
};
static const struct deal first_deal = {7, 2026, {1234}, {5, 7}};
/* A deal of zeros, which renews the cards. A unit draws its randomness even, and shows its cards to nobody; this one is for show. */
static const struct deal zero_deal = {8, 2026, {0}, {32748, 1}};

/* The cards of two holders, one after the other; how many bytes they have. */
static size_t cards_of(const struct deal *deal, size_t first, size_t second, uint8_t *pile, size_t room) {
    size_t length = 0;
    const size_t holders[] = {first, second};
    for (int i = 0; i < 2; i++) {
        titmeadow_answer dealt = titmeadow_deal(4, required, 3, forbidden, 1, deal->number, deal->year, holders[i], deal->secret, 1,
                                                deal->randomness, 2, pile + length, room - length);
        if (dealt.number != 0)
            return 0;
        length += TITMEADOW_BLOCK_BYTES * dealt.a;
    }
    return length;
}

static size_t cards(size_t first, size_t second, uint8_t *pile, size_t room) { return cards_of(&first_deal, first, second, pile, room); }

/* The cards of two holders renewed: each block added to its fellow of the deal of zeros, under number 7 once more, in the year after; how many bytes
 * they have. */
static size_t renewed(size_t first, size_t second, uint8_t *pile, size_t room) {
    static uint8_t old[4 * TITMEADOW_BLOCK_BYTES], zeros[sizeof old];
    const size_t length = cards(first, second, old, sizeof old);
    if (length == 0 || length > room || cards_of(&zero_deal, first, second, zeros, sizeof zeros) != length)
        return 0;
    for (size_t at = 0; at < length; at += TITMEADOW_BLOCK_BYTES)
        if (titmeadow_add(old + at, TITMEADOW_BLOCK_BYTES, zeros + at, TITMEADOW_BLOCK_BYTES, 7, 2027, pile + at, room - at).number != 0)
            return 0;
    return length;
}

/* The same of a key, which is ten words: ten times as much randomness. A unit draws it even, and for one deal; this one is for show. */
static size_t key_cards(size_t first, size_t second, const uint8_t key[TITMEADOW_KEY_BYTES], uint8_t *pile, size_t room) {
    static uint16_t many[2 * TITMEADOW_KEY_WORDS];
    size_t length = 0;
    const size_t holders[] = {first, second};
    for (uint16_t i = 0; i < 2 * TITMEADOW_KEY_WORDS; i++)
        many[i] = 1000 * (i + 1);
    for (int i = 0; i < 2; i++) {
        titmeadow_answer dealt = titmeadow_deal_key(4, required, 3, forbidden, 1, 8, 2026, holders[i], key, TITMEADOW_KEY_BYTES, many,
                                                    2 * TITMEADOW_KEY_WORDS, pile + length, room - length);
        if (dealt.number != 0)
            return 0;
        length += TITMEADOW_BLOCK_BYTES * dealt.a;
    }
    return length;
}

static int is(const char *what, titmeadow_answer answer, size_t number, size_t a, size_t b) {
    printf("%s: %zu %zu %zu\n", what, answer.number, answer.a, answer.b);
    return answer.number == number && answer.a == a && answer.b == b;
}

/* Two clients at one desk: the cards of holders 1 and 2, three blocks of each deal, come in by turns, and each client gets its own secret. */
static int at_a_desk(const uint8_t key[TITMEADOW_KEY_BYTES]) {
    static uint8_t codes[3 * TITMEADOW_BLOCK_BYTES], keys[3 * TITMEADOW_BLOCK_BYTES];
    uint16_t words[TITMEADOW_SECRET_MOST] = {0};
    uint8_t restored[TITMEADOW_KEY_BYTES];
    titmeadow_desk desk = TITMEADOW_DESK_FRESH;
    if (cards(1, 2, codes, sizeof codes) != sizeof codes || key_cards(1, 2, key, keys, sizeof keys) != sizeof keys)
        return 0;
    int good = is("client 1 opens", titmeadow_desk_open(&desk, 1, 7, 4, 3, 1, 2026), 0, 3, 0);
    good &= is("client 2 wants 68 slots", titmeadow_desk_open(&desk, 2, 8, 4, 68, 10, 2026), TITMEADOW_FULL, 0, 0);
    good &= is("client 2 opens", titmeadow_desk_open(&desk, 2, 8, 4, 3, 10, 2026), 0, 3, 0);
    for (size_t i = 0; i < 3; i++) {
        good &= titmeadow_desk_hand_in(&desk, 1, codes + i * TITMEADOW_BLOCK_BYTES, TITMEADOW_BLOCK_BYTES).a == i + 1;
        good &= titmeadow_desk_hand_in(&desk, 2, keys + i * TITMEADOW_BLOCK_BYTES, TITMEADOW_BLOCK_BYTES).a == i + 1;
    }
    good &= is("client 1 hands in the other's", titmeadow_desk_hand_in(&desk, 1, keys, TITMEADOW_BLOCK_BYTES), TITMEADOW_MIXED, 1, 0);
    good &= is("client 1 asks", titmeadow_desk_ask(&desk, 1, words, TITMEADOW_SECRET_MOST), 0, 1, 0) && words[0] == 1234;
    good &= is("client 1 closes", titmeadow_desk_close(&desk, 1), 0, 3, 0);
    good &= is("client 2 asks", titmeadow_desk_ask(&desk, 2, words, TITMEADOW_SECRET_MOST), 0, TITMEADOW_KEY_WORDS, 0);
    good &= titmeadow_unpack(words, TITMEADOW_KEY_WORDS, restored, sizeof restored).number == 0 && memcmp(restored, key, sizeof restored) == 0;
    good &= is("client 2 closes", titmeadow_desk_close(&desk, 2), 0, 3, 0);
    return good;
}

int main(void) {
    static uint8_t pile[4 * TITMEADOW_BLOCK_BYTES];
    uint16_t groups[TITMEADOW_PIECES_MOST], head[TITMEADOW_HEAD_WORDS] = {0}, joined[TITMEADOW_SECRET_MOST] = {0};
    int good = is("plan", titmeadow_plan(4, required, 3, forbidden, 1, groups), 0, 3, 0);

    size_t length = cards(1, 2, pile, sizeof pile);
    good &= is("holders 1 and 2", titmeadow_join(pile, length, joined, TITMEADOW_SECRET_MOST), 0, 1, 0) && joined[0] == 1234;

    good &= is("block 1", titmeadow_open(pile, length, head), 0, 7, 0) && head[0] == 1987 && head[2] == 1 && head[6] == 3;
    const uint8_t *year = pile + 2 * (TITMEADOW_YEAR_WORD - 1); /* words 1 to 7 are opened; this one is read off the block */
    good &= year[0] == 2026 / 256 && year[1] == 2026 % 256;
    good &= is("511 bytes of it", titmeadow_open(pile, TITMEADOW_BLOCK_BYTES - 1, head), TITMEADOW_TORN, 0, 0) && head[6] == 3;

    length = cards(1, 4, pile, sizeof pile);
    good &= is("holders 1 and 4", titmeadow_join(pile, length, joined, TITMEADOW_SECRET_MOST), TITMEADOW_SHORT, 2, 3);

    length = cards(1, 2, pile, sizeof pile);
    memcpy(pile + TITMEADOW_BLOCK_BYTES + 14, "\x7f\xff", 2); /* the reader could not read the first value of block 2 */
    good &= is("a dirty slot", titmeadow_join(pile, length, joined, TITMEADOW_SECRET_MOST), TITMEADOW_UNREAD, 2, 8) && joined[0] == 1234;

    uint16_t list[2 * 4]; /* a place, block and word, for each of up to four blocks */
    good &= is("it is salvaged", titmeadow_salvage(pile, length, list, 2 * 4), 0, 1, 0) && list[0] == 2 && list[1] == 8;
    joined[0] = 0;
    good &= is("and joined", titmeadow_join(pile, length, joined, TITMEADOW_SECRET_MOST), 0, 1, 0) && joined[0] == 1234;

    joined[0] = 0;
    length = renewed(1, 2, pile, sizeof pile);
    good &= is("new cards of 1 and 2", titmeadow_join(pile, length, joined, TITMEADOW_SECRET_MOST), 0, 1, 0) && joined[0] == 1234;
    length = renewed(1, 4, pile, sizeof pile);
    good &= is("new cards of 1 and 4", titmeadow_join(pile, length, joined, TITMEADOW_SECRET_MOST), TITMEADOW_SHORT, 2, 3);
    length = renewed(1, 2, pile, sizeof pile);
    cards(1, 2, pile, TITMEADOW_BLOCK_BYTES); /* holder 1's old card over the new one; for 2's there is no room */
    good &= is("an old one and a new one", titmeadow_join(pile, length, joined, TITMEADOW_SECRET_MOST), TITMEADOW_MIXED, 1, 0);
    /* that old card added to itself, into the room behind the pile */
    const size_t numbers[][2] = {{7, 2026}, {7, 2027}, {7, 32749}}, said[][2] = {{TITMEADOW_DEAL, 0}, {0, 1}, {TITMEADOW_YEAR, 0}};
    const char *const whats[] = {"its number and year again", "its number in another year", "a year above 32748"};
    for (int i = 0; i < 3; i++)
        good &= is(whats[i], titmeadow_add(pile, TITMEADOW_BLOCK_BYTES, pile, TITMEADOW_BLOCK_BYTES, numbers[i][0], numbers[i][1], pile + length,
                                           sizeof pile - length), said[i][0], said[i][1], 0);

    const uint8_t key[] = "fifteen letters"; /* and the zero behind them */
    uint8_t restored[TITMEADOW_KEY_BYTES] = {0};
    length = key_cards(1, 2, key, pile, sizeof pile);
    good &= is("a key, holders 1 and 2", titmeadow_join_key(pile, length, restored, sizeof restored), 0, TITMEADOW_KEY_BYTES, 0);
    good &= memcmp(restored, key, sizeof restored) == 0;
    good &= is("15 bytes for it", titmeadow_join_key(pile, length, restored, sizeof restored - 1), TITMEADOW_ROOM, TITMEADOW_KEY_BYTES, 0);

    length = key_cards(1, 4, key, pile, sizeof pile);
    good &= is("a key, holders 1 and 4", titmeadow_join_key(pile, length, restored, sizeof restored), TITMEADOW_SHORT, 2, 3);

    length = cards(1, 2, pile, sizeof pile);
    good &= is("a code is no key", titmeadow_join_key(pile, length, restored, sizeof restored), TITMEADOW_NOTKEY, 0, 0);
    good &= memcmp(restored, key, sizeof restored) == 0;
    good &= at_a_desk(key);
    return good ? 0 : 1;
}
