/* Keys: packing, unpacking, dealing a key and joining to one: every refusal of theirs, results, and the limits from both sides. */
#include "calls.h"

enum { KEY = TITMEADOW_KEY_BYTES, WORDS = TITMEADOW_KEY_WORDS };

/* Keys and their words, by hand: the 128 bits behind two zeros, 13 of these 130 at a time. */
static const struct {
    const char *what;
    uint8_t key[KEY];
    uint16_t words[WORDS];
} good_keys[] = {
    {"no bit", {0}, {0}},
    {"every bit",
     {255, 255, 255, 255, 255, 255, 255, 255, 255, 255, 255, 255, 255, 255, 255, 255},
     {2047, 8191, 8191, 8191, 8191, 8191, 8191, 8191, 8191, 8191}},
    {"the highest bit and the lowest", {128, [15] = 1}, {1024, [9] = 1}},
    {"bytes 0 to 15", {0, 1, 2, 3, 4, 5, 6, 7, 8, 9, 10, 11, 12, 13, 14, 15}, {0, 258, 96, 4116, 771, 4224, 4628, 707, 104, 3599}},
};
static const uint8_t zeros[2 * KEY];
static const uint16_t words_of_0[TITMEADOW_SECRET_MOST];

static void packing(void) {
    const size_t lengths[] = {0, 1, KEY - 1, KEY + 1, 2 * KEY};
    for (size_t i = 0; i < COUNT(good_keys); i++)
        is(PACK, good_keys[i].what, titmeadow_pack(good_keys[i].key, KEY, lend()), done(WORDS), good_keys[i].words, sizeof good_keys[i].words);
    for (size_t i = 0; i < COUNT(lengths); i++)
        is(PACK, "not 16 bytes", titmeadow_pack(lengths[i] == 0 ? NULL : zeros, lengths[i], lend()), refused(TITMEADOW_SECRET, 0, 0), NONE);
}

/* Words that do not unpack into `room` bytes. */
static const struct {
    const char *what;
    const uint16_t *words;
    size_t count, room;
    titmeadow_answer answer;
} bad_words[] = {
    {"no words, and no room", NONE, 0, {TITMEADOW_NOTKEY, 0, 0}},
    {"nine words", words_of_0, WORDS - 1, KEY, {TITMEADOW_NOTKEY, 0, 0}},
    {"eleven words", words_of_0, WORDS + 1, KEY, {TITMEADOW_NOTKEY, 0, 0}},
    {"sixteen words, all too large", largest, TITMEADOW_SECRET_MOST, KEY, {TITMEADOW_NOTKEY, 0, 0}},
    {"2048 in front", LIST(2048, 0, 0, 0, 0, 0, 0, 0, 0, 0), KEY, {TITMEADOW_NOTKEY, 1, 0}},
    {"2048 in front, then 8192, and no room", LIST(2048, 8192, 0, 0, 0, 0, 0, 0, 0, 0), 0, {TITMEADOW_NOTKEY, 1, 0}},
    {"8192 behind 2047", LIST(2047, 8192, 8191, 0, 0, 0, 0, 0, 0, 8192), KEY, {TITMEADOW_NOTKEY, 2, 0}},
    {"8192 at the end, and a byte too little room", LIST(2047, 8191, 0, 0, 0, 0, 0, 0, 0, 8192), KEY - 1, {TITMEADOW_NOTKEY, 10, 0}},
    {"65535 in the middle", LIST(0, 0, 0, 0, 65535, 0, 0, 0, 0, 0), KEY, {TITMEADOW_NOTKEY, 5, 0}},
    {"a byte too little room", words_of_0, WORDS, KEY - 1, {TITMEADOW_ROOM, KEY, 0}},
    {"no room", words_of_0, WORDS, 0, {TITMEADOW_ROOM, KEY, 0}},
};

static void unpacking(void) {
    for (size_t i = 0; i < COUNT(good_keys); i++)
        for (size_t more = 0; more < 2; more++)
            is(UNPACK, good_keys[i].what, titmeadow_unpack(good_keys[i].words, WORDS, (uint8_t *)lend(), KEY + more), done(KEY),
               good_keys[i].key, KEY);
    for (size_t i = 0; i < COUNT(bad_words); i++) {
        uint8_t *out = (uint8_t *)lend();
        is(UNPACK, bad_words[i].what, titmeadow_unpack(bad_words[i].words, bad_words[i].count, bad_words[i].room == 0 ? NULL : out, bad_words[i].room),
           bad_words[i].answer, NONE);
    }
}

/* Word d of a secret has the pieces d + 5j + 7j^2 mod p, whichever word it is. */
static const uint16_t coefficients[2 * WORDS + 1] = {5, 7, 5, 7, 5, 7, 5, 7, 5, 7, 5, 7, 5, 7, 5, 7, 5, 7, 5, 7, 5};

/* Block j of a secret of w words among the four people of P1, of whom 4 has piece 1, 2 has piece 2 and 1 has piece 3. */
static void put_piece(uint8_t *block, size_t holder, size_t j, const uint16_t *secret, size_t w) {
    uint16_t values[TITMEADOW_SECRET_MOST];
    for (size_t i = 0; i < w; i++)
        values[i] = (uint16_t)((secret[i] + 5 * j + 7 * j * j) % 32749);
    put_block(block, 7, holder, 4, 3, w, j, values);
}

/* By P1's policy but for what is said; nothing else is right where the policy is not. */
static const struct {
    const char *what;
    size_t people;
    const uint16_t *required;
    size_t required_count;
    const uint16_t *forbidden;
    size_t forbidden_count, deal, year, holder;
    const uint8_t *key;
    size_t length;
    const uint16_t *random;
    size_t random_count, room;
    titmeadow_answer answer;
} bad_deals[] = {
#define P1 4, LIST(3, 6, 12), LIST(9)
#define RIGHT coefficients, 2 * WORDS
    {"no people", 0, NONE, NONE, 0, SIZE_MAX, 0, NONE, NONE, 0, {TITMEADOW_PEOPLE, 0, 0}},
    {"257 sets", 4, (const uint16_t[TITMEADOW_SETS_MOST + 1]){0}, TITMEADOW_SETS_MOST + 1, NONE, 0, SIZE_MAX, 0, NONE, NONE, 0, {TITMEADOW_LONGLIST, 1, 0}},
    {"person 5 of 4", 4, LIST(3), LIST(9, 16), 0, SIZE_MAX, 0, NONE, NONE, 0, {TITMEADOW_STRANGER, 2, 2}},
    {"nobody required", 4, NONE, LIST(9), 0, SIZE_MAX, 0, NONE, NONE, 0, {TITMEADOW_NOBODY, 0, 0}},
    {"the empty set, behind a set of one", 4, LIST(1, 0), LIST(9), 0, SIZE_MAX, 0, NONE, NONE, 0, {TITMEADOW_OPEN, 2, 0}},
    {"a set of one, and a clash", 4, LIST(3, 8), LIST(11), 0, SIZE_MAX, 0, NONE, NONE, 0, {TITMEADOW_LONE, 2, 0}},
    {"a clash", 4, LIST(6, 3), LIST(9, 11), 0, SIZE_MAX, 0, NONE, NONE, 0, {TITMEADOW_CLASH, 2, 2}},
    {"deal 0, year 32749, holder 0, and no key", P1, 0, TITMEADOW_WORD_MOST + 1, 0, NONE, RIGHT, BLOCK, {TITMEADOW_DEAL, 0, 0}},
    {"deal 32749", P1, TITMEADOW_WORD_MOST + 1, 0, 4, zeros, KEY, RIGHT, BLOCK, {TITMEADOW_DEAL, 0, 0}},
    {"year 32749, holder 0, and no key", P1, 7, TITMEADOW_WORD_MOST + 1, 0, NONE, RIGHT, BLOCK, {TITMEADOW_YEAR, 0, 0}},
    {"year 65536, and no room", P1, 7, 65536, 4, zeros, KEY, RIGHT, 0, {TITMEADOW_YEAR, 0, 0}},
    {"holder 5 of 4, and a key too long", P1, 7, TITMEADOW_WORD_MOST, 5, zeros, KEY + 1, RIGHT, BLOCK, {TITMEADOW_HOLDER, 0, 0}},
    {"no key, and no randomness", P1, 7, 0, 4, NONE, NONE, BLOCK, {TITMEADOW_SECRET, 0, 0}},
    {"a key of 15 bytes, and no room", P1, 7, 2026, 4, zeros, KEY - 1, RIGHT, 0, {TITMEADOW_SECRET, 0, 0}},
    {"a key of 17 bytes", P1, 7, 2026, 4, zeros, KEY + 1, RIGHT, BLOCK, {TITMEADOW_SECRET, 0, 0}},
    {"a key of 32 bytes, and random 32749", P1, 7, 2026, 4, zeros, 2 * KEY, LIST(32749), BLOCK, {TITMEADOW_SECRET, 0, 0}},
    {"no randomness", P1, 7, 2026, 4, zeros, KEY, NONE, BLOCK, {TITMEADOW_RANDOM, 0, 0}},
    {"a random word too many", P1, 7, 2026, 4, zeros, KEY, coefficients, 2 * WORDS + 1, BLOCK, {TITMEADOW_RANDOM, 0, 0}},
    {"random 32749 at the end, and no room", P1, 7, 2026, 4, zeros, KEY,
     LIST(0, 0, 0, 0, 0, 0, 0, 0, 0, 0, 0, 0, 0, 0, 0, 0, 0, 0, 32748, 32749), 0, {TITMEADOW_RANDOM, 20, 0}},
    {"a byte too little for two blocks", P1, 7, 2026, 2, zeros, KEY, RIGHT, 2 * BLOCK - 1, {TITMEADOW_ROOM, 2, 0}},
    {"no room", P1, 7, 2026, 4, zeros, KEY, RIGHT, 0, {TITMEADOW_ROOM, 1, 0}},
};

static void dealing(void) {
    for (size_t i = 0; i < COUNT(bad_deals); i++) {
        uint8_t *out = (uint8_t *)lend();
        is(DEAL_KEY, bad_deals[i].what,
           titmeadow_deal_key(bad_deals[i].people, bad_deals[i].required, bad_deals[i].required_count, bad_deals[i].forbidden,
                              bad_deals[i].forbidden_count, bad_deals[i].deal, bad_deals[i].year, bad_deals[i].holder, bad_deals[i].key,
                              bad_deals[i].length, bad_deals[i].random, bad_deals[i].random_count, bad_deals[i].room == 0 ? NULL : out, bad_deals[i].room),
           bad_deals[i].answer, NONE);
    }
    for (size_t i = 0; i < COUNT(good_keys); i++) {
        uint8_t card[2][BLOCK];
        put_piece(card[0], 2, 1, good_keys[i].words, WORDS);
        put_piece(card[1], 2, 2, good_keys[i].words, WORDS);
        is(DEAL_KEY, good_keys[i].what, titmeadow_deal_key(P1, 7, 0, 2, good_keys[i].key, KEY, RIGHT, (uint8_t *)lend(), sizeof card + i), done(2),
           card, sizeof card);
        put_year(card[0], 2026 + i);
        put_year(card[1], 2026 + i);
        is(DEAL_KEY, "in another year", titmeadow_deal_key(P1, 7, 2026 + i, 2, good_keys[i].key, KEY, RIGHT, (uint8_t *)lend(), sizeof card + i), done(2),
           card, sizeof card);
    }
    lend();
    is(DEAL_KEY, "a holder of no piece", titmeadow_deal_key(3, LIST(3), NONE, 7, TITMEADOW_WORD_MOST, 3, zeros, KEY, coefficients, WORDS, NULL, 0), done(0), NONE);
}

static uint8_t pile[TITMEADOW_PILE_MOST + 1][BLOCK], kept[sizeof pile];

/* The first `length` bytes of the pile, NULL where there are none, joined to a key of `room` bytes, NULL alike. */
static void joined(const char *what, size_t length, size_t room, titmeadow_answer want, const uint8_t *key) {
    uint8_t *out = (uint8_t *)lend();
    memcpy(kept, pile, sizeof pile);
    titmeadow_answer got = titmeadow_join_key(length == 0 ? NULL : pile[0], length, room == 0 ? NULL : out, room);
    is(JOIN_KEY, what, got, want, key, want.number == 0 ? KEY : 0);
    if (memcmp(kept, pile, sizeof pile) != 0)
        fault(JOIN_KEY, what, "the pile is not as before");
}

/* The pile is one block of each piece of a secret of w words. */
static void lay(const uint16_t *secret, size_t w) {
    const size_t holders[] = {4, 2, 1};
    for (size_t j = 1; j <= COUNT(holders); j++)
        put_piece(pile[j - 1], holders[j - 1], j, secret, w);
}

/* Piles of ten zeros with word i of block 2 set to a value, and then its check made anew or left. */
static const struct {
    const char *what;
    size_t i, value;
    int anew;
    titmeadow_answer answer;
} bad_blocks[] = {
    {"a slot of 32749", 17, TITMEADOW_WORD_MOST + 1, 1, {TITMEADOW_UNREAD, 2, 17}},
    {"another value", 8, 39, 0, {TITMEADOW_CHECK, 2, 0}},
    {"a word behind the values", 18, 1, 1, {TITMEADOW_HEADER, 2, 18}},
    {"another deal number", 2, 8, 1, {TITMEADOW_MIXED, 2, 0}},
    {"another year", 24, 2026, 1, {TITMEADOW_MIXED, 2, 0}},
    {"a word behind the year", 25, 2026, 1, {TITMEADOW_HEADER, 2, 25}},
    {"piece 1, with piece 2's values", 7, 1, 1, {TITMEADOW_CONFLICT, 2, 1}},
};

static void joining(void) {
    const size_t all = 3 * BLOCK;
    lay(words_of_0, WORDS);
    joined("a byte too many", all + 1, KEY, refused(TITMEADOW_TORN, 0, 0), NULL);
    joined("561 blocks", sizeof pile, KEY, refused(TITMEADOW_LONG, 0, 0), NULL);
    for (size_t i = 0; i < COUNT(bad_blocks); i++) {
        lay(words_of_0, WORDS);
        put(pile[1], bad_blocks[i].i, bad_blocks[i].value);
        if (bad_blocks[i].anew)
            put_check(pile[1]);
        joined(bad_blocks[i].what, all, KEY, bad_blocks[i].answer, NULL);
        joined(bad_blocks[i].what, all, 0, bad_blocks[i].answer, NULL);
    }
    lay(words_of_0, WORDS);
    put(pile[0], 2, 8);
    put_check(pile[0]);
    joined("an old card on top", all, KEY, refused(TITMEADOW_MIXED, 1, 0), NULL);
    joined("no blocks", 0, KEY, refused(TITMEADOW_SHORT, 0, 0), NULL);
    joined("no blocks, and no room", 0, 0, refused(TITMEADOW_SHORT, 0, 0), NULL);

    /* SHORT before NOTKEY, NOTKEY before ROOM: secrets that are no key's; some words of the table are no secret */
    for (size_t i = 0; i < COUNT(bad_words); i++) {
        if (bad_words[i].answer.number != TITMEADOW_NOTKEY || bad_words[i].count == 0 || bad_words[i].words[4] > TITMEADOW_WORD_MOST)
            continue;
        lay(bad_words[i].words, bad_words[i].count);
        joined(bad_words[i].what, 2 * BLOCK, bad_words[i].room, refused(TITMEADOW_SHORT, 2, 3), NULL);
        joined(bad_words[i].what, all, bad_words[i].room, bad_words[i].answer, NULL);
    }
    memcpy(pile, three, sizeof three);
    joined("the code of P8", all, KEY, refused(TITMEADOW_NOTKEY, 0, 0), NULL);
    joined("the code of P8, and no room", all, 0, refused(TITMEADOW_NOTKEY, 0, 0), NULL);

    for (size_t i = 0; i < COUNT(good_keys); i++) {
        lay(good_keys[i].words, WORDS);
        joined("two pieces of three", 2 * BLOCK, KEY, refused(TITMEADOW_SHORT, 2, 3), NULL);
        joined("a byte too little room", all, KEY - 1, refused(TITMEADOW_ROOM, KEY, 0), NULL);
        joined("no room", all, 0, refused(TITMEADOW_ROOM, KEY, 0), NULL);
        joined(good_keys[i].what, all, KEY, done(KEY), good_keys[i].key);
        joined(good_keys[i].what, all, KEY + 1, done(KEY), good_keys[i].key);
    }
}

void keys(void) {
    packing();
    unpacking();
    dealing();
    joining();
}
