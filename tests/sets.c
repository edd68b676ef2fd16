/* Dealing by sets: every refusal, results, and the limits; and what the other calls say of such cards: joining set by set, opening, salvaging, and that they
 * are neither added nor handed in. */
#include "calls.h"

/* The policy of P1 has the sets {1, 2}, {2, 3} and {3, 4}, each with one coefficient: 5, 7 and 9. Of the word 1234 piece 1 is then 1239, 1241 and 1243, piece
 * 2 is 1244, 1248 and 1252. The blocks are of holders 1, 2; 2, 3; 3, 4. */
static uint8_t six[6][BLOCK];
static const uint16_t p1[] = {3, 6, 12}, barred[] = {9};

/* A block of a set: its words 3 to 7 in their order, one value, and the place of the set; of deal 7 in year 0. */
static uint8_t *put_set(uint8_t *block, size_t holder, size_t n, size_t k, size_t piece, uint16_t value, size_t place) {
    put_block(block, 7, holder, n, k, 1, piece, &value);
    put(block, 1, TITMEADOW_SETS_MARK);
    put(block, TITMEADOW_SET_WORD, place);
    put_check(block);
    return block;
}

/* Deals by P1's policy into `room` bytes, or NULL where there are none. */
static titmeadow_answer deal(size_t number, size_t year, size_t holder, const uint16_t *secret, size_t words, const uint16_t *random,
                             size_t random_count, size_t room) {
    uint8_t *card = (uint8_t *)lend();
    return titmeadow_deal_by_sets(4, p1, COUNT(p1), barred, COUNT(barred), number, year, holder, secret, words, random, random_count,
                                  room == 0 ? NULL : card, room);
}

static const struct {
    const char *what;
    size_t number, year, holder;
    const uint16_t *secret;
    size_t words;
    const uint16_t *random;
    size_t random_count;
    size_t room;
    titmeadow_answer answer;
} bad_deals[] = {
    {"deal 0, and no year", 0, SIZE_MAX, 0, NONE, NONE, 0, {TITMEADOW_DEAL, 0, 0}},
    {"deal 32749", TITMEADOW_WORD_MOST + 1, 0, 4, LIST(1234), LIST(5, 7, 9), BLOCK, {TITMEADOW_DEAL, 0, 0}},
    {"year 32749, and holder 0", 7, TITMEADOW_WORD_MOST + 1, 0, LIST(1234), LIST(5, 7, 9), BLOCK, {TITMEADOW_YEAR, 0, 0}},
    {"holder 0, and no secret", 7, 0, 0, NONE, LIST(5, 7, 9), BLOCK, {TITMEADOW_HOLDER, 0, 0}},
    {"holder 5 of 4", 7, 0, 5, LIST(1234), LIST(5, 7, 9), BLOCK, {TITMEADOW_HOLDER, 0, 0}},
    {"no secret, and no randomness", 7, 0, 4, NONE, NONE, BLOCK, {TITMEADOW_SECRET, 0, 0}},
    {"secret 32748, 32749, and too little randomness", 7, 0, 4, LIST(32748, 32749), LIST(5), BLOCK, {TITMEADOW_SECRET, 2, 0}},
    {"no randomness", 7, 0, 4, LIST(1234), NONE, BLOCK, {TITMEADOW_RANDOM, 0, 0}},
    {"as many random words as the first scheme takes", 7, 0, 4, LIST(1234), LIST(5, 7), BLOCK, {TITMEADOW_RANDOM, 0, 0}},
    {"a random word too many, and one too large", 7, 0, 4, LIST(1234), LIST(5, 32749, 7, 9), BLOCK, {TITMEADOW_RANDOM, 0, 0}},
    {"random 5, 32748, 32749, and no room", 7, 0, 4, LIST(1234), LIST(5, 32748, 32749), 0, {TITMEADOW_RANDOM, 3, 0}},
    {"a byte too little for two blocks", 7, 0, 2, LIST(1234), LIST(5, 7, 9), 2 * BLOCK - 1, {TITMEADOW_ROOM, 2, 0}},
    {"no room", 7, 0, 4, LIST(1234), LIST(5, 7, 9), 0, {TITMEADOW_ROOM, 1, 0}},
};

static void dealing(void) {
    static uint8_t card[TITMEADOW_CARD_MOST][BLOCK];
    static const uint16_t zeros[TITMEADOW_SETS_RANDOM_MOST];
    uint16_t fours[TITMEADOW_PIECES_MOST];
    for (size_t i = 0; i < COUNT(bad_deals); i++)
        is(DEAL_BY_SETS, bad_deals[i].what,
           deal(bad_deals[i].number, bad_deals[i].year, bad_deals[i].holder, bad_deals[i].secret, bad_deals[i].words, bad_deals[i].random,
                bad_deals[i].random_count, bad_deals[i].room),
           bad_deals[i].answer, NONE);
    const size_t first[] = {0, 1, 3, 5}, count[] = {1, 2, 2, 1};
    for (size_t i = 0; i < 4; i++)
        is(DEAL_BY_SETS, "P1 by sets", deal(7, 0, i + 1, LIST(1234), LIST(5, 7, 9), 2 * BLOCK + 1), done(count[i]), six[first[i]], count[i] * BLOCK);
    memcpy(card[0], six[0], BLOCK);
    put_year(card[0], 2026);
    is(DEAL_BY_SETS, "in 2026", deal(7, 2026, 1, LIST(1234), LIST(5, 7, 9), BLOCK), done(1), card, BLOCK);

    /* a set twice, one around another, and who is in none; NULL for what is not there */
    is(DEAL_BY_SETS, "a set twice, and others around it",
       titmeadow_deal_by_sets(4, LIST(15, 3, 12, 7, 6, 3), NONE, 7, 0, 1, LIST(1234), LIST(5, 7, 9), (uint8_t *)lend(), BLOCK), done(1), six[0], BLOCK);
    lend();
    is(DEAL_BY_SETS, "a holder in no set", titmeadow_deal_by_sets(3, LIST(3), NONE, 7, 0, 3, LIST(1234), LIST(5), NONE), done(0), NONE);

    /* any four of eight: with coefficients of 0 each piece is the secret. Holder 8 is the last member of 35 sets, so has piece 4 of each. */
    size_t sets = 0, blocks = 0;
    for (unsigned set = 0; set < 256; set++) {
        unsigned members = 0;
        for (unsigned person = 0; person < 8; person++)
            members += set >> person & 1;
        if (members != 4)
            continue;
        fours[sets++] = (uint16_t)set;
        if (set < 128)
            continue;
        put_block(card[blocks], 9, 8, 8, 4, TITMEADOW_SECRET_MOST, 4, sixteen);
        put(card[blocks], 1, TITMEADOW_SETS_MARK);
        put(card[blocks], TITMEADOW_SET_WORD, sets);
        put_check(card[blocks++]);
    }
    const size_t random = TITMEADOW_SECRET_MOST * TITMEADOW_PIECES_MOST * 3;
    is(DEAL_BY_SETS, "the largest card", titmeadow_deal_by_sets(8, fours, sets, NONE, 9, 0, 8, sixteen, COUNT(sixteen), zeros, random, (uint8_t *)lend(), sizeof card),
       done(TITMEADOW_CARD_MOST), card, sizeof card);
    is(DEAL_BY_SETS, "a byte too little for the largest card",
       titmeadow_deal_by_sets(8, fours, sets, NONE, 9, 0, 8, sixteen, COUNT(sixteen), zeros, random, (uint8_t *)lend(), sizeof card - 1),
       refused(TITMEADOW_ROOM, TITMEADOW_CARD_MOST, 0), NONE);
    /* all eight of eight: one set, seven coefficients */
    put_set(card[0], 5, 8, 8, 5, 1234, 1);
    is(DEAL_BY_SETS, "all eight of eight", titmeadow_deal_by_sets(8, LIST(255), NONE, 7, 0, 5, LIST(1234), zeros, 7, (uint8_t *)lend(), BLOCK), done(1), card, BLOCK);
}

/* These blocks as a pile, by every joiner, into one word; a result is that word. */
static void joined(const char *what, titmeadow_answer want, uint16_t word, size_t count, uint8_t *const *blocks) {
    static uint8_t pile[8][BLOCK];
    for (size_t i = 0; i < count; i++)
        memcpy(pile[i], blocks[i], BLOCK);
    for (size_t i = 0; i < JOINERS; i++)
        is(joiners[i].call, what, joiners[i].join(pile[0], count * BLOCK, lend(), 1), want, &word, want.number == 0 ? 2 : 0);
}
#define JOINS(what, word, ...) joined(what, done(1), word, COUNT(((uint8_t *[]){__VA_ARGS__})), (uint8_t *[]){__VA_ARGS__})
#define JOINED(what, number, a, b, ...) joined(what, refused(number, a, b), 0, COUNT(((uint8_t *[]){__VA_ARGS__})), (uint8_t *[]){__VA_ARGS__})

static void joining(void) {
    uint8_t one[BLOCK], two[BLOCK], other[BLOCK];
    JOINS("1 and 2", 1234, six[0], six[1], six[2]);
    JOINS("4 and 3, from the last to the first", 1234, six[5], six[4], six[3]);
    JOINED("1 and 3", TITMEADOW_SHORT, 0, 0, six[0], six[3], six[4]);
    JOINED("2 alone, twice", TITMEADOW_SHORT, 0, 0, six[1], six[2], six[1], six[2]);
    /* 2 * 20 - 34 is 6 */
    put_set(one, 1, 4, 2, 1, 20, 70);
    put_set(two, 2, 4, 2, 2, 34, 70);
    JOINS("two complete sets that disagree", 1234, one, two, six[5], six[4]);
    JOINS("the lower lacks a piece", 6, six[5], two, one);
    JOINS("a set of one member", 77, put_set(other, 1, 4, 1, 1, 77, 9), one, two);
    JOINED("another value", TITMEADOW_CONFLICT, 3, 2, six[2], six[0], put_set(other, 1, 4, 2, 1, 1240, 1));
    JOINED("another k, the same piece", TITMEADOW_CONFLICT, 3, 2, six[2], six[0], put_set(other, 1, 4, 3, 1, 1239, 1));
    JOINED("another k, another piece", TITMEADOW_CONFLICT, 4, 2, six[2], six[0], six[1], put_set(other, 1, 4, 3, 3, 1239, 1));
    JOINED("another k and another value, behind piece 2", TITMEADOW_CONFLICT, 3, 1, six[1], six[0], put_set(other, 1, 4, 3, 1, 1240, 1));
    JOINS("another value and another k, of another set", 1234, six[0], six[1], put_set(other, 1, 4, 3, 1, 1240, 2));
    JOINED("1987 on 1988", TITMEADOW_MIXED, 1, 0, three[0], six[0], six[1]);
    JOINED("1988 on 1987", TITMEADOW_MIXED, 1, 0, six[0], three[0], three[1]);
    JOINED("two of each", TITMEADOW_MIXED, 3, 0, six[0], six[2], three[0], three[1]);
    memcpy(other, six[1], BLOCK);
    put_year(other, 1);
    JOINED("another year", TITMEADOW_MIXED, 2, 0, six[0], other, six[2]);
    lend();
    uint8_t pile[2][BLOCK];
    memcpy(pile, six, sizeof pile);
    is(JOIN, "no room", titmeadow_join(pile[0], sizeof pile, NONE), refused(TITMEADOW_ROOM, 1, 0), NONE);
    is(JOIN_KEY, "one word is no key", titmeadow_join_key(pile[0], sizeof pile, NONE), refused(TITMEADOW_NOTKEY, 0, 0), NONE);
}

/* The block of holder 1 with one word changed under a right check, and the first word then that is not as the layout has it; 0 where it opens. */
static const struct {
    const char *what;
    size_t i, value, b;
} layout[] = {
    {"mark 1986", 1, 1986, 1}, {"mark 1989", 1, 1989, 1}, {"mark 1987, with a set", 1, TITMEADOW_MARK, 25}, {"no pieces", 5, 0, 5},
    {"a set of one", 5, 1, 0}, {"a set of all", 5, 4, 0}, {"more members than people", 5, 5, 5}, {"piece 3 of 2", 7, 3, 7},
    {"a word behind the value", 9, 1, 9}, {"a word before the year", 23, 1, 23}, {"no set", 25, 0, 25}, {"set 70", 25, 70, 0}, {"set 71", 25, 71, 25},
    {"set 257", 25, 257, 25}, {"a word behind the set", 26, 1, 26}, {"a word before the check", 255, 1, 255},
};

static void blocks(void) {
    const uint16_t head[TITMEADOW_HEAD_WORDS] = {TITMEADOW_SETS_MARK, 7, 1, 4, 2, 1, 1};
    uint16_t changed[TITMEADOW_HEAD_WORDS];
    uint8_t bad[BLOCK];
    is(OPEN, "a block by sets", titmeadow_open(six[0], BLOCK, lend()), done(TITMEADOW_HEAD_WORDS), head, sizeof head);
    for (size_t i = 0; i < COUNT(layout); i++) {
        memcpy(bad, six[0], BLOCK);
        put(bad, layout[i].i, layout[i].value);
        put_check(bad);
        memcpy(changed, head, sizeof head);
        if (layout[i].i <= TITMEADOW_HEAD_WORDS)
            changed[layout[i].i - 1] = (uint16_t)layout[i].value;
        const int good = layout[i].b == 0;
        is(OPEN, layout[i].what, titmeadow_open(bad, BLOCK, lend()), good ? done(TITMEADOW_HEAD_WORDS) : refused(TITMEADOW_HEADER, 1, layout[i].b), changed,
           good ? sizeof changed : 0);
        if (!good)
            JOINED(layout[i].what, TITMEADOW_HEADER, 2, layout[i].b, six[1], bad);
    }
    /* each word that is lost comes back */
    for (size_t i = 1; i <= TITMEADOW_BLOCK_WORDS; i++) {
        const uint16_t place[] = {1, (uint16_t)i};
        memcpy(bad, six[0], BLOCK);
        put(bad, i, 32767);
        is(SALVAGE, "a word of a block by sets", titmeadow_salvage(bad, BLOCK, lend(), 2), done(1), place, sizeof place);
        if (memcmp(bad, six[0], BLOCK) != 0)
            fault(SALVAGE, "a word of a block by sets", "another block");
    }
}

/* Adding and the desk: HEADER, word 1, behind UNREAD and CHECK, and before all else that is wrong with the block. */
static void first_only(void) {
    titmeadow_desk desk = TITMEADOW_DESK_FRESH, before;
    uint8_t block[BLOCK];
    const struct {
        size_t i, value;
        int anew;
        size_t number, b;
    } cases[] = {
        {8, 1239, 1, TITMEADOW_HEADER, 1},  {2, 0, 1, TITMEADOW_HEADER, 1},     {25, 0, 1, TITMEADOW_HEADER, 1}, {1, TITMEADOW_MARK, 1, TITMEADOW_HEADER, 25},
        {8, 1240, 0, TITMEADOW_CHECK, 0}, {256, 32767, 0, TITMEADOW_UNREAD, 256}, {1, 65535, 0, TITMEADOW_UNREAD, 1},
    };
    is(DESK_OPEN, "with the words of a block by sets", (lend(), titmeadow_desk_open(&desk, 1, 7, 4, 2, 1, 0)), done(2), NONE);
    for (size_t i = 0; i < COUNT(cases); i++) {
        memcpy(block, six[0], BLOCK);
        put(block, cases[i].i, cases[i].value);
        if (cases[i].anew)
            put_check(block);
        is(ADD, "block one is by sets", titmeadow_add(block, BLOCK, NONE, 0, 0, (uint8_t *)lend(), BLOCK), refused(cases[i].number, 1, cases[i].b), NONE);
        is(ADD, "block two is by sets", titmeadow_add(three[0], BLOCK, block, BLOCK, 0, 0, (uint8_t *)lend(), BLOCK),
           refused(cases[i].number, 2, cases[i].b), NONE);
        before = desk;
        is(DESK_HAND_IN, "a block by sets", (lend(), titmeadow_desk_hand_in(&desk, 1, block, BLOCK)), refused(cases[i].number, 1, cases[i].b), NONE);
        if (memcmp(&before, &desk, sizeof desk) != 0)
            fault(DESK_HAND_IN, "a block by sets", "the desk is not as before");
    }
}

void sets(void) {
    const uint16_t values[] = {1239, 1244, 1241, 1248, 1243, 1252}, checks[] = {11981, 12031, 12025, 12091, 12069, 12151};
    for (size_t i = 0; i < COUNT(values); i++) {
        put_set(six[i], i / 2 + 1 + i % 2, 4, 2, 1 + i % 2, values[i], i / 2 + 1);
        if (six[i][510] != checks[i] / 256 || six[i][511] != checks[i] % 256)
            fault(DEAL_BY_SETS, "the blocks of the cases", "another check");
    }
    dealing();
    joining();
    blocks();
    first_only();
}
