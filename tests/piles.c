/* Joining and opening: every refusal of theirs, results, and the limits from both sides. */
#include "calls.h"

/* A pile, and how it was before the call. */
static uint8_t pile[TITMEADOW_PILE_MOST + 2][BLOCK], kept[sizeof pile];

/* The first `length` bytes of the pile, NULL where there are none, joined by each joiner into `room` words, NULL alike. */
static void joined(const char *what, size_t length, size_t room, titmeadow_answer want, const uint16_t *secret) {
    for (size_t i = 0; i < JOINERS; i++) {
        uint16_t *out = lend();
        memcpy(kept, pile, sizeof pile);
        titmeadow_answer got = joiners[i].join(length == 0 ? NULL : pile[0], length, room == 0 ? NULL : out, room);
        is(joiners[i].call, what, got, want, secret, want.number == 0 ? 2 * want.a : 0);
        if (memcmp(kept, pile, sizeof pile) != 0)
            fault(joiners[i].call, what, "the pile is not as before");
    }
}

/* The pile is these blocks. */
static void lay(size_t count, uint8_t *const *blocks) {
    for (size_t i = 0; i < count; i++)
        memcpy(pile[i], blocks[i], BLOCK);
}
#define LAY(...) lay(COUNT(((uint8_t *[]){__VA_ARGS__})), (uint8_t *[]){__VA_ARGS__})
#define JOINED(what, room, number, a, b, ...) \
    (LAY(__VA_ARGS__), joined(what, BLOCK * COUNT(((uint8_t *[]){__VA_ARGS__})), room, refused(number, a, b), NULL))

/* A block with one word changed, and then its check made anew or left. */
enum check { LEFT, ANEW };
static uint8_t *changed(uint8_t *into, const uint8_t *block, size_t i, size_t value, enum check check) {
    memcpy(into, block, BLOCK);
    put(into, i, value);
    if (check == ANEW)
        put_check(into);
    return into;
}

/* The second of the three blocks with one word changed: holder 2 of 4, piece 2 of 3, one value. */
static const struct {
    const char *what;
    size_t i, value;
    enum check check;
    size_t number, b;
} bad_blocks[] = {
    {"a slot of 32749", 8, TITMEADOW_WORD_MOST + 1, ANEW, TITMEADOW_UNREAD, 8},
    {"a slot of 65535 in the mark", 1, 65535, LEFT, TITMEADOW_UNREAD, 1},
    {"a slot of 32767 in the check", 256, 32767, LEFT, TITMEADOW_UNREAD, 256},
    {"another check", 256, 12235, LEFT, TITMEADOW_CHECK, 0},
    {"another value", 8, 1273, LEFT, TITMEADOW_CHECK, 0},
    {"another mark", 1, 1988, LEFT, TITMEADOW_CHECK, 0},
    {"mark 1986", 1, 1986, ANEW, TITMEADOW_HEADER, 1},
    {"mark 1988, and no set", 1, TITMEADOW_SETS_MARK, ANEW, TITMEADOW_HEADER, 25},
    {"deal 0", 2, 0, ANEW, TITMEADOW_HEADER, 2},
    {"holder 0", 3, 0, ANEW, TITMEADOW_HEADER, 3},
    {"holder 9", 3, 9, ANEW, TITMEADOW_HEADER, 3},
    {"holder 5 of 4", 3, 5, ANEW, TITMEADOW_HEADER, 4},
    {"nine people", 4, TITMEADOW_PEOPLE_MOST + 1, ANEW, TITMEADOW_HEADER, 4},
    {"holder 2 of 1", 4, 1, ANEW, TITMEADOW_HEADER, 4},
    {"no pieces", 5, 0, ANEW, TITMEADOW_HEADER, 5},
    {"71 pieces", 5, TITMEADOW_PIECES_MOST + 1, ANEW, TITMEADOW_HEADER, 5},
    {"piece 2 of 1", 5, 1, ANEW, TITMEADOW_HEADER, 7},
    {"no words", 6, 0, ANEW, TITMEADOW_HEADER, 6},
    {"17 words", 6, TITMEADOW_SECRET_MOST + 1, ANEW, TITMEADOW_HEADER, 6},
    {"piece 0", 7, 0, ANEW, TITMEADOW_HEADER, 7},
    {"piece 4 of 3", 7, 4, ANEW, TITMEADOW_HEADER, 7},
    {"a word behind the value", 9, 1, ANEW, TITMEADOW_HEADER, 9},
    {"a word before the year", 23, 2026, ANEW, TITMEADOW_HEADER, 23},
    {"year 32749", 24, TITMEADOW_WORD_MOST + 1, ANEW, TITMEADOW_UNREAD, 24},
    {"a year, and the check of another", 24, 2026, LEFT, TITMEADOW_CHECK, 0},
    {"a word behind the year", 25, 2026, ANEW, TITMEADOW_HEADER, 25},
    {"a word before the check", 255, 1, ANEW, TITMEADOW_HEADER, 255},
};

static void opened(const char *what, size_t length, titmeadow_answer want, const uint16_t *head) {
    uint16_t *out = lend();
    memcpy(kept, pile, sizeof pile);
    is(OPEN, what, titmeadow_open(length == 0 ? NULL : pile[0], length, out), want, head, want.number == 0 ? 2 * want.a : 0);
    if (memcmp(kept, pile, sizeof pile) != 0)
        fault(OPEN, what, "the pile is not as before");
}

/* Each bad block, second and first in a pile, before one that is worse; and opened, with more behind it. */
static void blocks(void) {
    uint8_t bad[BLOCK], unread[BLOCK];
    memset(unread, 0xff, BLOCK);
    for (size_t i = 0; i < COUNT(bad_blocks); i++) {
        changed(bad, three[1], bad_blocks[i].i, bad_blocks[i].value, bad_blocks[i].check);
        JOINED(bad_blocks[i].what, 16, bad_blocks[i].number, 2, bad_blocks[i].b, three[0], bad, unread);
        JOINED(bad_blocks[i].what, 16, bad_blocks[i].number, 1, bad_blocks[i].b, bad, unread, three[2]);
        opened(bad_blocks[i].what, BLOCK + 1, refused(bad_blocks[i].number, 1, bad_blocks[i].b), NULL);
    }
    const titmeadow_answer torn = refused(TITMEADOW_TORN, 0, 0);
    opened("no bytes", 0, torn, NULL);
    opened("a byte too few", BLOCK - 1, torn, NULL);
    LAY(three[1], unread);
    const uint16_t head[TITMEADOW_HEAD_WORDS] = {TITMEADOW_MARK, 7, 2, 4, 3, 1, 2};
    opened("one block", BLOCK, done(TITMEADOW_HEAD_WORDS), head);
    opened("a block, and a byte behind it", BLOCK + 1, done(TITMEADOW_HEAD_WORDS), head);
    changed(bad, three[1], 8, TITMEADOW_WORD_MOST, ANEW);
    LAY(bad);
    opened("a slot of 32748", BLOCK, done(TITMEADOW_HEAD_WORDS), head);
    changed(bad, three[1], 24, TITMEADOW_WORD_MOST, ANEW);
    LAY(bad);
    opened("year 32748", BLOCK, done(TITMEADOW_HEAD_WORDS), head);
}

/* Another deal than that of the three blocks: word 2, 4, 5, 6 or 24 of them is set to this value. */
static const struct {
    const char *what;
    size_t i, value;
} other_deals[] = {
    {"another deal number", 2, 8},
    {"another high byte of the deal number", 2, 256 + 7},
    {"more people", 4, 5},
    {"more pieces", 5, 4},
    {"seventy pieces", 5, TITMEADOW_PIECES_MOST},
    {"more words", 6, 2},
    {"sixteen words", 6, TITMEADOW_SECRET_MOST},
    {"another year", 24, 1},
    {"another high byte of the year", 24, 256},
    {"the last year", 24, TITMEADOW_WORD_MOST},
};

/* Old blocks, of the other deal, among new ones. Blocks of one deal are a heap. The pile is taken to be of the deal that has the most blocks, of
 * equal heaps that which begins first; the place is that of the first block of another deal. */
static void heaps(const char *what, size_t i, size_t value) {
    uint8_t *const one = three[0], *const two = three[1], *const last = three[2];
    uint8_t old[BLOCK], older[BLOCK], third[BLOCK];
    changed(old, two, i, value, ANEW);
    changed(older, last, i, value, ANEW);
    changed(third, one, 2, 9, ANEW);
    JOINED(what, 16, TITMEADOW_MIXED, 1, 0, old, one, two);               /* on top: heaps of 1 and 2 */
    JOINED(what, 16, TITMEADOW_MIXED, 1, 0, old, older, one, two, last);  /* a card of two blocks on top: 2 and 3 */
    JOINED(what, 16, TITMEADOW_MIXED, 2, 0, one, old, last);              /* in the middle */
    JOINED(what, 16, TITMEADOW_MIXED, 3, 0, one, last, old);              /* at the end */
    JOINED(what, 16, TITMEADOW_MIXED, 2, 0, one, old);                    /* heaps of 1 and 1, in both orders */
    JOINED(what, 16, TITMEADOW_MIXED, 2, 0, old, one);
    JOINED(what, 16, TITMEADOW_MIXED, 3, 0, one, two, old, older);        /* 2 and 2, in both orders */
    JOINED(what, 16, TITMEADOW_MIXED, 3, 0, old, older, one, two);
    JOINED(what, 16, TITMEADOW_MIXED, 2, 0, old, one, two, older);        /* 2 and 2, the old ones around the others */
    JOINED(what, 16, TITMEADOW_MIXED, 1, 0, third, one, old, older, two); /* 1, 2 and 2 */
    JOINED(what, 16, TITMEADOW_MIXED, 1, 0, third, old, one, two);        /* 1, 1 and 2 */
    JOINED(what, 16, TITMEADOW_MIXED, 2, 0, one, third, two, old);        /* 2, 1 and 1 */
    JOINED(what, 16, TITMEADOW_MIXED, 2, 0, old, one, third);             /* every block of another deal */
}

/* 560 blocks: `first` of deal 8, the others of deal 7; and as many deals as blocks. */
static void many_heaps(void) {
    const struct {
        const char *what;
        size_t first, a;
    } cases[] = {
        {"heaps of 280 and 280", 280, 281},
        {"heaps of 279 and 281", 279, 1},
        {"heaps of 281 and 279", 281, 282},
        {"heaps of 255 and 305", 255, 1}, /* 305 in a byte would be 49 */
        {"heaps of 305 and 255", 305, 306},
        {"heaps of 1 and 559", 1, 1},
        {"heaps of 559 and 1", 559, 560},
    };
    for (size_t i = 0; i < COUNT(cases); i++) {
        for (size_t at = 0; at < TITMEADOW_PILE_MOST; at++)
            changed(pile[at], three[at % 3], 2, at < cases[i].first ? 8 : 7, ANEW);
        joined(cases[i].what, TITMEADOW_PILE_MOST * BLOCK, 16, refused(TITMEADOW_MIXED, cases[i].a, 0), NULL);
    }
    for (size_t at = 0; at < TITMEADOW_PILE_MOST; at++)
        changed(pile[at], three[at % 3], 2, at + 1, ANEW);
    joined("560 deals", TITMEADOW_PILE_MOST * BLOCK, 16, refused(TITMEADOW_MIXED, 2, 0), NULL);
    changed(pile[TITMEADOW_PILE_MOST - 1], three[0], 2, TITMEADOW_PILE_MOST - 1, ANEW);
    joined("559 deals, the last two blocks of one", TITMEADOW_PILE_MOST * BLOCK, 16, refused(TITMEADOW_MIXED, 1, 0), NULL);
}

static void joining(void) {
    uint8_t *const one = three[0], *const two = three[1], *const last = three[2];
    uint8_t other[BLOCK], second[BLOCK], wide[2][BLOCK];
    const titmeadow_answer torn = refused(TITMEADOW_TORN, 0, 0), too_long = refused(TITMEADOW_LONG, 0, 0);

    memset(pile, 0xff, sizeof pile);
    joined("a byte", 1, 16, torn, NULL);
    joined("a byte too few", BLOCK - 1, 16, torn, NULL);
    joined("an unread block, and a byte", BLOCK + 1, 16, torn, NULL);
    joined("561 blocks, and a byte", (TITMEADOW_PILE_MOST + 1) * BLOCK + 1, 16, torn, NULL);
    joined("561 unread blocks", (TITMEADOW_PILE_MOST + 1) * BLOCK, 16, too_long, NULL);
    for (size_t i = 0; i <= TITMEADOW_PILE_MOST; i++)
        memcpy(pile[i], three[i % 3], BLOCK);
    joined("561 blocks", (TITMEADOW_PILE_MOST + 1) * BLOCK, 16, too_long, NULL);
    joined("560 blocks", TITMEADOW_PILE_MOST * BLOCK, 16, done(1), LISTED(1234));

    JOINED("another deal number, and a conflict", 16, TITMEADOW_MIXED, 4, 0, one, changed(other, one, 8, 1247, ANEW), last,
           changed(second, two, 2, 8, ANEW));
    JOINED("another deal, and no room", 0, TITMEADOW_MIXED, 3, 0, one, last, changed(other, two, 2, 8, ANEW));
    for (size_t i = 0; i < COUNT(other_deals); i++)
        heaps(other_deals[i].what, other_deals[i].i, other_deals[i].value);
    many_heaps();
    JOINED("another value of piece 1", 16, TITMEADOW_CONFLICT, 3, 1, one, two, changed(other, one, 8, 1247, ANEW));
    JOINED("another value of piece 2, then of piece 1", 16, TITMEADOW_CONFLICT, 4, 2, one, two, two, changed(second, two, 8, 1273, ANEW),
           changed(other, one, 8, 1247, ANEW));
    JOINED("P12", 16, TITMEADOW_SHORT, 2, 3, last, one);
    JOINED("one piece, twice, and no room", 0, TITMEADOW_SHORT, 1, 3, two, two);
    joined("no blocks", 0, 16, refused(TITMEADOW_SHORT, 0, 0), NULL);
    joined("no blocks, and no room", 0, 0, refused(TITMEADOW_SHORT, 0, 0), NULL);
    JOINED("no room", 0, TITMEADOW_ROOM, 1, 0, one, two, last);

    /* P8 from the last to the first, one of them twice; the secret of P9, pieces 0, 1, 2 */
    LAY(last, two, last, one);
    joined("P8", 4 * BLOCK, 1, done(1), LISTED(1234));
    for (size_t j = 1; j <= 3; j++)
        put_block(pile[j - 1], 7, 3, 4, 3, 1, j, (const uint16_t[]){(uint16_t)(j - 1)});
    joined("P9", 3 * BLOCK, 2, done(1), LISTED(32748));

    /* Sixteen words of 32748, so -1, with coefficients of 32748: piece 1 is -2, so 32747, and piece 2 is 32746. */
    for (size_t j = 1; j <= 2; j++) {
        uint16_t values[TITMEADOW_SECRET_MOST];
        for (size_t i = 0; i < COUNT(values); i++)
            values[i] = (uint16_t)(32748 - j);
        put_block(wide[j - 1], TITMEADOW_WORD_MOST, 3 - j, 2, 2, TITMEADOW_SECRET_MOST, j, values);
    }
    JOINED("a word too little room", 15, TITMEADOW_ROOM, TITMEADOW_SECRET_MOST, 0, wide[0], wide[1]);
    joined("sixteen words", 2 * BLOCK, TITMEADOW_SECRET_MOST, done(TITMEADOW_SECRET_MOST), largest);

    /* P8 in the same years; with sixteen values word 23 is the last of them, and the year stands right behind it */
    const size_t years[] = {1, 256, 2026, TITMEADOW_WORD_MOST};
    for (size_t i = 0; i < COUNT(years); i++) {
        LAY(last, two, one);
        for (size_t a = 0; a < 3; a++)
            put_year(pile[a], years[i]);
        joined("P8 in a year", 3 * BLOCK, 1, done(1), LISTED(1234));
        LAY(wide[0], wide[1]);
        put_year(pile[0], years[i]);
        joined("sixteen words of two years", 2 * BLOCK, TITMEADOW_SECRET_MOST, refused(TITMEADOW_MIXED, 2, 0), NULL);
        put_year(pile[1], years[i]);
        joined("sixteen words in a year", 2 * BLOCK, TITMEADOW_SECRET_MOST, done(TITMEADOW_SECRET_MOST), largest);
    }

    /* Seventy pieces with coefficients of 0: each is the secret. */
    for (size_t j = 1; j <= TITMEADOW_PIECES_MOST; j++)
        put_block(pile[j - 1], 9, 8, 8, TITMEADOW_PIECES_MOST, TITMEADOW_SECRET_MOST, j, sixteen);
    joined("seventy pieces", TITMEADOW_PIECES_MOST * BLOCK, 17, done(TITMEADOW_SECRET_MOST), sixteen);
    joined("all but the last", (TITMEADOW_PIECES_MOST - 1) * BLOCK, 16, refused(TITMEADOW_SHORT, 69, 70), NULL);
}

void piles(void) {
    blocks();
    joining();
}
