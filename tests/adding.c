/* Adding: every refusal of it, results, and the limits from both sides; the whole output each time. */
#include "calls.h"

/* The two blocks, each at the front of more than it has: the call is lent a length. */
enum { LONGEST = 2 * BLOCK };
static uint8_t one[LONGEST], two[LONGEST];

static void lay(uint8_t *at, const uint8_t *block) {
    memcpy(at, block, BLOCK);
    memcpy(at + BLOCK, block, BLOCK);
}

/* The block of holder 4 of P11's deal, and its fellow of deal 8, whose secret is 0 and whose coefficients are 32748 and 1: 0 at 1. */
static void lay_fellows(void) {
    uint8_t block[BLOCK];
    lay(one, three[0]);
    put_block(block, 8, 4, 4, 3, 1, 1, LISTED(0));
    lay(two, block);
}

/* So many bytes of each, NULL where there are none, added under a number and a year into so many bytes, NULL alike. */
static void add_in(size_t year, const char *what, size_t first, size_t second, size_t deal, size_t room, titmeadow_answer want,
                   const uint8_t *sum) {
    uint8_t was[2][LONGEST];
    memcpy(was[0], one, LONGEST);
    memcpy(was[1], two, LONGEST);
    uint8_t *out = (uint8_t *)lend();
    titmeadow_answer got = titmeadow_add(first == 0 ? NULL : one, first, second == 0 ? NULL : two, second, deal, year,
                                         room == 0 ? NULL : out, room);
    is(ADD, what, got, want, sum, want.number == 0 ? BLOCK : 0);
    if (memcmp(was[0], one, LONGEST) != 0 || memcmp(was[1], two, LONGEST) != 0)
        fault(ADD, what, "a block that was lent to be read is another");
}

/* The same under year 0. */
static void add(const char *what, size_t first, size_t second, size_t deal, size_t room, titmeadow_answer want, const uint8_t *sum) {
    add_in(0, what, first, second, deal, room, want, sum);
}

/* Whole blocks, refused whatever number, year and room are lent. */
static void refuses(const char *what, titmeadow_answer want) {
    const size_t deals[] = {9, 0, TITMEADOW_WORD_MOST + 1};
    for (size_t i = 0; i < COUNT(deals); i++) {
        add(what, BLOCK, BLOCK, deals[i], BLOCK, want, NULL);
        add(what, BLOCK, BLOCK, deals[i], 0, want, NULL);
        add_in(TITMEADOW_WORD_MOST + 1, what, BLOCK, BLOCK, deals[i], 0, want, NULL);
    }
}

/* 1987 + 18 + 12 + 16 + 15 + 6 + 7 + 8 * 1246 = 12029 */
static void worked(void) {
    const size_t rooms[] = {BLOCK, BLOCK + 1, LONGEST};
    uint8_t sum[BLOCK];
    put_block(sum, 9, 4, 4, 3, 1, 1, LISTED(1246));
    if (sum[BLOCK - 2] != 12029 / 256 || sum[BLOCK - 1] != 12029 % 256)
        fault(ADD, "the worked case", "another check");
    lay_fellows();
    for (size_t i = 0; i < COUNT(rooms); i++)
        add("the worked case", BLOCK, BLOCK, 9, rooms[i], done(1), sum);
    lay(one, two);
    lay(two, three[0]);
    add("exchanged", BLOCK, BLOCK, 9, BLOCK, done(1), sum);
    lay(one, three[0]);
    put_block(sum, 9, 4, 4, 3, 1, 1, LISTED(2492));
    add("a block and itself", BLOCK, BLOCK, 9, BLOCK, done(1), sum);
}

static void lengths(void) {
    const size_t bad[] = {0, 1, BLOCK - 1, BLOCK + 1, LONGEST - 1, LONGEST};
    const titmeadow_answer torn = refused(TITMEADOW_TORN, 0, 0);
    for (size_t i = 0; i < COUNT(bad); i++) {
        lay_fellows();
        add("block one is torn", bad[i], BLOCK, 9, BLOCK, torn, NULL);
        add("block two is torn", BLOCK, bad[i], 9, BLOCK, torn, NULL);
        add("both are torn, deal 0, and no room", bad[i], bad[i], 0, 0, torn, NULL);
        put(two, 8, 32767);
        add("block one is torn, and two is dirty", bad[i], BLOCK, 9, BLOCK, torn, NULL);
        lay_fellows();
        put(one, 8, 32767);
        add("block one is dirty, and two is torn", BLOCK, bad[i], 9, BLOCK, refused(TITMEADOW_UNREAD, 1, 8), NULL);
        lay_fellows();
        put(one, 8, 1247);
        add("the check of one is wrong, and two is torn", BLOCK, bad[i], 9, BLOCK, refused(TITMEADOW_CHECK, 1, 0), NULL);
        put(one, 1, 1988);
        put_check(one);
        add("one has another mark, and two is torn", BLOCK, bad[i], 9, BLOCK, refused(TITMEADOW_HEADER, 1, 1), NULL);
    }
}

/* Each word of each block: dirty, which says UNREAD and the first such word, or other than it was, which says CHECK. */
static void slots(void) {
    uint8_t *const blocks[] = {one, two};
    for (size_t i = 1; i <= TITMEADOW_BLOCK_WORDS; i++)
        for (size_t a = 1; a <= 2; a++) {
            lay_fellows();
            put(blocks[a - 1], i, TITMEADOW_WORD_MOST);
            refuses("another word", refused(TITMEADOW_CHECK, a, 0));
            put(blocks[a - 1], i, TITMEADOW_WORD_MOST + 1);
            refuses("a dirty word", refused(TITMEADOW_UNREAD, a, i));
            put(blocks[a - 1], TITMEADOW_BLOCK_WORDS, 65535);
            refuses("two dirty words", refused(TITMEADOW_UNREAD, a, i));
        }
}

/* Words that the layout has not, under a right check. */
static const struct {
    size_t i, value;
} broken[] = {{1, 1986}, {2, 0}, {3, 0}, {3, 9}, {4, 0}, {4, 3}, {4, 9}, {5, 0}, {5, 71}, {6, 0}, {6, 17}, {7, 0}, {7, 4}, {9, 1}, {23, 1}, {25, 1}, {255, 1}};

static void layouts(void) {
    for (size_t j = 0; j < COUNT(broken); j++) {
        lay_fellows();
        put(two, broken[j].i, broken[j].value);
        put_check(two);
        refuses("block two breaks the layout", refused(TITMEADOW_HEADER, 2, broken[j].i));
        put(one, broken[j].i, broken[j].value);
        put_check(one);
        refuses("both break the layout", refused(TITMEADOW_HEADER, 1, broken[j].i));
        lay_fellows();
        put(one, broken[j].i, broken[j].value);
        put_check(one);
        refuses("block one breaks the layout", refused(TITMEADOW_HEADER, 1, broken[j].i));
        put(two, 256, 32767);
        refuses("and block two is dirty", refused(TITMEADOW_HEADER, 1, broken[j].i));
    }
}

/* Two true blocks, alike but for one of words 3 to 7, or for that one and the piece: the first is named, before number and room are looked at. */
static void unlike(void) {
    const size_t others[][2] = {{3, 1}, {3, 4}, {4, 2}, {4, 8}, {5, 2}, {5, 70}, {6, 1}, {6, 16}, {7, 1}, {7, 3}};
    for (size_t j = 0; j < COUNT(others); j++) {
        size_t head[] = {0, 0, 7, 2, 4, 3, 2, 2}; /* words 2 to 7, by their number */
        uint8_t block[BLOCK];
        put_block(block, 8, 2, 4, 3, 2, 2, LISTED(5, 6));
        lay(one, block);
        head[others[j][0]] = others[j][1];
        put_block(block, head[2], head[3], head[4], head[5], head[6], head[7], sixteen);
        lay(two, block);
        refuses("an unlike word", refused(TITMEADOW_UNLIKE, others[j][0], 0));
        put(two, 7, 1);
        put_check(two);
        refuses("an unlike word, and another piece", refused(TITMEADOW_UNLIKE, others[j][0], 0));
        lay(two, one);
        lay(one, block);
        refuses("exchanged", refused(TITMEADOW_UNLIKE, others[j][0], 0));
    }
}

static void numbers(void) {
    const size_t good[] = {1, 6, 9, 256 + 7, TITMEADOW_WORD_MOST}, wide = (size_t)1 << 40;
    const size_t bad[] = {0, 7, 8, TITMEADOW_WORD_MOST + 1, 65535, 65536, 65536 + 9, wide, wide + 9, SIZE_MAX};
    const titmeadow_answer deal = refused(TITMEADOW_DEAL, 0, 0);
    uint8_t sum[BLOCK];
    for (size_t i = 0; i < COUNT(bad); i++) {
        lay_fellows();
        add("a number that is none, or an old one", BLOCK, BLOCK, bad[i], BLOCK, deal, NULL);
        add("and no room", BLOCK, BLOCK, bad[i], BLOCK - 1, deal, NULL);
        lay(one, two);
        lay(two, three[0]);
        add("exchanged", BLOCK, BLOCK, bad[i], BLOCK, deal, NULL);
    }
    lay_fellows();
    for (size_t i = 0; i < COUNT(good); i++) {
        put_block(sum, good[i], 4, 4, 3, 1, 1, LISTED(1246));
        add("a new number", BLOCK, BLOCK, good[i], BLOCK, done(1), sum);
    }
    put(two, 2, 7);
    put_check(two);
    add("two blocks of one number, and that number", BLOCK, BLOCK, 7, BLOCK, deal, NULL);
    put_block(sum, 8, 4, 4, 3, 1, 1, LISTED(1246));
    add("two blocks of one number, and another", BLOCK, BLOCK, 8, BLOCK, done(1), sum);
}

/* A block of 2026 and one of 1999: years that are none, behind a bad number and before the pair of an old deal; and new years. */
static void years(void) {
    const size_t good[] = {0, 1, 256, 2025, 2026, TITMEADOW_WORD_MOST}, wide = (size_t)1 << 40;
    const size_t bad[] = {TITMEADOW_WORD_MOST + 1, 32767, 65535, 65536, 65536 + 2026, wide, wide + 2026, SIZE_MAX};
    const titmeadow_answer deal = refused(TITMEADOW_DEAL, 0, 0), year = refused(TITMEADOW_YEAR, 0, 0);
    const struct {
        size_t deal, year;
        int old; /* it is the pair of one of the two */
    } pairs[] = {{7, 2026, 1}, {8, 1999, 1}, {7, 1999, 0}, {8, 2026, 0}, {7, 0, 0}, {8, 0, 0}, {7, 2027, 0}, {7, 2026 - 256, 0}, {9, 2026, 0}, {9, 1999, 0}};
    uint8_t sum[BLOCK];
    lay_fellows();
    put_year(one, 2026);
    put_year(two, 1999);
    for (size_t turn = 0; turn < 2; turn++) {
        for (size_t i = 0; i < COUNT(bad); i++)
            for (size_t room = 0; room <= BLOCK; room += BLOCK) {
                add_in(bad[i], "a year that is none", BLOCK, BLOCK, 9, room, year, NULL);
                add_in(bad[i], "a year that is none, and an old number", BLOCK, BLOCK, 7, room, year, NULL);
                add_in(bad[i], "a year that is none, and deal 0", BLOCK, BLOCK, 0, room, deal, NULL);
                add_in(bad[i], "a year that is none, and deal 32749", BLOCK, BLOCK, TITMEADOW_WORD_MOST + 1, room, deal, NULL);
            }
        for (size_t i = 0; i < COUNT(good); i++) {
            put_block(sum, 9, 4, 4, 3, 1, 1, LISTED(1246));
            put_year(sum, good[i]);
            add_in(good[i], "a new number in a year", BLOCK, BLOCK, 9, BLOCK, done(1), sum);
        }
        for (size_t i = 0; i < COUNT(pairs); i++) {
            put_block(sum, pairs[i].deal, 4, 4, 3, 1, 1, LISTED(1246));
            put_year(sum, pairs[i].year);
            add_in(pairs[i].year, "old numbers and old years", BLOCK, BLOCK, pairs[i].deal, BLOCK, pairs[i].old ? deal : done(1), sum);
            add_in(pairs[i].year, "and no room", BLOCK, BLOCK, pairs[i].deal, BLOCK - 1, pairs[i].old ? deal : refused(TITMEADOW_ROOM, 1, 0), NULL);
        }
        uint8_t block[BLOCK];
        memcpy(block, one, BLOCK);
        lay(one, two);
        lay(two, block);
    }
    lay(two, one);
    add_in(2026, "a block and itself under its number and year", BLOCK, BLOCK, 7, BLOCK, deal, NULL);
}

static void rooms(void) {
    const size_t few[] = {0, 1, BLOCK / 2, BLOCK - 1};
    lay_fellows();
    for (size_t i = 0; i < COUNT(few); i++)
        add("no room", BLOCK, BLOCK, 9, few[i], refused(TITMEADOW_ROOM, 1, 0), NULL);
}

/* Sixteen words: 2000 i and 32748 make 2000 i - 1 mod 32749, and 0 and 32748 make 32748; 32748 and 32748 make 32747. */
static void sums(void) {
    uint16_t less[TITMEADOW_SECRET_MOST], twice[TITMEADOW_SECRET_MOST];
    uint8_t block[BLOCK], sum[BLOCK];
    for (size_t i = 0; i < TITMEADOW_SECRET_MOST; i++) {
        less[i] = i == 0 ? TITMEADOW_WORD_MOST : (uint16_t)(2000 * i - 1);
        twice[i] = TITMEADOW_WORD_MOST - 1;
    }
    put_block(block, 1, 8, 8, 70, 16, 70, sixteen);
    lay(one, block);
    put_block(block, TITMEADOW_WORD_MOST, 8, 8, 70, 16, 70, largest);
    lay(two, block);
    put_block(sum, 2, 8, 8, 70, 16, 70, less);
    add("sums around 32749", BLOCK, BLOCK, 2, BLOCK, done(1), sum);
    lay(one, block);
    put_block(sum, 2, 8, 8, 70, 16, 70, twice);
    add("the largest sums", BLOCK, BLOCK, 2, BLOCK, done(1), sum);
    put_block(block, 3, 8, 8, 70, 16, 70, LISTED(1, 1, 1, 1, 1, 1, 1, 1, 1, 1, 1, 1, 1, 1, 1, 1));
    lay(one, block);
    put_block(sum, 2, 8, 8, 70, 16, 70, (const uint16_t[TITMEADOW_SECRET_MOST]){0});
    add("sums of 32749", BLOCK, BLOCK, 2, BLOCK, done(1), sum);
}

void adding(void) {
    worked();
    lengths();
    slots();
    layouts();
    unlike();
    numbers();
    years();
    rooms();
    sums();
}
