/* Salvaging: every refusal of it, results, and the limits from both sides; the whole pile and the whole list each time. */
#include "calls.h"

/* A pile, and what it has to be after the call. */
static uint8_t pile[TITMEADOW_PILE_MOST + 2][BLOCK], due[TITMEADOW_PILE_MOST + 2][BLOCK];

/* Block a, from 1, of both. */
static void lay(size_t a, const uint8_t *block) {
    memcpy(pile[a - 1], block, BLOCK);
    memcpy(due[a - 1], block, BLOCK);
}

/* Pieces 1, 2, 3 of P11's deal in both, and behind them 0xff. */
static void lay_three(void) {
    memset(pile, 0xff, sizeof pile);
    memset(due, 0xff, sizeof due);
    for (size_t a = 1; a <= COUNT(three); a++)
        lay(a, three[a - 1]);
}

/* Word i of block a is lost and has to come back; or it is changed, and has to stay so. */
static void lose(size_t a, size_t i, size_t slot) { put(pile[a - 1], i, slot); }

static void change(size_t a, size_t i, size_t value) {
    put(pile[a - 1], i, value);
    put(due[a - 1], i, value);
}

/* The first `length` bytes of the pile, NULL where there are none, salvaged with a list of so many numbers, NULL alike. */
static void salvaged(const char *what, size_t length, size_t numbers, titmeadow_answer want, const uint16_t *places) {
    uint16_t *list = lend();
    titmeadow_answer got = titmeadow_salvage(length == 0 ? NULL : pile[0], length, numbers == 0 ? NULL : list, numbers);
    is(SALVAGE, what, got, want, places, want.number == 0 ? 4 * want.a : 0);
    if (memcmp(pile, due, sizeof pile) != 0)
        fault(SALVAGE, what, "the pile is not as it should be");
}

static const size_t slots[] = {TITMEADOW_WORD_MOST + 1, 32767, 32768, 65535};
enum { ALL = COUNT(three) * BLOCK, NUMBERS = 2 * COUNT(three) };

/* Each word of the second block comes back, whatever stood in its slot; before, the pile was UNREAD, and then it joins. */
static void each_word(void) {
    for (size_t i = 1; i <= TITMEADOW_BLOCK_WORDS; i++)
        for (size_t s = 0; s < COUNT(slots); s++) {
            lay_three();
            lose(2, i, slots[s]);
            uint16_t *out = lend();
            is(JOIN, "a word is lost", titmeadow_join(pile[0], ALL, out, 1), refused(TITMEADOW_UNREAD, 2, i), NONE);
            salvaged("a word is lost", ALL, NUMBERS, done(1), (const uint16_t[]){2, (uint16_t)i});
            salvaged("once more", ALL, NUMBERS, done(0), NULL);
            out = lend();
            is(JOIN, "salvaged", titmeadow_join(pile[0], ALL, out, 1), done(1), LISTED(1234), 2);
        }
}

/* What is left alone: no word is lost, or two of a block are, or the block would break the layout with the word that its check gives. */
static const struct {
    const char *what;
    size_t changed, value, i, slot;
} kept[] = {
    {"32748 is read", 8, TITMEADOW_WORD_MOST, 9, TITMEADOW_WORD_MOST},
    {"words 1 and 2 are lost", 1, 32767, 2, 32767},
    {"a value and the check are lost", 8, 32767, 256, 65535},
    {"words 255 and 256 are lost", 255, 32767, 256, TITMEADOW_WORD_MOST + 1},
    /* 8 too much in the sum: the mark would have to be 1979, holder 2 - 8/3, a word behind the value -8/9 and so on */
    {"another value, and the mark is lost", 8, 1273, 1, 32767},
    {"another value, and the holder is lost", 8, 1273, 3, 32767},
    {"another value, and the piece is lost", 8, 1273, 7, 32767},
    {"another value, and a word behind it is lost", 8, 1273, 9, 32767},
    {"another value, and word 25 is lost", 8, 1273, 25, 32767},
    {"another value, and word 255 is lost", 8, 1273, 255, 32767},
    /* whatever the value comes to, it is no block of ours */
    {"mark 1988 without a set, and the value is lost", 1, TITMEADOW_SETS_MARK, 8, 32767},
    {"deal 0, and the check is lost", 2, 0, 256, 32767},
    {"a word behind the value, and the value is lost", 9, 1, 8, 32767},
};

static void what_stays(void) {
    lay_three();
    salvaged("no word is lost", ALL, NUMBERS, done(0), NULL);
    for (size_t i = 0; i < COUNT(kept); i++) {
        lay_three();
        change(2, kept[i].changed, kept[i].value);
        change(2, kept[i].i, kept[i].slot);
        salvaged(kept[i].what, ALL, NUMBERS, done(0), NULL);
        lose(3, 8, 32767);
        salvaged("and the value of the next block", ALL, NUMBERS, done(1), LISTED(3, 8));
    }
}

/* Holder 3 for 4 in the first block, so 3 less in the sum of 12025, and the value is lost: 8 times 5340 makes up for it, and the block is a
 * true one, though not the one that was dealt. Another value in the second, and its check is lost: 12234 and 8 more. Another value in the third, and
 * its year is lost: 24 times 10916 is 8 less than a multiple of 32749, and any year is one. */
static void two_faults(void) {
    uint8_t block[BLOCK];
    lay_three();
    put_block(block, 7, 3, 4, 3, 1, 1, LISTED(5340));
    lay(1, block);
    lose(1, 8, 32767);
    change(2, 8, 1273);
    lose(2, 256, 32767);
    put(due[1], 256, 12242);
    change(3, 8, 1313);
    lose(3, 24, 32767);
    put(due[2], 24, 10916);
    salvaged("a fault beside the word that is lost", ALL, NUMBERS, done(3), LISTED(1, 8, 2, 256, 3, 24));
}

static void many(void) {
    static uint16_t places[2 * TITMEADOW_PILE_MOST];
    const size_t blocks = TITMEADOW_PILE_MOST, numbers = 2 * TITMEADOW_PILE_MOST;
    lay_three();
    for (size_t a = 1; a <= blocks + 1; a++)
        lay(a, three[a % 3]);
    for (size_t a = 1; a <= blocks; a++) {
        places[2 * a - 2] = (uint16_t)a;
        places[2 * a - 1] = (uint16_t)(1 + a % TITMEADOW_BLOCK_WORDS);
        lose(a, places[2 * a - 1], 32767);
    }
    salvaged("560 blocks, each with a word lost", blocks * BLOCK, numbers, done(blocks), places);
}

/* Refused: the pile is as it was, lost words and all. */
static void refusals(void) {
    const titmeadow_answer torn = refused(TITMEADOW_TORN, 0, 0), too_long = refused(TITMEADOW_LONG, 0, 0);
    const titmeadow_answer room = refused(TITMEADOW_ROOM, COUNT(three), 0);
    lay_three();
    change(1, 8, 32767);
    salvaged("a byte", 1, NUMBERS, torn, NULL);
    salvaged("a byte too few", BLOCK - 1, NUMBERS, torn, NULL);
    salvaged("a byte too many", BLOCK + 1, NUMBERS, torn, NULL);
    salvaged("a byte too many, and no list", ALL + 1, 0, torn, NULL);
    salvaged("no list", ALL, 0, room, NULL);
    for (size_t numbers = 1; numbers < NUMBERS; numbers++)
        salvaged("a list that is too short", ALL, numbers, room, NULL);
    salvaged("no blocks, and no list", 0, 0, done(0), NULL);
    salvaged("no blocks", 0, NUMBERS, done(0), NULL);

    for (size_t a = 1; a <= COUNT(pile); a++) {
        lay(a, three[a % 3]);
        change(a, 256, 32767);
    }
    salvaged("561 blocks, and a byte", (TITMEADOW_PILE_MOST + 1) * BLOCK + 1, 0, torn, NULL);
    salvaged("561 blocks, and no list", (TITMEADOW_PILE_MOST + 1) * BLOCK, 0, too_long, NULL);
    salvaged("561 blocks", (TITMEADOW_PILE_MOST + 1) * BLOCK, 2 * (TITMEADOW_PILE_MOST + 1), too_long, NULL);
    salvaged("560 blocks, and a number too few", TITMEADOW_PILE_MOST * BLOCK, 2 * TITMEADOW_PILE_MOST - 1,
             refused(TITMEADOW_ROOM, TITMEADOW_PILE_MOST, 0), NULL);
}

static void rooms(void) {
    const size_t enough[] = {NUMBERS, NUMBERS + 1, 2 * TITMEADOW_PILE_MOST};
    for (size_t i = 0; i < COUNT(enough); i++) {
        lay_three();
        lose(1, 8, 32767);
        lose(3, 256, 32767);
        salvaged("two words are lost, of two blocks", ALL, enough[i], done(2), LISTED(1, 8, 3, 256));
    }
    lay_three();
    lose(1, 2, 32767);
    change(2, 2, 32767);
    salvaged("the first block alone", BLOCK, 2, done(1), LISTED(1, 2));
}

void salvage(void) {
    each_word();
    what_stays();
    two_faults();
    many();
    refusals();
    rooms();
}
