/* Judging holding lists: every verdict, each way in which a list is not in order, and the limits from both sides; what planning refuses is in
 * tests/cards.c. Nothing is lent to be written, and the field stays as it is. */
#include "calls.h"

struct list {
    size_t people, pieces, needed;
    const uint8_t *marks;
    size_t marks_count;
};
#define MARKS(...) (const uint8_t[]){__VA_ARGS__}, COUNT(((const uint8_t[]){__VA_ARGS__}))

static const titmeadow_answer suits = {0, 0, 0}, rows = {TITMEADOW_ROWS, 0, 0};
static const uint16_t pairs[] = {3, 5, 6}, p1[] = {3, 6, 12};

static void judged(const char *what, size_t people, const uint16_t *required, size_t count, struct list list, titmeadow_answer want) {
    lend();
    is(JUDGE, what,
       titmeadow_judge(people, required, count, NONE, list.people, list.pieces, list.needed, list.marks, list.marks_count), want, NONE);
}

static const struct {
    const char *what;
    size_t people;
    const uint16_t *required;
    size_t count;
    struct list list;
    titmeadow_answer answer;
} cases[] = {
    {"one piece each, two needed", 3, pairs, 3, {3, 3, 2, MARKS(1, 0, 0, 0, 1, 0, 0, 0, 1)}, {0, 0, 0}},
    {"one piece each, three needed", 3, pairs, 3, {3, 3, 3, MARKS(1, 0, 0, 0, 1, 0, 0, 0, 1)}, {0, 3, TITMEADOW_TOO_FEW}},
    {"one piece each, one needed", 3, pairs, 3, {3, 3, 1, MARKS(1, 0, 0, 0, 1, 0, 0, 0, 1)}, {0, 1, TITMEADOW_ENOUGH}},
    {"1 and 2 have one piece", 3, pairs, 3, {3, 2, 2, MARKS(1, 0, 1, 0, 0, 1)}, {0, 3, TITMEADOW_TOO_FEW}},
    {"a piece that nobody has", 3, pairs, 3, {3, 4, 2, MARKS(1, 0, 0, 0, 0, 1, 0, 0, 0, 0, 1, 0)}, {0, 0, 0}},
    {"3 has nothing", 3, pairs, 3, {3, 2, 2, MARKS(1, 0, 0, 1, 0, 0)}, {0, 5, TITMEADOW_TOO_FEW}},
    {"all have one piece", 2, pairs, 1, {2, 1, 1, MARKS(1, 1)}, {0, 1, TITMEADOW_ENOUGH}},
    {"nobody has a piece", 2, pairs, 1, {2, 1, 1, MARKS(0, 0)}, {0, 3, TITMEADOW_TOO_FEW}},
    {"3 has all pieces, and is in no set", 3, pairs, 1, {3, 2, 2, MARKS(1, 0, 0, 1, 1, 1)}, {0, 4, TITMEADOW_ENOUGH}},
    /* the groups of P1's pieces are {1, 3}, {1, 4} and {2, 4} */
    {"P1's own", 4, p1, 3, {4, 3, 3, MARKS(0, 0, 1, 1, 1, 0, 0, 1, 1, 1, 0, 0)}, {0, 0, 0}},
    {"holder 4 without piece 1", 4, p1, 3, {4, 3, 3, MARKS(0, 0, 1, 1, 1, 0, 0, 1, 1, 0, 0, 0)}, {0, 12, TITMEADOW_TOO_FEW}},
    {"holder 1 with piece 1", 4, p1, 3, {4, 3, 3, MARKS(1, 0, 1, 1, 1, 0, 0, 1, 1, 1, 0, 0)}, {0, 5, TITMEADOW_ENOUGH}},
    {"two of P1's three needed", 4, p1, 3, {4, 3, 2, MARKS(0, 0, 1, 1, 1, 0, 0, 1, 1, 1, 0, 0)}, {0, 2, TITMEADOW_ENOUGH}},
};

/* Of P1's own list one number is another, or one mark; the marks are there for more people and pieces than there are. */
static void not_in_order(void) {
    static uint8_t marks[TITMEADOW_PEOPLE_MOST * (TITMEADOW_PIECES_MOST + 1)];
    const uint8_t own[] = {0, 0, 1, 1, 1, 0, 0, 1, 1, 1, 0, 0};
    memcpy(marks, own, sizeof own);
    const size_t high = (size_t)1 << 32, top = (size_t)1 << 60;
    const size_t people[] = {0, 3, 5, 256 + 4, high + 4, SIZE_MAX}, needed[] = {0, 4, 71, 256 + 3, high + 3, SIZE_MAX};
    const size_t pieces[] = {0, 2, 4, 70, 71, 256 + 3, high + 3, top, 4 * top, 4 * top + 3, SIZE_MAX}, counts[] = {0, 1, 11, 13, 280};
    for (size_t i = 0; i < COUNT(people); i++) {
        judged("other people", 4, p1, 3, (struct list){people[i], 3, 3, marks, 12}, rows);
        judged("other people, and rows for five", 4, p1, 3, (struct list){people[i], 3, 3, marks, 15}, rows);
    }
    for (size_t i = 0; i < COUNT(needed); i++)
        judged("none needed, or more than there are", 4, p1, 3, (struct list){4, 3, needed[i], marks, 12}, rows);
    for (size_t i = 0; i < COUNT(pieces); i++)
        judged("another number of pieces", 4, p1, 3, (struct list){4, pieces[i], 1, marks, 12}, rows);
    judged("71 pieces, and a mark for each", 4, p1, 3, (struct list){4, TITMEADOW_PIECES_MOST + 1, 1, marks, 4 * (TITMEADOW_PIECES_MOST + 1)}, rows);
    /* four times 2^62 is 0 in 64 bits */
    judged("no pieces, and no marks", 4, p1, 3, (struct list){4, 0, 0, NONE}, rows);
    judged("2^62 pieces, and no marks", 4, p1, 3, (struct list){4, 4 * top, 1, NONE}, rows);
    for (size_t i = 0; i < COUNT(counts); i++)
        judged("another number of marks", 4, p1, 3, (struct list){4, 3, 3, counts[i] == 0 ? NULL : marks, counts[i]}, rows);
    for (size_t i = 0; i < sizeof own; i++)
        for (unsigned mark = 2; mark < 256; mark++) {
            marks[i] = (uint8_t)mark;
            judged("a mark above 1", 4, p1, 3, (struct list){4, 3, 3, marks, 12}, rows);
            marks[i] = own[i];
        }
    judged("all as it was", 4, p1, 3, (struct list){4, 3, 3, marks, 12}, suits);
}

/* Any five of eight, by our own 70 pieces and by one piece each. */
static void eight_people(void) {
    static uint8_t own[TITMEADOW_PEOPLE_MOST][TITMEADOW_PIECES_MOST], each[TITMEADOW_PEOPLE_MOST][TITMEADOW_PEOPLE_MOST];
    uint16_t fives[56], groups[TITMEADOW_PIECES_MOST];
    size_t count = 0;
    for (unsigned set = 0; set < 256; set++) {
        unsigned members = 0;
        for (unsigned person = 0; person < 8; person++)
            members += set >> person & 1;
        if (members == 5)
            fives[count++] = (uint16_t)set;
    }
    lend();
    is(PLAN, "any five of eight", titmeadow_plan(8, fives, count, NONE, groups), done(TITMEADOW_PIECES_MOST), NONE);
    for (size_t i = 0; i < 8; i++) {
        for (size_t j = 0; j < TITMEADOW_PIECES_MOST; j++)
            own[i][j] = (groups[j] >> i & 1) == 0;
        each[i][i] = 1;
    }
    const struct list ours = {8, TITMEADOW_PIECES_MOST, TITMEADOW_PIECES_MOST, own[0], sizeof own}, theirs = {8, 8, 5, each[0], sizeof each};
    struct list other = ours;
    judged("our own", 8, fives, count, ours, suits);
    other.needed = TITMEADOW_PIECES_MOST + 1;
    judged("71 of 70 needed", 8, fives, count, other, rows);
    other.needed = TITMEADOW_PIECES_MOST - 1;
    judged("69 needed", 8, fives, count, other, (titmeadow_answer){0, 15, TITMEADOW_ENOUGH});
    own[7][0] = 0; /* piece 1, which 1, 2, 3 and 4 lack */
    judged("without holder 8's piece 1", 8, fives, count, ours, (titmeadow_answer){0, 15 + 128, TITMEADOW_TOO_FEW});
    own[7][0] = 1;
    own[7][69] = 1; /* piece 70, which 5, 6, 7 and 8 lack */
    judged("with piece 70 for holder 8", 8, fives, count, ours, (titmeadow_answer){0, 16 + 32 + 64 + 128, TITMEADOW_ENOUGH});
    judged("a piece each", 8, fives, count, theirs, suits);
    other = theirs;
    other.needed = 8;
    judged("a piece each, and all needed", 8, fives, count, other, (titmeadow_answer){0, 31, TITMEADOW_TOO_FEW});
    other.needed = 4;
    judged("a piece each, and four needed", 8, fives, count, other, (titmeadow_answer){0, 15, TITMEADOW_ENOUGH});
    judged("a piece each, and person 1 alone required", 8, LIST(1), theirs, refused(TITMEADOW_LONE, 1, 0));
}

void holdings(void) {
    for (size_t i = 0; i < COUNT(cases); i++)
        judged(cases[i].what, cases[i].people, cases[i].required, cases[i].count, cases[i].list, cases[i].answer);
    not_in_order();
    eight_people();
}
