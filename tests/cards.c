/* Planning and dealing: every refusal of theirs, results, and the limits from both sides. */
#include "calls.h"

/* By the policy of P1, 1 and 3 lack piece 1, 1 and 4 piece 2, 2 and 4 piece 3: holder 1 has piece 3, holder 2 pieces 1 and 2, holder 4
 * piece 1. */
struct policy {
    size_t people;
    const uint16_t *required;
    size_t required_count;
    const uint16_t *forbidden;
    size_t forbidden_count;
};
static const struct policy p1 = {4, LIST(3, 6, 12), LIST(9)}, p3 = {3, LIST(3), NONE}, both = {2, LIST(3), NONE};
static uint16_t pairs[TITMEADOW_SETS_MOST + 1], ones[TITMEADOW_SETS_MOST + 1]; /* {1, 2}, and {1}, over and over */
static uint16_t fives[56], fours[TITMEADOW_PIECES_MOST];                       /* the sets of five, and of four, of eight people */
static const struct policy any_five = {TITMEADOW_PEOPLE_MOST, fives, COUNT(fives), NONE};

static const struct {
    const char *what;
    struct policy policy;
    titmeadow_answer answer;
} bad_policies[] = {
    {"no people", {0, LIST(3), LIST(9)}, {TITMEADOW_PEOPLE, 0, 0}},
    {"nine people, and a long list", {TITMEADOW_PEOPLE_MOST + 1, pairs, COUNT(pairs), NONE}, {TITMEADOW_PEOPLE, 0, 0}},
    {"the greatest number of people", {SIZE_MAX, LIST(3), NONE}, {TITMEADOW_PEOPLE, 0, 0}},
    {"257 required, strangers all, and 257 forbidden", {1, pairs, COUNT(pairs), ones, COUNT(ones)}, {TITMEADOW_LONGLIST, 1, 0}},
    {"257 forbidden", {2, LIST(3), ones, COUNT(ones)}, {TITMEADOW_LONGLIST, 2, 0}},
    {"person 5 of 4, required, and forbidden", {4, LIST(3, 6, 17, 16), LIST(16)}, {TITMEADOW_STRANGER, 1, 3}},
    {"person 9, forbidden, and nobody required", {8, NONE, LIST(255, 256)}, {TITMEADOW_STRANGER, 2, 2}},
    {"person 16", {8, LIST(32768), NONE}, {TITMEADOW_STRANGER, 1, 1}},
    {"nobody required", {4, NONE, NONE}, {TITMEADOW_NOBODY, 0, 0}},
    {"nobody required, and one set forbidden", {4, NONE, LIST(9)}, {TITMEADOW_NOBODY, 0, 0}},
    {"the empty set required, and {1} clashes", {4, LIST(1, 0, 0), LIST(1)}, {TITMEADOW_OPEN, 2, 0}},
    {"P2: one person, required alone", {1, LIST(1), NONE}, {TITMEADOW_LONE, 1, 0}},
    {"{3} and {1} required, and {1, 2} clashes", {4, LIST(3, 4, 1), LIST(3)}, {TITMEADOW_LONE, 2, 0}},
    /* {1, 2} lies in no forbidden set; {2, 3} lies in the third, {2, 3, 4}, and the fourth */
    {"a clash", {4, LIST(3, 6, 12), LIST(9, 1, 14, 6)}, {TITMEADOW_CLASH, 2, 3}},
};

static const struct {
    const char *what;
    struct policy policy;
    const uint16_t *groups;
    size_t count;
} good_policies[] = {
    {"P1", {4, LIST(3, 6, 12), LIST(9)}, LIST(5, 9, 10)},
    {"two people, both required", {2, LIST(3), NONE}, LIST(1, 2)},
    {"P3", {3, LIST(3), NONE}, LIST(5, 6)},
    {"256 sets in each list", {2, pairs, TITMEADOW_SETS_MOST, ones, TITMEADOW_SETS_MOST}, LIST(1, 2)},
    {"any five of eight", {TITMEADOW_PEOPLE_MOST, fives, COUNT(fives), NONE}, fours, COUNT(fours)},
};

static titmeadow_answer plan(struct policy p, uint16_t *groups) {
    return titmeadow_plan(p.people, p.required, p.required_count, p.forbidden, p.forbidden_count, groups);
}

/* Deals into `room` bytes, or NULL where there are none. */
static titmeadow_answer deal_in(size_t year, const struct policy *p, size_t number, size_t holder, const uint16_t *secret, size_t words,
                                const uint16_t *random, size_t random_count, size_t room) {
    uint8_t *card = (uint8_t *)lend();
    return titmeadow_deal(p->people, p->required, p->required_count, p->forbidden, p->forbidden_count, number, year, holder, secret, words,
                          random, random_count, room == 0 ? NULL : card, room);
}

/* The same in year 0. */
static titmeadow_answer deal(const struct policy *p, size_t number, size_t holder, const uint16_t *secret, size_t words,
                             const uint16_t *random, size_t random_count, size_t room) {
    return deal_in(0, p, number, holder, secret, words, random, random_count, room);
}

/* Planning; dealing, by either scheme, and judging ask the policy first, here with nothing else that is right, neither the year nor the list. */
static void planning(void) {
    for (size_t i = 0; i < COUNT(bad_policies); i++) {
        const struct policy p = bad_policies[i].policy;
        is(PLAN, bad_policies[i].what, plan(p, lend()), bad_policies[i].answer, NONE);
        is(DEAL, bad_policies[i].what, deal_in(SIZE_MAX, &p, 0, 0, NONE, NONE, BLOCK), bad_policies[i].answer, NONE);
        is(DEAL_BY_SETS, bad_policies[i].what,
           titmeadow_deal_by_sets(p.people, p.required, p.required_count, p.forbidden, p.forbidden_count, 0, SIZE_MAX, 0, NONE, NONE,
                                  (uint8_t *)lend(), BLOCK),
           bad_policies[i].answer, NONE);
        lend();
        is(JUDGE, bad_policies[i].what,
           titmeadow_judge(p.people, p.required, p.required_count, p.forbidden, p.forbidden_count, p.people + 1, 0, 1, NONE),
           bad_policies[i].answer, NONE);
    }
    for (size_t i = 0; i < COUNT(good_policies); i++)
        is(PLAN, good_policies[i].what, plan(good_policies[i].policy, lend()), done(good_policies[i].count), good_policies[i].groups,
           2 * good_policies[i].count);
}

/* Where more than half of the people open, whoever they are, the pieces are as many as so many people can have, and their groups are those of half of
 * them, rounded down; one person would open alone. Nobody has more than fit on the largest card. */
static void halves(void) {
    const size_t most[TITMEADOW_PEOPLE_MOST] = {1, 2, 3, 6, 10, 20, 35, TITMEADOW_PIECES_MOST};
    uint16_t required[TITMEADOW_PIECES_MOST], half[TITMEADOW_PIECES_MOST];
    for (size_t people = 1; people <= TITMEADOW_PEOPLE_MOST; people++) {
        struct policy p = {people, required, 0, NONE};
        size_t groups = 0;
        for (unsigned set = 0; set < 1u << people; set++) {
            size_t members = 0;
            for (unsigned person = 0; person < people; person++)
                members += set >> person & 1;
            if (members == people / 2)
                half[groups++] = (uint16_t)set;
            if (members == people / 2 + 1)
                required[p.required_count++] = (uint16_t)set;
        }
        if (groups != most[people - 1])
            fault(PLAN, "more than half of the people", "another number of groups");
        if (people == 1)
            is(PLAN, "more than half of one person", plan(p, lend()), refused(TITMEADOW_LONE, 1, 0), NONE);
        else
            is(PLAN, "more than half of the people", plan(p, lend()), done(groups), half, 2 * groups);
        for (unsigned person = 0; person < people; person++) {
            size_t pieces = 0;
            for (size_t j = 0; j < groups; j++)
                pieces += (half[j] >> person & 1) == 0;
            if (pieces > TITMEADOW_CARD_MOST)
                fault(PLAN, "more than half of the people", "somebody has more pieces than fit on a card");
        }
    }
}

static uint16_t seventeen[TITMEADOW_SECRET_MOST + 1];
static const uint16_t zeros[TITMEADOW_RANDOM_MOST];

static const struct {
    const char *what;
    size_t deal, holder;
    const uint16_t *secret;
    size_t words;
    const uint16_t *random;
    size_t random_count;
    size_t room;
    titmeadow_answer answer;
} bad_deals[] = {
    {"deal 0, and holder 0", 0, 0, LIST(1234), LIST(5, 7), BLOCK, {TITMEADOW_DEAL, 0, 0}},
    {"deal 32749", TITMEADOW_WORD_MOST + 1, 4, LIST(1234), LIST(5, 7), BLOCK, {TITMEADOW_DEAL, 0, 0}},
    {"holder 0, and no secret", 7, 0, NONE, LIST(5, 7), BLOCK, {TITMEADOW_HOLDER, 0, 0}},
    {"holder 5 of 4", 7, 5, LIST(1234), LIST(5, 7), BLOCK, {TITMEADOW_HOLDER, 0, 0}},
    {"no secret, and no randomness", 7, 4, NONE, NONE, BLOCK, {TITMEADOW_SECRET, 0, 0}},
    {"seventeen words, one too large", 7, 4, seventeen, COUNT(seventeen), LIST(5, 7), BLOCK, {TITMEADOW_SECRET, 0, 0}},
    {"secret 32748, 32749, 32767, and too little randomness", 7, 4, LIST(32748, 32749, 32767), LIST(5, 7), BLOCK, {TITMEADOW_SECRET, 2, 0}},
    {"no randomness", 7, 4, LIST(1234), NONE, BLOCK, {TITMEADOW_RANDOM, 0, 0}},
    {"a random word too few", 7, 4, LIST(1234), LIST(5), BLOCK, {TITMEADOW_RANDOM, 0, 0}},
    {"a random word too many, and one too large", 7, 4, LIST(1234), LIST(5, 32749, 7), BLOCK, {TITMEADOW_RANDOM, 0, 0}},
    {"random 32748, 32749, and no room", 7, 4, LIST(1234), LIST(32748, 32749), 0, {TITMEADOW_RANDOM, 2, 0}},
    {"a byte too little for two blocks", 7, 2, LIST(1234), LIST(5, 7), 2 * BLOCK - 1, {TITMEADOW_ROOM, 2, 0}},
    {"no room", 7, 4, LIST(1234), LIST(5, 7), 0, {TITMEADOW_ROOM, 1, 0}},
};

/* P11 in other years: word 24 of 2026 adds 24 * 2026 to the check of 12025, and 60649 less 32749 is 27900. Every bad deal but for the two of a bad
 * number is YEAR in a year that is none. */
static void years(void) {
    const size_t good[] = {0, 1, 255, 256, 2026, TITMEADOW_WORD_MOST}, wide = (size_t)1 << 40;
    const size_t bad[] = {TITMEADOW_WORD_MOST + 1, 32767, 65535, 65536, 65536 + 2026, wide, wide + 2026, SIZE_MAX};
    uint8_t block[BLOCK];
    for (size_t i = 0; i < COUNT(good); i++) {
        memcpy(block, three[0], BLOCK);
        put_year(block, good[i]);
        if (good[i] == 2026 && (block[46] != 2026 / 256 || block[47] != 2026 % 256 || block[510] != 27900 / 256 || block[511] != 27900 % 256))
            fault(DEAL, "P11 in 2026", "another check");
        is(DEAL, "P11 in a year", deal_in(good[i], &p1, 7, 4, LIST(1234), LIST(5, 7), BLOCK), done(1), block, BLOCK);
    }
    for (size_t i = 0; i < COUNT(bad); i++) {
        is(DEAL, "a year that is none", deal_in(bad[i], &p1, 7, 4, LIST(1234), LIST(5, 7), BLOCK), refused(TITMEADOW_YEAR, 0, 0), NONE);
        for (size_t j = 0; j < COUNT(bad_deals); j++)
            is(DEAL, "a year that is none, and more",
               deal_in(bad[i], &p1, bad_deals[j].deal, bad_deals[j].holder, bad_deals[j].secret, bad_deals[j].words, bad_deals[j].random,
                       bad_deals[j].random_count, bad_deals[j].room),
               refused(bad_deals[j].answer.number == TITMEADOW_DEAL ? TITMEADOW_DEAL : TITMEADOW_YEAR, 0, 0), NONE);
    }
}

static void dealing(void) {
    static uint8_t card[TITMEADOW_CARD_MOST][BLOCK];
    for (size_t i = 0; i < COUNT(bad_deals); i++)
        is(DEAL, bad_deals[i].what,
           deal(&p1, bad_deals[i].deal, bad_deals[i].holder, bad_deals[i].secret, bad_deals[i].words, bad_deals[i].random,
                bad_deals[i].random_count, bad_deals[i].room),
           bad_deals[i].answer, NONE);

    is(DEAL, "P11", deal(&p1, 7, 4, LIST(1234), LIST(5, 7), BLOCK), done(1), three[0], BLOCK);
    put_block(card[0], 7, 2, 4, 3, 1, 1, LISTED(1246));
    memcpy(card[1], three[1], BLOCK);
    is(DEAL, "two blocks, and a byte to spare", deal(&p1, 7, 2, LIST(1234), LIST(5, 7), 2 * BLOCK + 1), done(2), card, 2 * BLOCK);
    is(DEAL, "a holder of no piece", deal(&p3, 7, 3, LIST(1234), LIST(5), 0), done(0), NONE);
    /* of two people 1 lacks piece 1 and has piece 2, which is 1234 + 2 * 5 */
    put_block(card[0], 7, 1, 2, 2, 1, 2, LISTED(1244));
    is(DEAL, "one of two people", deal(&both, 7, 1, LIST(1234), LIST(5), BLOCK), done(1), card, BLOCK);

    /* 32748 is -1 mod p: with coefficients of 32748, piece 2 of that word is -1 - 2, so 32746. Holder 1 lacks piece 1 and has piece 2. */
    uint16_t values[TITMEADOW_SECRET_MOST];
    for (size_t i = 0; i < COUNT(values); i++)
        values[i] = 32746;
    put_block(card[0], TITMEADOW_WORD_MOST, 1, 2, 2, TITMEADOW_SECRET_MOST, 2, values);
    put_year(card[0], TITMEADOW_WORD_MOST);
    is(DEAL, "all as large as can be", deal_in(TITMEADOW_WORD_MOST, &both, TITMEADOW_WORD_MOST, 1, largest, COUNT(largest), largest, COUNT(largest), BLOCK),
       done(1), card, BLOCK);

    /* With coefficients of 0 each piece is the secret. Holder 8 has the pieces whose group is without 8. */
    size_t blocks = 0;
    for (size_t j = 1; j <= COUNT(fours); j++)
        if (fours[j - 1] < 128)
            put_block(card[blocks++], 9, 8, 8, TITMEADOW_PIECES_MOST, TITMEADOW_SECRET_MOST, j, sixteen);
    is(DEAL, "the largest card", deal(&any_five, 9, 8, sixteen, COUNT(sixteen), zeros, COUNT(zeros), sizeof card),
       done(TITMEADOW_CARD_MOST), card, sizeof card);
    is(DEAL, "a byte too little for the largest card", deal(&any_five, 9, 8, sixteen, COUNT(sixteen), zeros, COUNT(zeros), sizeof card - 1),
       refused(TITMEADOW_ROOM, TITMEADOW_CARD_MOST, 0), NONE);
}

void cards(void) {
    size_t five = 0, four = 0;
    for (unsigned set = 0; set < 256; set++) {
        unsigned members = 0;
        for (unsigned person = 0; person < 8; person++)
            members += set >> person & 1;
        if (members == 5)
            fives[five++] = (uint16_t)set;
        if (members == 4)
            fours[four++] = (uint16_t)set;
    }
    for (size_t i = 0; i <= TITMEADOW_SETS_MOST; i++) {
        pairs[i] = 3;
        ones[i] = 1;
    }
    seventeen[3] = TITMEADOW_WORD_MOST + 1;
    planning();
    halves();
    dealing();
    years();
}
