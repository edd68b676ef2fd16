/* What the cases in tests/ share: the calls, the field that buffers are lent from, blocks by the table of SCOPE 4, and the values that
 * both kinds of cases are made of. */
#ifndef CALLS_H
#define CALLS_H

#include <string.h>
#include "titmeadow.h"

#define COUNT(array) (sizeof(array) / sizeof *(array))
#define NONE NULL, 0 /* a list of nothing */
#define LISTED(...) (const uint16_t[]){__VA_ARGS__}
#define LIST(...) LISTED(__VA_ARGS__), COUNT((LISTED(__VA_ARGS__)))
enum { BLOCK = TITMEADOW_BLOCK_BYTES };

/* the exported calls; tests/calls.c has the refusals that each can give */
enum call {
    PLAN, JUDGE, DEAL, DEAL_BY_SETS, JOIN, JOIN_BY_DIFFERENCES, JOIN_BY_WEIGHTS, OPEN, SALVAGE, PACK, UNPACK, DEAL_KEY, JOIN_KEY, ADD, DESK_OPEN,
    DESK_HAND_IN, DESK_ASK, DESK_CLOSE,
    CALLS
};

/* The cases: planning and dealing; judging; dealing by sets, and piles of such cards; joining and opening; salvaging; keys; adding; cards that are renewed; a desk. */
void cards(void);
void holdings(void);
void sets(void);
void piles(void);
void salvage(void);
void keys(void);
void adding(void);
void renewal(void);
void desk(void);

/* The joiners: every case of joining is run over each. */
enum { JOINERS = 3 };
extern const struct joiner {
    enum call call;
    titmeadow_answer (*join)(const uint8_t *pile, size_t length, uint16_t *secret, size_t room);
} joiners[JOINERS];

/* Paints the field anew, and lends from its middle. */
uint16_t *lend(void);

/* The answer is as wanted, and of the field the `size` bytes of `written` alone were written, at the front of what was lent. */
void is(enum call call, const char *what, titmeadow_answer got, titmeadow_answer want, const void *written, size_t size);
titmeadow_answer done(size_t value);
titmeadow_answer refused(size_t number, size_t a, size_t b);

/* Says what is wrong with a case, which fails the test. */
void fault(enum call call, const char *what, const char *how);

/* Blocks: a word is put; the check is made anew; a whole block, its words 2 to 7 in their order and its values, of year 0; and of another. */
void put(uint8_t *block, size_t i, size_t value);
void put_check(uint8_t *block);
void put_block(uint8_t *block, size_t deal, size_t holder, size_t n, size_t k, size_t w, size_t piece, const uint16_t *values);
void put_year(uint8_t *block, size_t year);

/* The blocks of pieces 1, 2, 3 of P11's deal (policy P1, number 7, the word 1234, coefficients 5 and 7), of holders 4, 2, 1; two secrets
 * of 16 words: unlike ones, and all 32748. */
extern uint8_t three[3][BLOCK];
extern uint16_t sixteen[TITMEADOW_SECRET_MOST], largest[TITMEADOW_SECRET_MOST];

#endif
