/* A deal whose cards are renewed, by dealing and adding, and joined by every group, by every joiner; old and new cards together. */
#include "calls.h"

/* P11's deal renewed: the cards of deal 7 and of a deal 8 of the word 0, coefficients 32748 and 1 (pieces 0, 2, 6), are dealt and added block for block
 * under 7 again, in the year after. The pieces are 1246, 1274, 1318 then, and 3 * 1246 - 3 * 1274 + 1318 = 1234. */
void renewal(void) {
    static uint8_t old[4][2 * BLOCK], new[4][2 * BLOCK];
    const uint16_t required[] = {3, 6, 12}, values[] = {1246, 1274, 1318};
    const size_t held[4][2] = {{3}, {1, 2}, {2, 3}, {1}}, blocks[4] = {1, 2, 2, 1};
    for (size_t holder = 1; holder <= 4; holder++) {
        uint8_t zero[2 * BLOCK], *const was = old[holder - 1], *const is_now = new[holder - 1];
        titmeadow_answer first = titmeadow_deal(4, required, 3, LIST(9), 7, 2026, holder, LIST(1234), LIST(5, 7), was, 2 * BLOCK);
        titmeadow_answer second = titmeadow_deal(4, required, 3, LIST(9), 8, 2026, holder, LIST(0), LIST(32748, 1), zero, 2 * BLOCK);
        if (first.a != blocks[holder - 1] || second.a != blocks[holder - 1])
            fault(DEAL, "a deal that is renewed", "another number of blocks");
        for (size_t i = 0; i < blocks[holder - 1]; i++) {
            const size_t piece = held[holder - 1][i];
            put_block(is_now + BLOCK * i, 7, holder, 4, 3, 1, piece, &values[piece - 1]);
            put_year(is_now + BLOCK * i, 2027);
            uint8_t *sum = (uint8_t *)lend();
            is(ADD, "a block of a card that is renewed", titmeadow_add(was + BLOCK * i, BLOCK, zero + BLOCK * i, BLOCK, 7, 2027, sum, BLOCK), done(1),
               is_now + BLOCK * i, BLOCK);
        }
    }
    static uint8_t pile[6][BLOCK];
    for (unsigned group = 0; group < 16; group++) {
        size_t length = 0, seen = 0, count = 0;
        for (size_t holder = 1; holder <= 4; holder++)
            for (size_t i = 0; (group >> (holder - 1) & 1) && i < blocks[holder - 1]; i++) {
                memcpy(pile[length++], new[holder - 1] + BLOCK * i, BLOCK);
                seen |= (size_t)1 << held[holder - 1][i];
            }
        for (size_t piece = 1; piece <= 3; piece++)
            count += seen >> piece & 1;
        const int opens = (group & 3) == 3 || (group & 6) == 6 || (group & 12) == 12;
        titmeadow_answer want = opens ? done(1) : refused(TITMEADOW_SHORT, count, group == 0 ? 0 : 3);
        for (size_t i = 0; i < JOINERS; i++) {
            uint16_t *out = lend();
            is(joiners[i].call, "new cards of a group", joiners[i].join(group == 0 ? NULL : pile[0], BLOCK * length, out, 1), want, LISTED(1234),
               opens ? 2 : 0);
        }
    }
    /* old and new together: holder 1 has one block, holder 2 has two */
    uint16_t *out = lend();
    memcpy(pile[0], old[0], BLOCK);
    memcpy(pile[1], new[1], 2 * BLOCK);
    is(JOIN, "the old card of 1, the new one of 2", titmeadow_join(pile[0], 3 * BLOCK, out, 1), refused(TITMEADOW_MIXED, 1, 0), NONE);
    out = lend();
    memcpy(pile[0], new[0], BLOCK);
    memcpy(pile[1], old[1], 2 * BLOCK);
    is(JOIN, "the new card of 1, the old one of 2", titmeadow_join(pile[0], 3 * BLOCK, out, 1), refused(TITMEADOW_MIXED, 1, 0), NONE);
    /* old cards still join among themselves */
    out = lend();
    memcpy(pile[0], old[0], BLOCK);
    is(JOIN, "the old cards of 1 and 2", titmeadow_join(pile[0], 3 * BLOCK, out, 1), done(1), LISTED(1234), 2);
}
