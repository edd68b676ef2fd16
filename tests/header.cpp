// The header in C++: included twice, it declares the calls under the names that they have in C, and its constants size arrays.
#include "titmeadow.h"
#include "titmeadow.h"

int main() {
    uint16_t groups[TITMEADOW_PIECES_MOST], head[TITMEADOW_HEAD_WORDS], secret[TITMEADOW_SECRET_MOST];
    uint16_t words[TITMEADOW_KEY_WORDS], list[2 * TITMEADOW_PILE_MOST];
    uint8_t key[TITMEADOW_KEY_BYTES] = {0};
    static uint8_t card[TITMEADOW_CARD_MOST * TITMEADOW_BLOCK_BYTES];
    const uint16_t required[] = {1 + 2, 2 + 4, 4 + 8}, word[] = {1234}, randomness[] = {5, 7};
    bool good = titmeadow_plan(4, required, 3, nullptr, 0, groups).a == 3;
    good &= titmeadow_judge(4, required, 3, nullptr, 0, 4, 3, 3, nullptr, 0).number == TITMEADOW_ROWS;
    good &= titmeadow_deal(4, required, 3, nullptr, 0, 7, 2026, 4, word, 1, randomness, 2, card, sizeof card).a == 1;
    good &= titmeadow_deal_by_sets(4, required, 3, nullptr, 0, 7, 2026, 4, word, 1, randomness, 2, card, sizeof card).number == TITMEADOW_RANDOM;
    good &= titmeadow_pack(key, sizeof key, words).a == TITMEADOW_KEY_WORDS;
    good &= titmeadow_unpack(words, TITMEADOW_KEY_WORDS, key, sizeof key).a == TITMEADOW_KEY_BYTES;
    good &= titmeadow_deal_key(4, required, 3, nullptr, 0, 7, 2026, 4, key, sizeof key, nullptr, 0, card, sizeof card).number == TITMEADOW_RANDOM;
    good &= titmeadow_join_key(card, TITMEADOW_BLOCK_BYTES, key, sizeof key).number == TITMEADOW_SHORT;
    good &= titmeadow_open(card, TITMEADOW_BLOCK_BYTES, head).a == TITMEADOW_HEAD_WORDS;
    good &= titmeadow_salvage(card, TITMEADOW_BLOCK_BYTES, list, 2 * TITMEADOW_PILE_MOST).a == 0;
    good &= titmeadow_add(card, TITMEADOW_BLOCK_BYTES, card, TITMEADOW_BLOCK_BYTES, 7, 2026, nullptr, 0).number == TITMEADOW_DEAL;
    good &= titmeadow_join(card, TITMEADOW_BLOCK_BYTES, secret, TITMEADOW_SECRET_MOST).number == TITMEADOW_SHORT;
    good &= titmeadow_join_by_differences(card, TITMEADOW_BLOCK_BYTES, secret, TITMEADOW_SECRET_MOST).number == TITMEADOW_SHORT;
    good &= titmeadow_join_by_weights(card, TITMEADOW_BLOCK_BYTES, secret, TITMEADOW_SECRET_MOST).number == TITMEADOW_SHORT;
    titmeadow_desk desk = TITMEADOW_DESK_FRESH;
    good &= titmeadow_desk_open(&desk, 2, 7, 4, 3, 1, 2026).a == 3 && desk.two.pieces == 3 && desk.one.pieces == 0;
    good &= titmeadow_desk_hand_in(&desk, 2, card, TITMEADOW_BLOCK_BYTES).a == 1 && desk.slots[(TITMEADOW_SLOTS - 1) * TITMEADOW_SLOT_NUMBERS] == 1;
    good &= titmeadow_desk_ask(&desk, 2, secret, TITMEADOW_SECRET_MOST).number == TITMEADOW_SHORT;
    good &= titmeadow_desk_close(&desk, 2).a == 3 && titmeadow_desk_close(&desk, 2).number == TITMEADOW_CLOSED;
    return good ? 0 : 1;
}
