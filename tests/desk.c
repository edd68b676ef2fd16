/* The desk: two clients side by side; every refusal of its calls, results, and the limits from both sides; the whole desk each time. */
#include "calls.h"

/* A desk inside a painted field, and what the field has to be. */
static struct {
    uint8_t front[64];
    titmeadow_desk desk;
    uint8_t back[64];
} at, due;

static void begin(void) {
    memset(&at, 0xA7, sizeof at);
    memset(&at.desk, 0, sizeof at.desk);
    due = at;
    memcpy(&due, &at, sizeof due);
}

static titmeadow_opening *words_of(titmeadow_desk *desk, size_t client) { return client == 1 ? &desk->one : &desk->two; }

/* Where the slot of a client's piece begins. */
static uint16_t *slot(titmeadow_desk *desk, size_t client, size_t piece) {
    return desk->slots + TITMEADOW_SLOT_NUMBERS * (client == 1 ? piece - 1 : TITMEADOW_SLOTS - piece);
}

static void same(enum call call, const char *what) {
    if (memcmp(&at, &due, sizeof at) != 0) {
        fault(call, what, "the desk is not as it should be");
        memcpy(&due, &at, sizeof due);
    }
}

static void open(const char *what, size_t client, titmeadow_opening o, titmeadow_answer want) {
    lend();
    is(DESK_OPEN, what, titmeadow_desk_open(&at.desk, client, o.deal, o.people, o.pieces, o.words, o.year), want, NONE);
    if (want.number == 0)
        *words_of(&due.desk, client) = o;
    same(DESK_OPEN, what);
}

/* So many bytes of a block, NULL where there are none. */
static void hand_in(const char *what, size_t client, const uint8_t *block, size_t length, titmeadow_answer want) {
    lend();
    is(DESK_HAND_IN, what, titmeadow_desk_hand_in(&at.desk, client, length == 0 ? NULL : block, length), want, NONE);
    if (want.number == 0) {
        uint16_t *kept = slot(&due.desk, client, block[13]);
        kept[0] = 1;
        for (size_t i = 1; i <= words_of(&due.desk, client)->words; i++)
            kept[i] = (uint16_t)(block[12 + 2 * i] << 8 | block[13 + 2 * i]);
    }
    same(DESK_HAND_IN, what);
}

/* With so many words, NULL where there are none. */
static void ask(const char *what, size_t client, size_t room, titmeadow_answer want, const uint16_t *secret) {
    uint16_t *out = lend();
    is(DESK_ASK, what, titmeadow_desk_ask(&at.desk, client, room == 0 ? NULL : out, room), want, secret, want.number == 0 ? 2 * want.a : 0);
    same(DESK_ASK, what);
}

static void close(const char *what, size_t client, titmeadow_answer want) {
    lend();
    is(DESK_CLOSE, what, titmeadow_desk_close(&at.desk, client), want, NONE);
    if (want.number == 0) {
        titmeadow_opening *words = words_of(&due.desk, client);
        for (size_t piece = 1; piece <= words->pieces; piece++)
            memset(slot(&due.desk, client, piece), 0, 2 * TITMEADOW_SLOT_NUMBERS);
        memset(words, 0, sizeof *words);
    }
    same(DESK_CLOSE, what);
}

/* Every byte is 0. */
static void is_fresh(const char *what) {
    static const titmeadow_desk fresh = TITMEADOW_DESK_FRESH;
    static const uint8_t zeros[sizeof fresh];
    if (memcmp(&at.desk, zeros, sizeof zeros) != 0 || memcmp(&at.desk.slots, &fresh.slots, sizeof fresh.slots) != 0)
        fault(DESK_CLOSE, what, "something is left");
}

static const titmeadow_opening seven = {7, 4, 3, 1, 0};
static const titmeadow_answer closed = {TITMEADOW_CLOSED, 0, 0}, full = {TITMEADOW_FULL, 0, 0}, busy = {TITMEADOW_BUSY, 0, 0};

static titmeadow_opening with_pieces(size_t pieces) {
    titmeadow_opening o = {8, 8, 1, 16, 2026};
    o.pieces = pieces;
    return o;
}

/* The block of a piece of that opening, its values those of `sixteen` and the piece more. */
static void lay(uint8_t *block, size_t pieces, size_t piece) {
    uint16_t values[TITMEADOW_SECRET_MOST];
    for (size_t i = 0; i < TITMEADOW_SECRET_MOST; i++)
        values[i] = (uint16_t)(sixteen[i] + piece);
    put_block(block, 8, 1 + piece % 8, 8, pieces, 16, piece, values);
    put_year(block, 2026);
}

/* Client 1 with P11's deal, whose pieces join to 1234; beside it client 2 with 67 pieces, of which piece j has `sixteen` and j more, so that
 * they join to `sixteen`. */
static void walk(void) {
    uint8_t block[BLOCK];
    begin();
    open("client 1 opens", 1, seven, done(3));
    ask("no piece is there", 1, 1, refused(TITMEADOW_SHORT, 0, 3), NULL);
    ask("no piece is there, and no room", 1, 0, refused(TITMEADOW_SHORT, 0, 3), NULL);
    hand_in("holder 4's block", 1, three[0], BLOCK, done(1));
    hand_in("holder 4's block again", 1, three[0], BLOCK, done(1));
    open("68 slots beside 3", 2, with_pieces(68), full);
    open("67 slots beside 3", 2, with_pieces(67), done(67));
    hand_in("client 1's block to client 2", 2, three[1], BLOCK, refused(TITMEADOW_MIXED, 1, 0));
    hand_in("piece 2", 1, three[1], BLOCK, done(2));
    ask("piece 3 is not there", 1, 1, refused(TITMEADOW_SHORT, 2, 3), NULL);
    ask("piece 3 is not there, and no room", 1, 0, refused(TITMEADOW_SHORT, 2, 3), NULL);
    for (size_t piece = 1; piece < 67; piece++) {
        lay(block, 67, piece);
        hand_in("a piece of 67", 2, block, BLOCK, done(piece));
        hand_in("client 2's block to client 1", 1, block, BLOCK, refused(TITMEADOW_MIXED, 1, 0));
    }
    hand_in("piece 3", 1, three[2], BLOCK, done(3));
    ask("all three", 1, 1, done(1), LISTED(1234));
    ask("all three, with more room", 1, 5, done(1), LISTED(1234));
    ask("all three, and no room", 1, 0, refused(TITMEADOW_ROOM, 1, 0), NULL);
    ask("66 of 67", 2, 16, refused(TITMEADOW_SHORT, 66, 67), NULL);
    open("open already", 1, seven, busy);
    open("open already, and words that are none", 1, (titmeadow_opening){0, 0, 0, 0, SIZE_MAX}, busy);
    close("client 1 closes", 1, done(3));
    close("client 1 closes again", 1, closed);
    hand_in("client 1 has closed", 1, three[0], BLOCK, closed);
    ask("client 1 has closed", 1, 1, closed, NULL);
    lay(block, 67, 67);
    hand_in("the last of 67", 2, block, BLOCK, done(67));
    ask("all 67", 2, 16, done(16), sixteen);
    ask("all 67, a word too few", 2, 15, refused(TITMEADOW_ROOM, 16, 0), NULL);
    open("4 slots beside 67", 1, (titmeadow_opening){7, 4, 4, 1, 0}, full);
    open("3 slots beside 67", 1, seven, done(3));
    ask("opened anew", 1, 1, refused(TITMEADOW_SHORT, 0, 3), NULL);
    ask("all 67, once more", 2, 17, done(16), sixteen);
    close("client 2 closes", 2, done(67));
    close("client 1 closes, without a piece", 1, done(3));
    is_fresh("both have closed");
}

/* Who is no client, at a fresh desk and where both are open; and the other calls of one that has not opened. */
static void clients(void) {
    const size_t wide = (size_t)1 << 32, nobody[] = {0, 3, 255, 257, 65537, 65538, wide + 1, wide + 2, SIZE_MAX - 1, SIZE_MAX};
    const titmeadow_answer none = refused(TITMEADOW_NOCLIENT, 0, 0);
    begin();
    for (int turn = 0; turn < 2; turn++) {
        for (size_t i = 0; i < COUNT(nobody); i++) {
            open("no client", nobody[i], seven, none);
            open("no client, and no words", nobody[i], (titmeadow_opening){0, 0, 0, 0, 0}, none);
            hand_in("no client", nobody[i], three[0], BLOCK, none);
            hand_in("no client, and no block", nobody[i], NULL, 0, none);
            ask("no client", nobody[i], 1, none, NULL);
            close("no client", nobody[i], none);
        }
        for (size_t client = 1; client <= 2; client++) {
            if (turn == 0) {
                hand_in("not open", client, three[0], BLOCK, closed);
                hand_in("not open, and no block", client, NULL, 0, closed);
                ask("not open", client, 0, closed, NULL);
                close("not open", client, closed);
            }
            open("a client", client, seven, turn == 0 ? done(3) : busy);
        }
    }
}

/* Each word of an opening at the ends of its range and outside, with the words behind it bad too, and where there is no slot left. */
static void openings(void) {
    const size_t wide = (size_t)1 << 32;
    const struct {
        size_t word, least, most;
    } ranges[] = {{2, 1, TITMEADOW_WORD_MOST}, {4, 1, TITMEADOW_PEOPLE_MOST}, {5, 1, TITMEADOW_PIECES_MOST}, {6, 1, TITMEADOW_SECRET_MOST},
                  {TITMEADOW_YEAR_WORD, 0, TITMEADOW_WORD_MOST}};
    for (size_t i = 0; i < COUNT(ranges); i++)
        for (size_t client = 1; client <= 2; client++) {
            const size_t good[] = {ranges[i].least, ranges[i].most};
            const size_t bad[] = {ranges[i].most + 1, 65535, 65536, 65536 + 1, wide, wide + 1, SIZE_MAX, 0};
            const titmeadow_answer header = refused(TITMEADOW_HEADER, 0, ranges[i].word);
            for (size_t j = 0; j < COUNT(good); j++) {
                size_t words[] = {7, 4, 3, 1, 2026};
                words[i] = good[j];
                begin();
                open("a word at an end", client, (titmeadow_opening){words[0], words[1], words[2], words[3], words[4]}, done(words[2]));
                close("a word at an end", client, done(words[2]));
                is_fresh("a word at an end");
            }
            begin();
            open("all slots of the other", 3 - client, with_pieces(70), done(70));
            for (size_t j = 0; j < COUNT(bad) - (ranges[i].least == 0); j++) {
                size_t words[] = {7, 4, 3, 1, 2026};
                words[i] = bad[j];
                for (size_t k = i; k < COUNT(words); k++) {
                    words[k] = k == i ? bad[j] : SIZE_MAX;
                    open("a word that is none", client, (titmeadow_opening){words[0], words[1], words[2], words[3], words[4]}, header);
                }
            }
            open("one slot more than all", client, with_pieces(1), full);
        }
}

static void blocks(void) {
    const size_t lengths[] = {0, 1, BLOCK - 1, BLOCK + 1, 2 * BLOCK};
    const size_t broken[][2] = {{1, 1988}, {2, 0}, {3, 0}, {3, 5}, {4, 9}, {5, 0}, {5, 71}, {6, 0}, {6, 17}, {7, 0}, {7, 4}, {9, 1}, {23, 1}, {25, 1}, {255, 1}};
    const size_t others[][2] = {{2, 6}, {2, 8}, {2, 256 + 7}, {4, 5}, {5, 4}, {6, 2}, {24, 1}, {24, 256}, {24, TITMEADOW_WORD_MOST}};
    static uint8_t block[2 * BLOCK];
    for (size_t client = 1; client <= 2; client++) {
        begin();
        open("the blocks of a client", client, seven, done(3));
        hand_in("piece 2", client, three[1], BLOCK, done(1));
        for (size_t i = 0; i < COUNT(lengths); i++) {
            memcpy(block, three[0], BLOCK);
            memcpy(block + BLOCK, three[2], BLOCK);
            hand_in("not 512 bytes", client, block, lengths[i], refused(TITMEADOW_TORN, 0, 0));
        }
        for (size_t i = 1; i <= TITMEADOW_BLOCK_WORDS; i++) {
            memcpy(block, three[0], BLOCK);
            put(block, i, TITMEADOW_WORD_MOST);
            hand_in("another word", client, block, BLOCK, refused(TITMEADOW_CHECK, 1, 0));
            put(block, i, TITMEADOW_WORD_MOST + 1);
            hand_in("a dirty word", client, block, BLOCK, refused(TITMEADOW_UNREAD, 1, i));
        }
        for (size_t i = 0; i < COUNT(broken); i++) {
            memcpy(block, three[0], BLOCK);
            put(block, broken[i][0], broken[i][1]);
            put_check(block);
            /* a holder past the people is the fault of word 4 */
            hand_in("the layout is broken", client, block, BLOCK, refused(TITMEADOW_HEADER, 1, broken[i][1] == 5 ? 4 : broken[i][0]));
        }
        for (size_t i = 0; i < COUNT(others); i++)
            for (size_t piece = 1; piece <= 2; piece++) {
                memcpy(block, three[piece - 1], BLOCK);
                put(block, others[i][0], others[i][1]);
                put_check(block);
                hand_in("another deal", client, block, BLOCK, refused(TITMEADOW_MIXED, 1, 0));
            }
        put_block(block, 7, 1, 4, 3, 1, 2, LISTED(1273));
        hand_in("another value", client, block, BLOCK, refused(TITMEADOW_CONFLICT, 1, 0));
        put_block(block, 7, 3, 4, 3, 1, 2, LISTED(1272));
        hand_in("another holder", client, block, BLOCK, done(1));
    }
}

/* What no calls leave: a slot with a value that cannot be read keeps nothing, and is taken anew; a mark may be any number; words that opening does
 * not take are as if the client were closed. */
static void spoilt(void) {
    for (size_t client = 1; client <= 2; client++) {
        begin();
        open("before it is spoilt", client, seven, done(3));
        for (size_t piece = 1; piece <= 3; piece++)
            hand_in("before it is spoilt", client, three[piece - 1], BLOCK, done(piece));
        slot(&at.desk, client, 2)[1] = slot(&due.desk, client, 2)[1] = TITMEADOW_WORD_MOST + 1;
        slot(&at.desk, client, 3)[0] = slot(&due.desk, client, 3)[0] = 65535;
        slot(&at.desk, client, 3)[2] = slot(&due.desk, client, 3)[2] = 65535; /* behind the one value */
        ask("a value that cannot be read", client, 1, refused(TITMEADOW_SHORT, 2, 3), NULL);
        hand_in("taken anew", client, three[1], BLOCK, done(3));
        ask("taken anew", client, 1, done(1), LISTED(1234));
        words_of(&at.desk, client)->words = words_of(&due.desk, client)->words = 65536 + 1;
        hand_in("words that are none", client, three[1], BLOCK, closed);
        ask("words that are none", client, 1, closed, NULL);
        close("words that are none", client, closed);
        open("words that are none", client, seven, done(3));
        ask("the old slots, opened anew", client, 1, done(1), LISTED(1234));
        close("closed", client, done(3));
        is_fresh("closed");
    }
}

void desk(void) {
    walk();
    clients();
    openings();
    blocks();
    spoilt();
}
