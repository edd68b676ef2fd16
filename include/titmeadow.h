/* Titmeadow: planning, dealing, joining and renewing cards for the vault unit, a desk for two clients, and judging another maker's holdings. Link
 * target/staticlib/libtitmeadow.a (tools/archive).
 *
 * Whatever a call is given, it ends in its result or in a refusal, which has a number and the places a and b. A place is counted from
 * 1, and 0 where none is named. After a refusal, all that was lent is as before; a result writes only what is said here.
 * There is no heap, no state but the desk that a caller has and lends, and no input that traps. A pointer is valid for as many elements as
 * the count beside it says, and what is lent to be written overlaps nothing else that is lent. Where the count is 0, the pointer may be NULL.
 * groups, head and the words of titmeadow_pack have their size in the declaration and no count, and a desk is one: they are never NULL.
 *
 * The archive is for x86-64. Its size, and the stack that each call takes on that target: docs/BENCHMARKS.md.
 * Symbols that it needs: memcpy, memset.
 */
#ifndef TITMEADOW_H
#define TITMEADOW_H

#include <stddef.h>
#include <stdint.h>

/* The limits: more is refused, so buffers of these sizes are enough for every call. */
#define TITMEADOW_PEOPLE_MOST 8   /* people of a policy */
#define TITMEADOW_SETS_MOST 256   /* sets in a list */
#define TITMEADOW_PIECES_MOST 70  /* k */
#define TITMEADOW_WORD_MOST 32748 /* a word of a secret, of the randomness or of a block, a deal number, and a year */
#define TITMEADOW_SECRET_MOST 16  /* w, the words of a secret */
#define TITMEADOW_RANDOM_MOST (TITMEADOW_SECRET_MOST * (TITMEADOW_PIECES_MOST - 1)) /* w(k - 1) */
#define TITMEADOW_SETS_RANDOM_MOST \
    (TITMEADOW_SECRET_MOST * TITMEADOW_PIECES_MOST * (TITMEADOW_PEOPLE_MOST - 1)) /* by sets: 70 of 8 members would take so many, and none do */
#define TITMEADOW_BLOCK_BYTES 512
#define TITMEADOW_BLOCK_WORDS 256 /* two bytes each, the high one in front */
#define TITMEADOW_HEAD_WORDS 7    /* mark, deal number, holder, people, k, w, piece */
#define TITMEADOW_MARK 1987       /* word 1 of a block that titmeadow_deal wrote, or titmeadow_deal_key */
#define TITMEADOW_SETS_MARK 1988  /* and of one that titmeadow_deal_by_sets wrote */
#define TITMEADOW_YEAR_WORD 24    /* the word of a block, from 1, that has the year of the deal: its bytes 47 and 48, from 1, the high one in front */
#define TITMEADOW_SET_WORD 25     /* and the word that has the place of the block's set, 1 to 70, where it was dealt by sets; else it is 0 */
#define TITMEADOW_CARD_MOST 35    /* blocks on a card */
#define TITMEADOW_PILE_MOST 560   /* blocks in a pile */
#define TITMEADOW_SLOTS 70        /* slots of a desk, for the pieces of both clients */
#define TITMEADOW_SLOT_NUMBERS (1 + TITMEADOW_SECRET_MOST) /* a mark, and the values of a piece */
#define TITMEADOW_KEY_BYTES 16    /* a key has so many, not one more or less */
#define TITMEADOW_KEY_WORDS 10    /* and so many words: w where a key is dealt */

/* The size of an array parameter: C compilers can warn of an argument that is smaller, or NULL. In C++ it is a pointer. */
#ifdef __cplusplus
#define TITMEADOW_PLACES(count) count
#else
#define TITMEADOW_PLACES(count) static count
#endif

#ifdef __cplusplus
extern "C" {
#endif

/* number 0: a result, its value in a (titmeadow_judge's is in a and b); else a refusal and its two places */
typedef struct {
    size_t number, a, b;
} titmeadow_answer;

/* The refusals by number; a place that is not named is 0. Each call below says which it gives, and in which order. */
enum titmeadow_refusal {
    TITMEADOW_PEOPLE = 1,    /* there are no people, or more than 8 */
    TITMEADOW_LONGLIST = 2,  /* more than 256 sets stand in a list; a: 1 for the required list, else 2 */
    TITMEADOW_STRANGER = 3,  /* somebody in a set has a number above that of the people; a: the list, b: the first such set in it */
    TITMEADOW_NOBODY = 4,    /* no set is required */
    TITMEADOW_OPEN = 5,      /* the empty set is required; a: its first place */
    TITMEADOW_CLASH = 6,     /* a required set lies inside a forbidden one; a: the first such set, b: the first forbidden set around it */
    /* 7 is vacant: it was for over 70 maximal groups, which 8 people are proved never to have. No other refusal gets the number. */
    TITMEADOW_DEAL = 8,      /* the deal number is 0 or exceeds 32748; number and year are both those of one of the blocks that are added */
    TITMEADOW_HOLDER = 9,    /* the holder is 0 or exceeds the number of people */
    TITMEADOW_SECRET = 10,   /* no words, or more than 16, or a key not of 16 bytes (a = 0); else some word exceeds 32748; a: the first such word */
    TITMEADOW_RANDOM = 11,   /* not w(k - 1) words, or by sets not as many for all of them (a = 0); else some word exceeds 32748; a: the first such word */
    TITMEADOW_ROOM = 12,     /* the lent buffer is too short; a: the blocks or words of the result, of a key its 16 bytes, and in salvaging the blocks of the pile */
    TITMEADOW_TORN = 13,     /* bytes are left over after the whole blocks; a block that is added or handed in has not 512 bytes */
    TITMEADOW_LONG = 14,     /* there are more than 560 blocks */
    TITMEADOW_UNREAD = 15,   /* some word of a block exceeds 32748; a: the block, b: the first such word */
    TITMEADOW_CHECK = 16,    /* word 256 of a block is not its check; a: the block */
    TITMEADOW_HEADER = 17,   /* some word from 1 to 255 of a block is not as the layout has it; a: the block, b: the first such word; titmeadow_desk_open: a = 0; a block by sets that is added or handed in: b = 1 */
    TITMEADOW_MIXED = 18,    /* blocks differ in word 1, 2, 4, 5, 6 or 24, by sets not in word 5; a: the first outside the largest heap of blocks alike in these, of equal heaps the earliest; at a desk 1 */
    TITMEADOW_CONFLICT = 19, /* a block has an earlier one's piece, and other values; by sets an earlier one's set, and another k, or its piece and other values; a: the first such block, b: the first such earlier one; at a desk 1, 0 */
    TITMEADOW_SHORT = 20,    /* of the pieces 1 to k not all are there; a: how many different ones are, b: k, and in a pile of no blocks 0; by sets no set has all its pieces there, and both are 0 */
    TITMEADOW_TEXT = 21,     /* the text of a policy cannot be read (the listing program only); a: the first bad line */
    TITMEADOW_LONE = 22,     /* a required set has a single member; a: the first such set */
    TITMEADOW_NOTKEY = 23,   /* there are not ten words (a = 0); else the first exceeds 2047 or another 8191; a: the first such word */
    TITMEADOW_UNLIKE = 24,   /* the two blocks of an addition differ in one of words 3 to 7; a: the first such word */
    TITMEADOW_YEAR = 25,     /* the year exceeds 32748 */
    TITMEADOW_NOCLIENT = 26, /* the client is neither 1 nor 2 */
    TITMEADOW_BUSY = 27,     /* the client that would open has opened, and not closed since */
    TITMEADOW_FULL = 28,     /* k is more than the slots that the other client leaves */
    TITMEADOW_CLOSED = 29,   /* the client has not opened, or has closed since */
    TITMEADOW_ROWS = 30      /* a holding list is not in order: its people, pieces, needed number, number of marks, or a mark; titmeadow_judge has the ranges */
};

/* Planning: the result is k, the number of pieces. A set is a number in which the bit of person i is 2^(i-1).
 * groups has 70 places: the group of piece j, those who lack it, goes to groups[j - 1]; the first k are written.
 * k is at most 70, and of fewer people than 8 less: of 1 to 8 at most 1, 2, 3, 6, 10, 20, 35, 70.
 * Refuses 1 to 5, 22, 6, in this order. */
titmeadow_answer titmeadow_plan(size_t people, const uint16_t *required, size_t required_count, const uint16_t *forbidden,
                                size_t forbidden_count, uint16_t groups[TITMEADOW_PLACES(TITMEADOW_PIECES_MOST)]);

/* Judging another maker's holding list by a policy. The list is for list_people people, and has pieces pieces, 1 to 70, of which needed are needed,
 * 1 to pieces; marks has a row of pieces bytes for each person, person 1's in front: a byte is 1 where the person has that piece, else 0. It suits the
 * policy if the members of every authorised group have needed different pieces between them or more, and those of no other group have. Number 0 is the verdict:
 * a is 0 where the list suits, and else the first group, by its number as a set, for which it is wrong; b is then TITMEADOW_TOO_FEW or
 * TITMEADOW_ENOUGH, and 0 where it suits. A list that does not suit is no refusal. The holdings that titmeadow_plan gives always suit, with all k
 * pieces needed: person i has piece j unless i is in groups[j - 1].
 * Where every piece is needed, a list that suits has as many as that plan or more.
 * marks_count counts bytes. Refuses 1 to 5, 22, 6, 30, in this order. */
titmeadow_answer titmeadow_judge(size_t people, const uint16_t *required, size_t required_count, const uint16_t *forbidden,
                                 size_t forbidden_count, size_t list_people, size_t pieces, size_t needed, const uint8_t *marks,
                                 size_t marks_count);
#define TITMEADOW_TOO_FEW 1 /* the group is authorised, and has fewer pieces than are needed */
#define TITMEADOW_ENOUGH 2  /* the group is not authorised, and has as many as are needed */

/* Dealing one holder's card: the result is its number of blocks, of 512 bytes each, which are written to the front of card; a
 * holder of no piece has a card without a block. The secret has w = words words, 1 to 16, and random has w(k - 1) words, not one more
 * or less, even and never used again; each of both is 0 to 32748. Every card of a deal is made from the same policy, deal number, year,
 * secret and random. deal is 1 to 32748 and year 0 to 32748: a number may come again in another year, and cards of two years do not join.
 * Cards that were made when blocks had no year are cards of year 0.
 * room counts bytes. Refuses 1 to 5, 22, 6, 8, 25, 9 to 12, in this order.
 * No card has over 35 blocks: the groups of its pieces are of the other seven people, none inside another, and there are no more such. A
 * card that does not fit is refused. */
titmeadow_answer titmeadow_deal(size_t people, const uint16_t *required, size_t required_count, const uint16_t *forbidden,
                                size_t forbidden_count, size_t deal, size_t year, size_t holder, const uint16_t *secret, size_t words,
                                const uint16_t *random, size_t random_count, uint8_t *card, size_t room);

/* Dealing one holder's card by sets: each minimal required set, one with no other required set inside it, is a deal of its own of the same secret, among its
 * members. Sets come by rising number, each once; in set s, the s-th, the j-th member by rising number holds piece j, and nobody else does. A card has a
 * block for each set that the holder is in, in the order of the sets, with TITMEADOW_SETS_MARK in word 1, the members of the set in word 5 and s in word 25; a
 * holder in no set has a card without a block. All is as titmeadow_deal has it but for random: of each set it has w(members - 1) words, those of set 1 in
 * front and, of each set, those of the secret's word 1 in front; added up over the sets that is their number, not one more or less.
 * For a policy of few sets and many pieces these cards are shorter. There are 70 sets at most, and 35 blocks on a card.
 * titmeadow_join and its fellows take such cards, those of one deal by themselves; titmeadow_add and the desk refuse them.
 * room counts bytes. Refuses 1 to 5, 22, 6, 8, 25, 9 to 12, in this order. */
titmeadow_answer titmeadow_deal_by_sets(size_t people, const uint16_t *required, size_t required_count, const uint16_t *forbidden,
                                        size_t forbidden_count, size_t deal, size_t year, size_t holder, const uint16_t *secret, size_t words,
                                        const uint16_t *random, size_t random_count, uint8_t *card, size_t room);

/* Joining a pile of blocks from cards, in any order and repeated at will: the result is w, the words of the secret, which are written
 * to the front of secret. Of cards by sets it takes all pieces of one set, and where several sets are whole, that with the lowest place is joined;
 * cards of the two kinds are of two deals. room counts words. Refuses 13, 14; for one block after the other 15, 16, 17; last 18, 19, 20, 12. */
titmeadow_answer titmeadow_join(const uint8_t *pile, size_t length, uint16_t *secret, size_t room);

/* The same by differences alone, for a unit without room for the modular inverse: on every pile and every secret lent, the answer and the
 * words are those of titmeadow_join. Linked with --gc-sections, a program that calls this joiner and no other has nothing of the
 * inverse and of the weights. */
titmeadow_answer titmeadow_join_by_differences(const uint8_t *pile, size_t length, uint16_t *secret, size_t room);

/* The same by weights that are ready made, some 5,000 bytes of constants: answer and words are those of the other two. A program that calls this
 * joiner alone has nothing of the inverse. */
titmeadow_answer titmeadow_join_by_weights(const uint8_t *pile, size_t length, uint16_t *secret, size_t room);

/* Opening the first block of a pile: the result is 7, and its words 1 to 7 are written to the seven places of head. The year is none of them:
 * it is bytes 47 and 48 of the block, counted from 1 (TITMEADOW_YEAR_WORD); and so is the place of a set: bytes 49 and 50 (TITMEADOW_SET_WORD).
 * Refuses 13 (fewer than 512 bytes; a = 0, since there is no block); 15, 16, 17, each with a = 1. */
titmeadow_answer titmeadow_open(const uint8_t *pile, size_t length, uint16_t head[TITMEADOW_PLACES(TITMEADOW_HEAD_WORDS)]);

/* Salvaging a scratched pile, where it stands: a block in which one word alone exceeds 32748 gets that word back from its check, which
 * leaves a single value of 0 to 32748 for it. A block that is not as the layout has it with that value stays as it was, and so does one
 * with no such word or with several. The result is the number of words rebuilt: so many words of the pile are not what they were. Block and
 * word of each, two numbers for a place, are written to the front of list, in pile order. A block that was good before one of its words was
 * lost, and lost nothing else, is that block again; where another word was read wrong besides, the value fits the wrong words, and the block
 * may pass every check. numbers counts the numbers of list; as many places as the pile has blocks are asked for,
 * so 2 * TITMEADOW_PILE_MOST numbers are enough for every pile. Refuses 13, 14, 12 (a: the blocks of the pile), in this order; pile and list
 * are then as they were. Of a pile that was not salvaged, joining still says 15. */
titmeadow_answer titmeadow_salvage(uint8_t *pile, size_t length, uint16_t *list, size_t numbers);

/* A key has 16 bytes, which are one number of 128 bits, the first byte the highest. The same number is ten words of 13 bits, the first
 * word the highest: that one is at most 2047, the others at most 8191. Every key has one such list of words, and every such list one key.
 *
 * Packing: the result is 10, and the key's words are written to the ten places of words. Refuses 10 (not 16 bytes; a = 0). */
titmeadow_answer titmeadow_pack(const uint8_t *key, size_t length, uint16_t words[TITMEADOW_PLACES(TITMEADOW_KEY_WORDS)]);

/* Unpacking: the result is 16, and the bytes of the key that has these words are written to the front of key. room counts bytes.
 * Refuses 23; 12 (a = 16). */
titmeadow_answer titmeadow_unpack(const uint16_t *words, size_t count, uint8_t *key, size_t room);

/* Dealing one holder's card of a key, which is dealt as its ten words: all is as titmeadow_deal has it for a secret of w = 10 words, so
 * random has 10(k - 1) words. The result is the number of blocks, which are written to the front of card. room counts bytes.
 * Refuses 1 to 5, 22, 6, 8, 25, 9; 10 (the key has not 16 bytes; a = 0); 11; 12 (a: blocks), in this order. */
titmeadow_answer titmeadow_deal_key(size_t people, const uint16_t *required, size_t required_count, const uint16_t *forbidden,
                                    size_t forbidden_count, size_t deal, size_t year, size_t holder, const uint8_t *key, size_t length,
                                    const uint16_t *random, size_t random_count, uint8_t *card, size_t room);

/* Joining a pile to a key: the pile is joined as titmeadow_join does it, and its words are unpacked. The result is 16, and the key's bytes
 * are written to the front of key. room counts bytes. Refuses 13, 14; for one block after the other 15, 16, 17; then 18, 19, 20; 23, for
 * words that are no key's; last 12 (a = 16). */
titmeadow_answer titmeadow_join_key(const uint8_t *pile, size_t length, uint8_t *key, size_t room);

/* Adding two blocks into one, under a new deal number and year: the blocks are alike in words 3 to 7 (holder, people, k, w, piece), and so is the
 * sum; its values are theirs added one by one mod 32749. The result is 1, a number of blocks, and the sum is written to the first 512
 * bytes of block. room counts bytes. The two may be of one deal, and may be the same block. Cards by sets are not added: such a block, once it could be
 * read and its check is right, is HEADER, word 1.
 * Adding, block for block and all under one new number and year, the cards of a deal of the same policy whose secret is w zeros renews the cards
 * of a deal: the new cards join to the same secret, and with a card of either old deal they do not join.
 * Refuses, of block one and then of block two, 13 (not 512 bytes, fewer or more; a = 0) and 15, 16, 17 (a: 1 or 2); then 24; 8; 25; 8 once
 * more, where deal and year are, both of them, those of one of the blocks; 12 (a = 1). */
titmeadow_answer titmeadow_add(const uint8_t *one, size_t one_length, const uint8_t *two, size_t two_length, size_t deal, size_t year,
                               uint8_t *block, size_t room);

/* A desk serves two clients, 1 and 2, from one store of 70 slots, k for each that is open. A desk begins fresh, every number 0, and only the four
 * calls below are to write it; they change it where it stands. Each client is answered as it would be at a desk of its own: nothing that the other
 * does is seen in its answers, but that an opening is FULL where the other has too many slots; such an opening changes nothing, and may have a
 * result later. Where both are closed, every number is 0 again. On a desk that holds anything else the calls end and answer all the same:
 * a client is open where its five words are such as opening takes, and a slot with one of its w values above 32748 keeps no piece.
 * An opening has words 2, 4, 5, 6 and 24 of the blocks of a deal; in a desk, all are 0 where the client is not open. */
typedef struct {
    size_t deal, people, pieces, words, year;
} titmeadow_opening;

/* Piece j of client 1 is kept in slot j, of client 2 in slot 71 - j, both from 1; a slot is a mark, which is 0 where no piece is kept, and 16
 * values. */
typedef struct {
    uint16_t slots[TITMEADOW_SLOTS * TITMEADOW_SLOT_NUMBERS];
    titmeadow_opening one, two;
} titmeadow_desk;

/* titmeadow_desk desk = TITMEADOW_DESK_FRESH; */
#ifdef __cplusplus
#define TITMEADOW_DESK_FRESH {}
#else
#define TITMEADOW_DESK_FRESH {0}
#endif

/* Opening: the client gets pieces slots, and the result is their number, k. Refuses 26; 27; 17, for words that no block has which the layout
 * allows (a = 0, b: the first such, 2, 4, 5, 6 or 24; deal 1 to 32748, people 1 to 8, pieces 1 to 70, words 1 to 16, year at most 32748); 28. */
titmeadow_answer titmeadow_desk_open(titmeadow_desk *desk, size_t client, size_t deal, size_t people, size_t pieces, size_t words, size_t year);

/* Handing in one block, of any holder, again or for the first time: its piece is kept, and the result is how many different pieces of the client
 * are. Cards by sets are not taken: HEADER, word 1, as in an addition. Refuses 26; 29; 13 (not 512 bytes, fewer or more; a = 0); 15, 16, 17; 18, for a
 * block that differs from the opening; 19, for other values of a piece that is kept; each of these five with a = 1, and of the last two b = 0. */
titmeadow_answer titmeadow_desk_hand_in(titmeadow_desk *desk, size_t client, const uint8_t *block, size_t length);

/* Asking: the pieces are joined, and stay. The result is w, and the words are written to the front of secret. room counts words.
 * Refuses 26; 29; 20 (b is k also where there is no piece); 12. */
titmeadow_answer titmeadow_desk_ask(const titmeadow_desk *desk, size_t client, uint16_t *secret, size_t room);

/* Closing: the result is k; the client's slots are 0 then and free, and so are its words. Refuses 26; 29. */
titmeadow_answer titmeadow_desk_close(titmeadow_desk *desk, size_t client);

#ifdef __cplusplus
}
#endif

#endif
