/* How much stack each exported function takes: it is run on a stack of its own that was painted before, and the deepest byte that
 * changed is found afterwards; twice, with two paints, so that a byte written with the paint's own value is not missed.
 *   tools/archive && cc -O2 -I include tools/stack.c target/staticlib/libtitmeadow.a -o target/stack && target/stack */
#include <stdio.h>
#include <string.h>
#include <ucontext.h>
#include "titmeadow.h"

static uint8_t stack[1 << 20] __attribute__((aligned(4096)));
static uint8_t pile[560 * 512], card[35 * 512], few[70 * 512];
static uint8_t key_pile[560 * 512], key[16], sets_pile[560 * 512];
static size_t key_piled, sets_piled;
static uint16_t required[256], groups[70], secret[16], words[16], randomness[TITMEADOW_SETS_RANDOM_MOST], head[7];
static uint16_t list[2 * 560];
static titmeadow_desk desk, few_desk, other_desk; /* client 1 has all pieces of `pile`; of `few`; nobody has any */
static uint8_t marks[8 * 70];
static size_t sets, piled, fewer;
static volatile size_t sink;
/* a policy, how many pieces it has, and how many coefficients for a word by sets */
static uint16_t need[257], bar[257];
static size_t people, needs, bars, pieces, coefficients;
enum { ANY_FIVE = 56 * 4 }; /* coefficients of any five of eight, by sets */

static void nothing(void) { sink = 1; }
static void plan(void) { sink = titmeadow_plan(8, required, sets, required, 0, groups).a; }
static void judge(void) { sink = titmeadow_judge(8, required, sets, required, 0, 8, 70, 70, marks, sizeof marks).a; }
static void deal(void) { sink = titmeadow_deal(8, required, sets, required, 0, 7, 2026, 3, secret, 16, randomness, 16 * 69, card, sizeof card).a; }
static void deal_by_sets(void) {
    sink = titmeadow_deal_by_sets(8, required, sets, required, 0, 7, 2026, 3, secret, 16, randomness, 16 * ANY_FIVE, card, sizeof card).a;
}
static void join_sets(void) { sink = titmeadow_join(sets_pile, sets_piled, words, 16).a; }
static void join_sets_by_differences(void) { sink = titmeadow_join_by_differences(sets_pile, sets_piled, words, 16).a; }
static void join_sets_by_weights(void) { sink = titmeadow_join_by_weights(sets_pile, sets_piled, words, 16).a; }
static void join(void) { sink = titmeadow_join(pile, piled, words, 16).a; }
static void join_by_differences(void) { sink = titmeadow_join_by_differences(pile, piled, words, 16).a; }
static void join_by_weights(void) { sink = titmeadow_join_by_weights(pile, piled, words, 16).a; }
static void join_few(void) { sink = titmeadow_join(few, fewer, words, 16).number; }
static void join_few_by_differences(void) { sink = titmeadow_join_by_differences(few, fewer, words, 16).number; }
static void join_few_by_weights(void) { sink = titmeadow_join_by_weights(few, fewer, words, 16).number; }
static void open(void) { sink = titmeadow_open(pile, piled, head).a; }
static void salvage(void) {
    pile[14] = 0x7f, pile[15] = 0xff; /* a value of block 1, which comes back */
    sink = titmeadow_salvage(pile, piled, list, 2 * 560).a;
}
static void add(void) { sink = titmeadow_add(pile, 512, pile, 512, 9, 2026, card, sizeof card).a; }
static void desk_open(void) {
    other_desk.two.pieces = 0; /* not open, whatever was */
    sink = titmeadow_desk_open(&other_desk, 2, 9, 8, 70, 16, 2026).a;
}
static void desk_hand_in(void) { sink = titmeadow_desk_hand_in(&desk, 1, pile, 512).a; }
static void desk_ask(void) { sink = titmeadow_desk_ask(&desk, 1, words, 16).a; }
static void desk_close(void) {
    other_desk.two.deal = other_desk.two.people = other_desk.two.words = 1, other_desk.two.pieces = 70;
    sink = titmeadow_desk_close(&other_desk, 2).a;
}
static void few_hand_in(void) { sink = titmeadow_desk_hand_in(&few_desk, 1, few, 512).number; }
static void few_ask(void) { sink = titmeadow_desk_ask(&few_desk, 1, words, 16).number; }
static void pack(void) { sink = titmeadow_pack(key, 16, words).a; }
static void unpack(void) { sink = titmeadow_unpack(secret, 10, key, 16).a; }
static void deal_key(void) { sink = titmeadow_deal_key(8, required, sets, required, 0, 7, 2026, 3, key, 16, randomness, 10 * 69, card, sizeof card).a; }
static void join_key(void) { sink = titmeadow_join_key(key_pile, key_piled, key, 16).a; }
static void judge_lists(void) {
    sink = titmeadow_judge(people, need, needs, bar, bars, people, pieces, pieces, marks, people * pieces).a;
}
static void plan_lists(void) { sink = titmeadow_plan(people, need, needs, bar, bars, groups).a; }
static void deal_lists(void) { sink = titmeadow_deal(people, need, needs, bar, bars, 7, 2026, 1, secret, 16, randomness, 16 * (pieces - 1), card, sizeof card).a; }
static void deal_by_sets_lists(void) {
    sink = titmeadow_deal_by_sets(people, need, needs, bar, bars, 7, 2026, 1, secret, 16, randomness, 16 * coefficients, card, sizeof card).a;
}
static void deal_key_lists(void) {
    sink = titmeadow_deal_key(people, need, needs, bar, bars, 7, 2026, 1, key, 16, randomness, 10 * (pieces - 1), card, sizeof card).a;
}

static ucontext_t back, there;

static size_t depth(void (*f)(void), int paint) {
    memset(stack, paint, sizeof stack);
    getcontext(&there);
    there.uc_stack.ss_sp = stack;
    there.uc_stack.ss_size = sizeof stack;
    there.uc_link = &back;
    makecontext(&there, f, 0);
    swapcontext(&back, &there);
    size_t i = 0;
    while (i < sizeof stack && stack[i] == (uint8_t)paint)
        i++;
    return sizeof stack - i;
}

/* the first run is not counted: symbols that are bound when they are first called would be */
static size_t used(void (*f)(void)) {
    depth(f, 0);
    size_t a = depth(f, 0xA5), b = depth(f, 0x5A);
    return a > b ? a : b;
}

static void put(uint8_t *block, size_t i, size_t value) {
    block[2 * i - 2] = (uint8_t)(value >> 8);
    block[2 * i - 1] = (uint8_t)value;
}

/* one block of each of k pieces, of sixteen values that are j: whatever they are, they join; and client 1 has them */
static void lay(size_t k) {
    for (size_t j = 1; j <= k; j++) {
        const size_t front[] = {1987, 7, 1, 8, k, 16, j};
        uint8_t *block = few + 512 * (j - 1);
        size_t sum = 0;
        memset(block, 0, 512);
        for (size_t i = 1; i <= 23; i++) {
            size_t value = i <= 7 ? front[i - 1] : j;
            put(block, i, value);
            sum += i * value;
        }
        put(block, 256, sum % 32749);
    }
    fewer = 512 * k;
    titmeadow_desk_close(&few_desk, 1);
    titmeadow_desk_open(&few_desk, 1, 7, 8, k, 16, 0);
    for (size_t j = 0; j < k; j++)
        titmeadow_desk_hand_in(&few_desk, 1, few + 512 * j, 512);
}

/* the least and the most that a call takes, over all numbers of pieces */
static void over_k(const char *name, void (*f)(void), size_t base) {
    size_t least = SIZE_MAX, most = 0;
    for (size_t k = 1; k <= 70; k++) {
        lay(k);
        size_t bytes = used(f) - base;
        if (sink != 0)
            printf("%zu pieces were refused with %zu\n", k, (size_t)sink);
        least = bytes < least ? bytes : least;
        most = bytes > most ? bytes : most;
    }
    printf("| `%s`, of 1 to 70 pieces | %zu to %zu |\n", name, least, most);
}

/* our own holdings as a list: all but those in the group of a piece have it */
static void mark(size_t n, size_t k) {
    for (size_t i = 0; i < n && i < 8; i++)
        for (size_t j = 0; j < k; j++)
            marks[i * k + j] = (groups[j] >> i & 1) == 0;
}

/* the least and the most that planning, judging and dealing take on the policy that is laid out, and on all before it */
static struct { const char *name; void (*f)(void); size_t least, most; } by_lists[] = {
    {"titmeadow_plan", plan_lists, SIZE_MAX, 0}, {"titmeadow_judge", judge_lists, SIZE_MAX, 0}, {"titmeadow_deal", deal_lists, SIZE_MAX, 0},
    {"titmeadow_deal_by_sets", deal_by_sets_lists, SIZE_MAX, 0}, {"titmeadow_deal_key", deal_key_lists, SIZE_MAX, 0}};
static size_t policies, accepted;

/* members less one, added over the sets of the list that stand there for the first time and have no other one inside them */
static size_t by_sets(void) {
    size_t sum = 0;
    for (size_t i = 0; i < needs; i++) {
        int counts = 1;
        for (size_t j = 0; j < needs; j++)
            counts &= need[j] == need[i] ? j >= i : (need[j] & ~need[i]) != 0;
        sum += counts ? (size_t)__builtin_popcount(need[i]) - 1 : 0;
    }
    return sum;
}

static void take(size_t base) {
    titmeadow_answer said = titmeadow_plan(people, need, needs, bar, bars, groups);
    pieces = said.number == 0 ? said.a : 1;
    coefficients = said.number == 0 ? by_sets() : 0;
    if (said.number == 0 && titmeadow_deal_by_sets(people, need, needs, bar, bars, 7, 2026, 1, secret, 16, randomness, 16 * coefficients, card, sizeof card).number != 0)
        printf("a policy that was accepted was not dealt by sets\n");
    accepted += said.number == 0;
    policies++;
    mark(people, pieces);
    for (size_t i = 0; i < sizeof by_lists / sizeof *by_lists; i++) {
        size_t bytes = used(by_lists[i].f) - base;
        by_lists[i].least = bytes < by_lists[i].least ? bytes : by_lists[i].least;
        by_lists[i].most = bytes > by_lists[i].most ? bytes : by_lists[i].most;
    }
}

static uint16_t drawn(unsigned below) {
    static uint32_t seed = 1;
    seed = seed * 1664525 + 1013904223;
    return (uint16_t)((seed >> 16) % below);
}

/* any m of n for each m and n, 0 and 9 people too; then lists of up to 257 sets by a fixed rule, most of them of the n people, some forbidden */
static void over_lists(size_t base) {
    for (people = 0; people <= 9; people++)
        for (int m = 0; m <= 9; m++) {
            needs = bars = 0;
            for (unsigned set = 0; set < 256; set++)
                if (set < 1u << people && __builtin_popcount(set) == m)
                    need[needs++] = (uint16_t)set;
            take(base);
        }
    for (size_t i = 0; i < 300; i++) {
        people = 2 + drawn(7);
        needs = i % 3 == 0 ? 250 + drawn(8) : 1 + drawn(12);
        bars = drawn(3) == 0 ? drawn(258) : 0;
        for (size_t j = 0; j < needs; j++)
            do
                need[j] = drawn(4000) == 0 ? 256 : drawn(1u << people);
            while (i % 4 && need[j] < 256 && __builtin_popcount(need[j]) < 2);
        for (size_t j = 0; j < bars; j++)
            bar[j] = drawn(2) == 0 ? 1 : drawn(1u << people);
        take(base);
    }
    for (size_t i = 0; i < sizeof by_lists / sizeof *by_lists; i++)
        printf("| `%s`, of %zu policies, %zu of them accepted | %zu to %zu |\n", by_lists[i].name, policies, accepted, by_lists[i].least, by_lists[i].most);
}

int main(void) {
    for (unsigned set = 0; set < 256; set++)
        if (__builtin_popcount(set) == 5)
            required[sets++] = (uint16_t)set;
    for (size_t holder = 1; holder <= 8; holder++)
        piled += 512 * titmeadow_deal(8, required, sets, required, 0, 7, 2026, holder, secret, 16, randomness, 16 * 69, pile + piled, sizeof pile - piled).a;
    for (size_t holder = 1; holder <= 8; holder++)
        key_piled += 512 * titmeadow_deal_key(8, required, sets, required, 0, 7, 2026, holder, key, 16, randomness, 10 * 69, key_pile + key_piled,
                                              sizeof key_pile - key_piled).a;
    for (size_t holder = 1; holder <= 8; holder++)
        sets_piled += 512 * titmeadow_deal_by_sets(8, required, sets, required, 0, 7, 2026, holder, secret, 16, randomness, 16 * ANY_FIVE,
                                                   sets_pile + sets_piled, sizeof sets_pile - sets_piled).a;
    titmeadow_plan(8, required, sets, required, 0, groups);
    mark(8, 70);
    struct { const char *name; void (*f)(void); } calls[] = {
        {"titmeadow_plan", plan}, {"titmeadow_judge", judge}, {"titmeadow_deal", deal}, {"titmeadow_deal_by_sets", deal_by_sets},
        {"titmeadow_join", join}, {"titmeadow_join_by_differences", join_by_differences}, {"titmeadow_join_by_weights", join_by_weights},
        {"titmeadow_open", open}, {"titmeadow_salvage", salvage}, {"titmeadow_pack", pack}, {"titmeadow_unpack", unpack},
        {"titmeadow_deal_key", deal_key}, {"titmeadow_join_key", join_key}, {"titmeadow_add", add},
        {"titmeadow_desk_open", desk_open}, {"titmeadow_desk_hand_in", desk_hand_in}, {"titmeadow_desk_ask", desk_ask}, {"titmeadow_desk_close", desk_close}};
    titmeadow_desk_open(&desk, 1, 7, 8, 70, 16, 2026);
    for (size_t at = 0; at < piled; at += 512)
        titmeadow_desk_hand_in(&desk, 1, pile + at, 512);
    if (titmeadow_desk_ask(&desk, 1, words, 16).a != 16)
        printf("the desk has not all pieces\n");
    size_t base = used(nothing);
    for (size_t i = 0; i < sizeof calls / sizeof *calls; i++) {
        size_t bytes = used(calls[i].f) - base;
        printf("| `%s` | %zu |\n", calls[i].name, bytes);
    }
    printf("| `titmeadow_join`, by sets | %zu |\n", used(join_sets) - base);
    printf("| `titmeadow_join_by_differences`, by sets | %zu |\n", used(join_sets_by_differences) - base);
    printf("| `titmeadow_join_by_weights`, by sets | %zu |\n", used(join_sets_by_weights) - base);
    over_k("titmeadow_join", join_few, base);
    over_k("titmeadow_join_by_differences", join_few_by_differences, base);
    over_k("titmeadow_join_by_weights", join_few_by_weights, base);
    over_k("titmeadow_desk_hand_in", few_hand_in, base);
    over_k("titmeadow_desk_ask", few_ask, base);
    over_lists(base);
    return 0;
}
