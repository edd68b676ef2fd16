/* The library behind a pipe, for machines that cannot link it: bench/src/unit/served.rs asks, on standard input, and gets an answer, on
 * standard output. A question is which call it is, its numbers, its lists and what it lends to be written; the answer is its three
 * numbers, and then what was lent. Sizes count bytes. Both ends are little-endian. */
#include <stdio.h>
#include <stdlib.h>
#include "titmeadow.h"

enum { NUMBERS = 6, LISTS = 4 };

/* what is lent has as many bytes as are read, and no more */
struct list {
    uint64_t size;
    void *at;
};

static void get(void *at, size_t size) {
    if (fread(at, 1, size, stdin) != size)
        exit(0);
}

static struct list get_list(void) {
    struct list list;
    get(&list.size, sizeof list.size);
    list.at = malloc(list.size ? list.size : 1);
    if (!list.at)
        exit(1);
    get(list.at, list.size);
    return list;
}

/* the calls that have a key */
static titmeadow_answer answer_key(uint64_t call, const uint64_t *n, const struct list *l, struct list out) {
    switch (call) {
    case 6:
        return titmeadow_pack(l[0].at, l[0].size, out.at);
    case 7:
        return titmeadow_unpack(l[0].at, l[0].size / 2, out.at, out.size);
    case 8:
        return titmeadow_deal_key(n[0], l[0].at, l[0].size / 2, l[1].at, l[1].size / 2, n[1], n[2], n[3], l[2].at, l[2].size, l[3].at,
                                  l[3].size / 2, out.at, out.size);
    case 9:
        return titmeadow_join_key(l[0].at, l[0].size, out.at, out.size);
    }
    exit(1);
}

/* the calls at a desk, which is what is lent; words that are lent lie behind it */
static titmeadow_answer answer_desk(uint64_t call, const uint64_t *n, const struct list *l, struct list out) {
    titmeadow_desk *desk = out.at;
    switch (call) {
    case 12:
        return titmeadow_desk_open(desk, n[0], n[1], n[2], n[3], n[4], n[5]);
    case 13:
        return titmeadow_desk_hand_in(desk, n[0], l[0].at, l[0].size);
    case 14:
        return titmeadow_desk_ask(desk, n[0], (uint16_t *)(desk + 1), (out.size - sizeof *desk) / 2);
    case 15:
        return titmeadow_desk_close(desk, n[0]);
    }
    return answer_key(call, n, l, out);
}

static titmeadow_answer answer(uint64_t call, const uint64_t *n, const struct list *l, struct list out) {
    switch (call) {
    case 1:
        return titmeadow_plan(n[0], l[0].at, l[0].size / 2, l[1].at, l[1].size / 2, out.at);
    case 2:
        return titmeadow_deal(n[0], l[0].at, l[0].size / 2, l[1].at, l[1].size / 2, n[1], n[2], n[3], l[2].at, l[2].size / 2, l[3].at,
                              l[3].size / 2, out.at, out.size);
    case 3:
        return titmeadow_join(l[0].at, l[0].size, out.at, out.size / 2);
    case 4:
        return titmeadow_open(l[0].at, l[0].size, out.at);
    case 5:
        return titmeadow_join_by_differences(l[0].at, l[0].size, out.at, out.size / 2);
    case 10: /* the list, of n[0] numbers, and the pile behind it */
        return titmeadow_salvage((uint8_t *)out.at + 2 * n[0], out.size - 2 * n[0], out.at, n[0]);
    case 11:
        return titmeadow_add(l[0].at, l[0].size, l[1].at, l[1].size, n[0], n[1], out.at, out.size);
    case 16:
        return titmeadow_deal_by_sets(n[0], l[0].at, l[0].size / 2, l[1].at, l[1].size / 2, n[1], n[2], n[3], l[2].at, l[2].size / 2, l[3].at,
                                      l[3].size / 2, out.at, out.size);
    case 20:
        return titmeadow_judge(n[0], l[0].at, l[0].size / 2, l[1].at, l[1].size / 2, n[1], n[2], n[3], l[2].at, l[2].size);
    case 21:
        return titmeadow_join_by_weights(l[0].at, l[0].size, out.at, out.size / 2);
    }
    return answer_desk(call, n, l, out);
}

int main(void) {
    for (;;) {
        uint64_t call, numbers[NUMBERS];
        struct list lists[LISTS], out;
        get(&call, sizeof call);
        get(numbers, sizeof numbers);
        for (size_t i = 0; i < LISTS; i++)
            lists[i] = get_list();
        out = get_list();
        titmeadow_answer said = answer(call, numbers, lists, out);
        fwrite(&said, sizeof said, 1, stdout);
        fwrite(out.at, 1, out.size, stdout);
        fflush(stdout);
        for (size_t i = 0; i < LISTS; i++)
            free(lists[i].at);
        free(out.at);
    }
}
