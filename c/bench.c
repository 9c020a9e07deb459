/* Batches of a panel through the C calls, many times. The input is that of the proved benchmark program: a letter, a space, how often in decimal, a
   line end, and three sets, each after its length as a u32: one that fills the panel, one that is applied to it and one that takes it back. Prints
   how many batches were applied.

   cc -std=c11 -O2 -Wall -Wextra -Wpedantic -Iinclude c/bench.c crates/c_exports_c/out/libc_exports_c.a -o bench_lent */
#include "geysertray.h"
#include <stdio.h>
#include <stdlib.h>

enum { NODES = 64, COLLECTIONS = 4, SET_PATCHES = 64, SET_OPERATIONS = 3120, HEADING = 31, INPUT = 1 << 17 };

typedef struct {
    const uint8_t *bytes;
    size_t size;
    uint64_t patches, operations;
} patch_set;

static geysertray_panel panel;
static uint64_t number = 1;
static uint8_t input[INPUT];

static uint32_t u32_at(const uint8_t *at)
{
    return at[0] | (uint32_t)at[1] << 8 | (uint32_t)at[2] << 16 | (uint32_t)at[3] << 24;
}

/* One batch; a set that is applied takes the next number. */
static geysertray_answer send(const patch_set *set)
{
    geysertray_answer answer = geysertray_send(&panel, 1, number, set->patches, 1, set->operations, set->bytes, set->size, 1);
    if (answer.disposition == GEYSERTRAY_APPLIED)
        number++;
    return answer;
}

/* The set at a position of the input, with the position behind it. */
static patch_set cut(size_t *at, size_t end)
{
    patch_set set = {input, 0, 0, 0};
    if (end - *at < 4 || end - *at - 4 < u32_at(input + *at) || u32_at(input + *at) < HEADING + 4) {
        fprintf(stderr, "a set is cut short\n");
        exit(1);
    }
    set.bytes = input + *at + 4;
    set.size = u32_at(input + *at);
    set.patches = u32_at(set.bytes + HEADING);
    *at += 4 + set.size;
    return set;
}

/* Sends a set for the first time: its operations are as many as the call takes. */
static void count_and_send(patch_set *set)
{
    geysertray_answer answer = send(set);
    while (answer.number == GEYSERTRAY_COUNTS_DIFFER && set->operations < SET_OPERATIONS) {
        set->operations++;
        answer = send(set);
    }
    if (answer.disposition != GEYSERTRAY_APPLIED && answer.disposition != GEYSERTRAY_NO_CHANGE) {
        fprintf(stderr, "refused by %d\n", (int)answer.number);
        exit(1);
    }
}

int main(void)
{
    size_t end = fread(input, 1, INPUT, stdin), at = 2;
    uint64_t times = 0, applied = 0, i;
    patch_set fill, forth, back;

    while (at < end && input[at] >= '0' && input[at] <= '9')
        times = 10 * times + (uint64_t)(input[at++] - '0');
    at++;
    fill = cut(&at, end), forth = cut(&at, end), back = cut(&at, end);

    panel.node_count = panel.pair_count = NODES, panel.collection_count = COLLECTIONS;
    for (i = 0; i < NODES; i++)
        panel.nodes[i] = panel.pairs[2 * i] = i + 1, panel.pairs[2 * i + 1] = 1;
    for (i = 0; i < COLLECTIONS; i++)
        panel.collections[i] = i + 1;
    if (geysertray_open(&panel, 1, 1, 1, SET_PATCHES, SET_OPERATIONS) != 0)
        return 1;

    count_and_send(&fill), count_and_send(&forth), count_and_send(&back);
    for (i = 0; i < times; i++) {
        applied += send(&forth).disposition == GEYSERTRAY_APPLIED;
        applied += send(&back).disposition == GEYSERTRAY_APPLIED;
    }
    printf("%llu\n", (unsigned long long)applied);
    return 0;
}
