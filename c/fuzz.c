/* A coverage-guided fuzzer of the calls, by libFuzzer; docs/EMBEDDING.md has the commands. The proved code has no counters in it. So a breakpoint is
   put at the first byte of each of its basic blocks, whose addresses GEYSERTRAY_BLOCKS lists (c/blocks.py); the first visit of a block takes its
   breakpoint away and is counted as news, which is what libFuzzer keeps an input for.

   An input is a session's life: records of a byte for what is called, and its arguments. */
#define _GNU_SOURCE
#include "geysertray.h"
#include <signal.h>
#include <stdio.h>
#include <stdlib.h>
#include <string.h>
#include <sys/mman.h>
#include <ucontext.h>

/* ---- blocks that were visited */

enum { MOST_BLOCKS = 16384, PAGE = 4096 };

__attribute__((section("__libfuzzer_extra_counters"))) static uint8_t visited[MOST_BLOCKS];
static struct { uint8_t *at, code; } blocks[MOST_BLOCKS];
static size_t block_count, visited_count;

static void visit(int signal, siginfo_t *info, void *context)
{
    greg_t *registers = ((ucontext_t *)context)->uc_mcontext.gregs;
    uint8_t *at = (uint8_t *)(registers[REG_RIP] - 1);
    size_t low = 0, high = block_count;
    (void)signal, (void)info;
    while (low < high) {
        size_t middle = (low + high) / 2;
        if (blocks[middle].at < at)
            low = middle + 1;
        else
            high = middle;
    }
    if (low == block_count || blocks[low].at != at)
        abort();
    *at = blocks[low].code;
    visited[low] = 1;
    visited_count++;
    registers[REG_RIP]--;
}

static void set_breakpoints(FILE *list)
{
    unsigned long address;
    size_t i;
    while (block_count < MOST_BLOCKS && fscanf(list, "%lx", &address) == 1)
        blocks[block_count++].at = (uint8_t *)address;
    for (i = 0; i < block_count; i++) {
        uintptr_t page = (uintptr_t)blocks[i].at / PAGE * PAGE;
        if (mprotect((void *)page, 2 * PAGE, PROT_READ | PROT_WRITE | PROT_EXEC) != 0)
            abort();
        blocks[i].code = *blocks[i].at;
    }
    for (i = 0; i < block_count; i++)
        *blocks[i].at = 0xcc;
}

static void tell_visited(void)
{
    fprintf(stderr, "%zu of %zu blocks of the proved code were visited\n", visited_count, block_count);
}

int LLVMFuzzerInitialize(int *count, char ***words)
{
    const char *name = getenv("GEYSERTRAY_BLOCKS");
    FILE *list = name ? fopen(name, "r") : NULL;
    struct sigaction action = {0};
    (void)count, (void)words;
    if (!list) {
        fprintf(stderr, "GEYSERTRAY_BLOCKS must name the list that c/blocks.py made\n");
        exit(2);
    }
    action.sa_sigaction = visit, action.sa_flags = SA_SIGINFO | SA_NODEFER;
    sigaction(SIGTRAP, &action, NULL);
    set_breakpoints(list);
    fclose(list);
    atexit(tell_visited);
    return 0;
}

/* ---- what is left of the input */

static const uint8_t *rest;
static size_t left;

static uint64_t take(int bytes)
{
    uint64_t number = 0;
    for (; bytes > 0; bytes--, number = number << 8)
        if (left)
            number |= *rest++, left--;
    return number >> 8;
}

/* A slice of the input, with its length before it. */
static const uint8_t *take_slice(size_t *length)
{
    const uint8_t *at;
    *length = take(2);
    if (*length > left)
        *length = left;
    at = rest;
    rest += *length, left -= *length;
    return at;
}

/* ---- the calls */

static geysertray_panel panel, before;
static int sound = 1;

static void must(int holds, const char *what)
{
    if (!holds) {
        fprintf(stderr, "%s\n", what);
        abort();
    }
}

/* The ids that the kit's sets name most. */
static void open_panel(void)
{
    size_t i;
    for (i = 0; i < GEYSERTRAY_ANCHORS; i++)
        panel.nodes[i] = i, panel.collections[i] = i, panel.pairs[2 * i] = i / 8, panel.pairs[2 * i + 1] = i % 8;
    panel.node_count = panel.pair_count = panel.collection_count = GEYSERTRAY_ANCHORS;
    must(geysertray_open(&panel, 1, take(1) << 8, take(1), take(1), take(1) << 4) == 0, "no panel");
}

static void batch(void)
{
    geysertray_answer answer;
    geysertray_explanation told;
    const geysertray_half *half = geysertray_current(&panel);
    uint64_t sequence = half->head[2] ? half->head[3] + 1 : 1, edition = take(1), patches = take(1), references = take(1);
    size_t length;
    const uint8_t *set = take_slice(&length);
    told = geysertray_panel_explain(&panel, 1, sequence, patches, length, references, set, length, edition);
    before = panel;
    answer = geysertray_send(&panel, 1, sequence, patches, length, references, set, length, edition);
    if (answer.disposition != GEYSERTRAY_APPLIED)
        must(memcmp(&panel, &before, sizeof panel) == 0, "a refused batch wrote something");
    if (sound)
        must(told.number == answer.number, "the rule has another number than the batch's answer");
}

static geysertray_half spare;

/* Up to nine batches, whose sets come behind their numbers. A group that is not taken leaves the session; one that is leaves what the batches leave singly. */
static void group(void)
{
    static uint64_t numbers[9 * GEYSERTRAY_BATCH_NUMBERS];
    const geysertray_half *half = geysertray_current(&panel);
    uint64_t count = take(1) % 10, sequence = half->head[2] ? half->head[3] + 1 : 1, *told = numbers;
    geysertray_group_answer answer;
    size_t length;
    const uint8_t *sets;
    for (; told < numbers + count * GEYSERTRAY_BATCH_NUMBERS; told += GEYSERTRAY_BATCH_NUMBERS) {
        told[0] = 1, told[1] = sequence, told[5] = take(1), told[2] = take(1), told[4] = take(1), told[3] = told[6] = take(2);
        sequence += told[2] != 0;
    }
    sets = take_slice(&length);
    before = panel;
    answer = geysertray_send_group(&panel, &spare, numbers, count * GEYSERTRAY_BATCH_NUMBERS, sets, length);
    for (told = numbers; sound && told < numbers + answer.count * GEYSERTRAY_BATCH_NUMBERS; sets += told[6], told += GEYSERTRAY_BATCH_NUMBERS)
        must(geysertray_send(&before, told[0], told[1], told[2], told[3], told[4], sets, told[6], told[5]).disposition < GEYSERTRAY_REJECTED, "a batch is refused singly");
    if (sound || answer.answer.disposition >= GEYSERTRAY_REJECTED)
        must(memcmp(geysertray_current(&panel), geysertray_current(&before), sizeof spare) == 0, "a group left another session");
}

static uint64_t turns[GEYSERTRAY_TURNS_NUMBERS];

/* A sender that is named waited, and waits no more; what is refused leaves the turns. */
static void take_turns(void)
{
    uint64_t what = take(1), number = take(1), had[GEYSERTRAY_TURNS_NUMBERS];
    geysertray_turn turn;
    memcpy(had, turns, sizeof turns);
    if (what % 4 == 0)
        must(geysertray_turns_set_up(turns, number) == 0 || memcmp(had, turns, sizeof turns) == 0, "a refused set-up wrote something");
    else if (what % 4 < 3)
        must(geysertray_turns_register(turns, number) == 0 || memcmp(had, turns, sizeof turns) == 0, "a refused sender wrote something");
    else {
        turn = geysertray_panel_turn(&panel, turns);
        must(turn.named ? had[1 + turn.sender] == 1 && turns[1 + turn.sender] == 0 : memcmp(had, turns, sizeof turns) == 0, "a sender was named that did not wait");
    }
}

static void step(void)
{
    geysertray_lifecycle answer;
    before = panel;
    answer = geysertray_step(&panel, take(1), take(1));
    if (answer.disposition != GEYSERTRAY_APPLIED)
        must(memcmp(&panel, &before, sizeof panel) == 0, "a refused step wrote something");
}

static uint8_t out[GEYSERTRAY_LISTING_BYTES], again[GEYSERTRAY_LISTING_BYTES];
static uint64_t words[2 * GEYSERTRAY_DEPENDS_KEYS];

/* A set that converts goes back to the same bytes, and a term list becomes a set without findings. */
static void on_bytes(void)
{
    uint64_t edition = take(1), room = take(2);
    size_t length;
    const uint8_t *set = take_slice(&length);
    geysertray_count made = geysertray_convert(set, length, edition, out, room % (GEYSERTRAY_SET_BYTES + 1));
    if (made.disposition == GEYSERTRAY_ANSWERED) {
        geysertray_count back = geysertray_convert(out, made.count, 3 - edition, again, sizeof again);
        must(back.disposition == GEYSERTRAY_ANSWERED && back.count == length && memcmp(again, set, length) == 0, "converted there and back it is another set");
    }
    geysertray_check(set, length, edition, words, room % (2 * GEYSERTRAY_DEPENDS_KEYS + 1));
    geysertray_depends(set, length, edition, words, room % (2 * GEYSERTRAY_DEPENDS_KEYS + 1));
    geysertray_set_listing(set, length, edition, out, sizeof out);
    made = geysertray_import_terms(set, length, edition, 9, 1, 1, 1, 0, 0, 0, 1, 1, 1, out, room % (GEYSERTRAY_SET_BYTES + 1));
    if (made.disposition == GEYSERTRAY_ANSWERED)
        must(geysertray_check(out, made.count, edition, words, 2 * GEYSERTRAY_DEPENDS_KEYS).logical == 0, "a term list became a set with findings");
}

static void look(void)
{
    uint64_t collection = take(1), key = take(1), position = take(1), keys[3] = {key, position, key};
    geysertray_count count = geysertray_panel_count(&panel, collection), length = geysertray_panel_length(&panel, collection);
    geysertray_panel_binding(&panel, collection, (uint32_t)key);
    geysertray_panel_node(&panel, key);
    geysertray_panel_entry(&panel, collection, key);
    geysertray_panel_entry_at(&panel, collection, position);
    geysertray_panel_print(&panel, collection, out, sizeof out);
    if (geysertray_panel_page(&panel, collection, keys, 3, out, sizeof out).disposition == GEYSERTRAY_ANSWERED)
        geysertray_page_row(out);
    geysertray_panel_listing(&panel, out, sizeof out);
    if (sound)
        must(count.count == length.count, "a collection's count is not its length");
}

/* Wrong bytes in the session, which stay to its end. */
static void spoil(void)
{
    geysertray_half *half = geysertray_current(&panel);
    size_t at = take(2), length;
    const uint8_t *bytes = take_slice(&length);
    if (length > sizeof *half - at % sizeof *half)
        length = sizeof *half - at % sizeof *half;
    memcpy((uint8_t *)half + at % sizeof *half, bytes, length);
    sound = 0;
}

static void (*const calls[])(void) = {batch, step, on_bytes, look, spoil, take_turns, group};

int LLVMFuzzerTestOneInput(const uint8_t *data, size_t size)
{
    rest = data, left = size, sound = 1;
    memset(&panel, 0, sizeof panel);
    memset(turns, 0, sizeof turns);
    memset(&spare, 0, sizeof spare);
    open_panel();
    while (left)
        calls[take(1) % (sizeof calls / sizeof *calls)]();
    return 0;
}
