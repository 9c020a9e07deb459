/* Random calls: random_test [SEED [CALLS]], 1 and a million where none are told. Each slice that is lent ends or begins at a page that may not be
   touched, so that a byte read or written beside it ends the program; the bytes on its other side, every byte of what a call only reads, and after a
   refusal every byte that it might have written are compared. Some sessions are rubbish, and so are some sets.

   cc -std=c11 -Wall -Wextra -Wpedantic -fsanitize=address,undefined -Ibuild/include c/random_test.c build/libgeysertray.a -o build/random_test */
#define _DEFAULT_SOURCE
#include "geysertray.h"
#include <inttypes.h>
#include <stdio.h>
#include <stdlib.h>
#include <string.h>
#include <sys/mman.h>

/* ---- chance */

static uint64_t seed;

static uint64_t chance(uint64_t past)
{
    uint64_t mixed = (seed += 0x9e3779b97f4a7c15u);
    mixed = (mixed ^ (mixed >> 30)) * 0xbf58476d1ce4e5b9u;
    mixed = (mixed ^ (mixed >> 27)) * 0x94d049bb133111ebu;
    return (mixed ^ (mixed >> 31)) % past;
}

/* mostly a small id, sometimes any number */
static uint64_t number(void)
{
    return chance(40) ? chance(5) : chance(UINT64_MAX);
}

/* ---- slices between pages that may not be touched */

enum { HEAD, BINDINGS, AVAILABILITY, ENTRIES, LENGTHS, TO_HEAD, TO_BINDINGS, TO_AVAILABILITY, TO_ENTRIES, TO_LENGTHS };
enum { SPARE_HEAD = TO_LENGTHS + 1, SPARE_BINDINGS, SPARE_AVAILABILITY, SPARE_ENTRIES, SPARE_LENGTHS, NODES, PAIRS, COLLECTIONS, NUMBERS, SET, OUT, TURNS, PLAN_BINDINGS, PLAN_AVAILABILITY, PLAN_ENTRIES, FENCES };
enum { PAGE = 4096, ROOM = 32 * PAGE, GUARD = 0xa5 };

static struct fence {
    uint8_t *pages, *at, before[ROOM];
    size_t size;
} fences[FENCES];
static unsigned lent;
static uint64_t faults;

static void build_fences(void)
{
    int i;
    for (i = 0; i < FENCES; i++) {
        uint8_t *all = mmap(NULL, ROOM + 2 * PAGE, PROT_NONE, MAP_PRIVATE | MAP_ANONYMOUS, -1, 0);
        if (all == MAP_FAILED || mprotect(all + PAGE, ROOM, PROT_READ | PROT_WRITE) != 0)
            exit(2);
        fences[i].pages = all + PAGE;
    }
}

/* The memory of a slice with this content, at one of its fences. */
static void *lend(int which, const void *content, size_t size)
{
    struct fence *fence = &fences[which];
    int at_end = (int)chance(2);
    size_t used = (size + PAGE - 1) / PAGE * PAGE;
    fence->at = at_end ? fence->pages + ROOM - size : fence->pages;
    memset(at_end ? fence->pages + ROOM - used : fence->pages, GUARD, used);
    if (size)
        memcpy(fence->at, content, size);
    memcpy(fence->before, fence->at, size);
    fence->size = size;
    lent |= 1u << which;
    return fence->at;
}

static int guarded(const struct fence *fence)
{
    size_t used = (fence->size + PAGE - 1) / PAGE * PAGE, i;
    const uint8_t *from = fence->at == fence->pages ? fence->at + fence->size : fence->pages + ROOM - used;
    for (i = 0; i < used - fence->size; i++)
        if (from[i] != GUARD)
            return 0;
    return 1;
}

/* What must hold of every slice after a call, of which only these may have changed. */
static void look_at_slices(unsigned may_change, const char *call)
{
    int i;
    for (i = 0; i < FENCES; i++) {
        const struct fence *fence = &fences[i];
        if (!(lent >> i & 1))
            continue;
        if (!guarded(fence) || (!(may_change >> i & 1) && memcmp(fence->at, fence->before, fence->size) != 0)) {
            printf("%s: slice %d was written\n", call, i);
            faults++;
        }
    }
    lent = 0;
}

/* ---- sets: a few patches of a few operations; then perhaps some wrong bytes */

static geysertray_panel panel;
static uint8_t set[4 * PAGE], *set_end;
static uint64_t set_patches, set_operations, set_edition, last_patch;

static void put(uint64_t value, int bytes)
{
    for (; bytes > 0; bytes--, value >>= 8)
        *set_end++ = (uint8_t)value;
}

static void put_value(void)
{
    static const char text[] = "Before start-up \xce\xb1\xce\xb2 check\t";
    uint64_t kind = 1 + chance(set_edition == 2 ? 5 : 4), length = chance(sizeof text);
    put(kind, 1);
    if (kind == 3) {
        put(length, 4);
        memcpy(set_end, text, length);
        set_end += length;
    } else
        put(kind == 1 ? chance(4) : kind == 5 ? chance(101) : number(), kind == 2 || kind == 4 ? 8 : 1);
}

/* A key of the collection: mostly one that the panel holds. */
static uint64_t held_key(uint64_t collection)
{
    uint64_t count = geysertray_panel_count(&panel, collection).count;
    if (count == 0 || chance(20) == 0)
        return number();
    return geysertray_panel_entry_at(&panel, collection, (size_t)chance(count)).key;
}

static void put_before(uint64_t collection)
{
    uint64_t there = chance(2);
    put(there, 1);
    if (there)
        put(held_key(collection), 8);
}

static void put_operation(void)
{
    static const uint8_t kinds[] = {1, 2, 3, 3, 3, 4, 5, 6};
    uint64_t kind = kinds[chance(sizeof kinds)], target = number();
    put(kind, 1);
    put(target, 8);
    if (kind == 2) {
        put(chance(5), 1);
        return;
    }
    if (kind == 1)
        put(chance(3), 4);
    else
        put(kind == 3 && chance(20) ? chance(UINT64_MAX) : held_key(target), 8);
    if (kind == 3 || kind == 6)
        put_before(target);
    if (kind != 5 && kind != 6)
        put_value();
}

static void put_patch(uint64_t at)
{
    uint64_t operations = 1 + chance(4), i;
    put(at + 1, 8), put(1, 8), put(1, 8), put(0, 1);
    put(at, 8), put(at + 1, 8), put(1, 8), put(at + 1, 8);
    put(operations, 4);
    for (i = 0; i < operations; i++)
        put_operation();
    set_operations += operations;
}

static void random_set(void)
{
    uint64_t i;
    set_end = set, set_edition = 1 + chance(2), set_patches = chance(4), set_operations = 0;
    put(27, 4);
    memcpy(set_end, set_edition == 1 ? "UI_DNA2_PROJECTION_PATCH_V1" : "UI_DNA2_PROJECTION_PATCH_V2", 27);
    set_end += 27;
    put(set_patches, 4);
    for (i = 0; i < set_patches; i++)
        put_patch(last_patch++);
    if (chance(4) == 0)
        for (i = chance(4); i < 4; i++)
            set[chance((uint64_t)(set_end - set))] = (uint8_t)chance(256);
    if (chance(10) == 0)
        set_end -= chance((uint64_t)(set_end - set));
}

static uint8_t *lend_set(void)
{
    random_set();
    return lend(SET, set, (size_t)(set_end - set));
}

#define SET_COUNT ((size_t)(set_end - set))

/* ---- sessions: the one that has come to be, sometimes with wrong bytes */

static geysertray_half half, spare;

static void spoil(void *memory, size_t size)
{
    uint64_t i;
    for (i = chance(6); i > 0; i--)
        ((uint8_t *)memory)[chance(size)] = (uint8_t)chance(256);
}

/* Lends one half from this fence on. */
static void lend_half(int from, const geysertray_half *content)
{
    lend(from + HEAD, content->head, sizeof content->head);
    lend(from + BINDINGS, content->bindings, sizeof content->bindings);
    lend(from + AVAILABILITY, content->availability, sizeof content->availability);
    lend(from + ENTRIES, content->entries, sizeof content->entries);
    lend(from + LENGTHS, content->lengths, sizeof content->lengths);
}

static void lend_session(void)
{
    half = panel.halves[panel.current];
    if (chance(20) == 0)
        spoil(half.head, sizeof half.head);
    if (chance(20) == 0)
        spoil(half.entries, sizeof half.entries), spoil(half.bindings, sizeof half.bindings), spoil(half.lengths, sizeof half.lengths);
    lend_half(HEAD, &half);
}

/* A plan's memory is given back as it was lent, whatever stands in the slices. */
static void lend_plan(void)
{
    lend(PLAN_BINDINGS, panel.plan.bindings, sizeof panel.plan.bindings);
    lend(PLAN_AVAILABILITY, panel.plan.availability, sizeof panel.plan.availability);
    lend(PLAN_ENTRIES, panel.plan.entries, sizeof panel.plan.entries);
}

static void lend_anchors(size_t node_count, size_t pair_numbers, size_t collection_count)
{
    lend(NODES, panel.nodes, node_count * 8);
    lend(PAIRS, panel.pairs, pair_numbers * 8);
    lend(COLLECTIONS, panel.collections, collection_count * 8);
}

#define AT64(which) ((uint64_t *)(void *)fences[which].at)
#define AT8(which) (fences[which].at)
#define HALF_BITS 0x1fu

static void keep_half(int from, geysertray_half *to)
{
    memcpy(to->head, AT8(from + HEAD), sizeof to->head);
    memcpy(to->bindings, AT8(from + BINDINGS), sizeof to->bindings);
    memcpy(to->availability, AT8(from + AVAILABILITY), sizeof to->availability);
    memcpy(to->entries, AT8(from + ENTRIES), sizeof to->entries);
    memcpy(to->lengths, AT8(from + LENGTHS), sizeof to->lengths);
}

/* ---- the calls */

/* The ids that sets name most are anchors, others sometimes; 129 of a kind, or an odd count of numbers of bindings, are refused and change nothing. */
static void random_anchors(void)
{
    size_t i;
    for (i = 0; i < GEYSERTRAY_ANCHORS; i++) {
        panel.nodes[i] = i < 5 ? i : number(), panel.collections[i] = i < 5 ? i : number();
        panel.pairs[2 * i] = i < 15 ? i % 5 : number(), panel.pairs[2 * i + 1] = i < 15 ? i / 5 : chance(9);
    }
    panel.node_count = 5 + chance(124), panel.pair_count = 15 + chance(114), panel.collection_count = 5 + chance(124);
}

static void create(void)
{
    uint64_t answer, i;
    random_anchors();
    for (i = 0; i < 2; i++) {
        lend_anchors(panel.node_count * 1, 2 * panel.pair_count, panel.collection_count);
        lend_half(HEAD, &panel.halves[i]);
        answer = geysertray_create(
            4711, UINT64_MAX, chance(10), 3 + chance(2), 18, AT64(NODES), panel.node_count, AT64(PAIRS), 2 * panel.pair_count, AT64(COLLECTIONS),
            panel.collection_count, AT64(HEAD), AT8(BINDINGS), AT8(AVAILABILITY), AT8(ENTRIES), AT8(LENGTHS));
        keep_half(HEAD, &panel.halves[i]);
        look_at_slices(answer == 0 ? HALF_BITS : 0, "create");
    }
    panel.current = 0;
}

static void create_refused(void)
{
    static uint64_t many[2 * GEYSERTRAY_ANCHORS + 2];
    size_t counts[3] = {chance(3), 2 * chance(3), chance(3)}, kind = chance(4);
    uint64_t answer;
    counts[kind % 3] = kind == 3 ? chance(3) : kind == 1 ? 2 * GEYSERTRAY_ANCHORS + 1 + chance(2) : GEYSERTRAY_ANCHORS + 1;
    counts[1] |= kind == 3;
    lend(NODES, many, 8 * counts[0]), lend(PAIRS, many, 8 * counts[1]), lend(COLLECTIONS, many, 8 * counts[2]);
    lend_session();
    answer = geysertray_create(
        number(), number(), number(), number(), number(), AT64(NODES), counts[0], AT64(PAIRS), counts[1], AT64(COLLECTIONS), counts[2], AT64(HEAD),
        AT8(BINDINGS), AT8(AVAILABILITY), AT8(ENTRIES), AT8(LENGTHS));
    if (answer != GEYSERTRAY_NO_SESSION && answer != GEYSERTRAY_TOO_MANY_ANCHORS)
        faults++, printf("create: %" PRIu64 " for too many anchors\n", answer);
    look_at_slices(0, "create_refused");
}

static void step(void)
{
    geysertray_lifecycle answer;
    uint64_t command = chance(50) ? chance(3) : chance(20) ? 4 : number();
    lend_session();
    answer = geysertray_lifecycle_step(AT64(HEAD), command, number());
    if (memcmp(fences[HEAD].before, panel.halves[panel.current].head, sizeof half.head) == 0)
        memcpy(panel.halves[panel.current].head, AT8(HEAD), sizeof half.head);
    look_at_slices(answer.disposition == GEYSERTRAY_APPLIED ? 1u << HEAD : 0, "lifecycle_step");
}

static uint64_t applied_batches;

/* The rule of a batch has the number that the batch is answered with, and there is one just where the batch is rejected. */
static void same_number(geysertray_explanation told, geysertray_answer answer)
{
    uint64_t expected = answer.disposition == GEYSERTRAY_NO_CHANGE ? GEYSERTRAY_ANSWERED : answer.disposition;
    if (told.disposition != expected || told.number != answer.number)
        faults++, printf("explain: %" PRIu64 " for a batch with %" PRIu64 "\n", told.number, answer.number);
}

static void batch(void)
{
    geysertray_answer answer;
    geysertray_explanation told;
    int sound;
    uint8_t *bytes = lend_set();
    uint64_t edition = chance(30) ? set_edition : number(), sequence, id, patches, stimulus, references;
    lend_session();
    lend_half(TO_HEAD, &panel.halves[1 - panel.current]);
    lend_plan();
    lend_anchors(panel.node_count, 2 * panel.pair_count, panel.collection_count);
    sound = memcmp(&half, &panel.halves[panel.current], sizeof half) == 0;
    sequence = chance(30) ? (half.head[2] ? half.head[3] + 1 : 1) : number();
    id = chance(30) ? half.head[0] : number(), patches = chance(30) ? set_patches : number(), stimulus = number();
    references = chance(30) ? set_operations : number();
    told = geysertray_explain(
        AT64(HEAD), AT64(NODES), panel.node_count, AT64(PAIRS), 2 * panel.pair_count, AT64(COLLECTIONS), panel.collection_count, AT8(BINDINGS),
        AT8(AVAILABILITY), AT8(ENTRIES), id, sequence, patches, stimulus, references, bytes, SET_COUNT, edition);
    answer = geysertray_batch(
        AT64(HEAD), AT64(NODES), panel.node_count, AT64(PAIRS), 2 * panel.pair_count, AT64(COLLECTIONS), panel.collection_count, AT8(BINDINGS),
        AT8(AVAILABILITY), AT8(ENTRIES), id, sequence, patches, stimulus, references, bytes, SET_COUNT, edition, AT64(TO_HEAD), AT8(TO_BINDINGS),
        AT8(TO_AVAILABILITY), AT8(TO_ENTRIES), AT8(TO_LENGTHS), AT8(PLAN_BINDINGS), AT8(PLAN_AVAILABILITY), AT8(PLAN_ENTRIES));
    if (sound)
        same_number(told, answer);
    if (answer.disposition == GEYSERTRAY_APPLIED && sound) {
        panel.current = 1 - panel.current;
        keep_half(TO_HEAD, &panel.halves[panel.current]);
        applied_batches++;
    }
    look_at_slices(answer.disposition == GEYSERTRAY_APPLIED ? HALF_BITS << TO_HEAD : 0, "batch");
}

/* Turns that have come to be, sometimes with wrong numbers. A sender that is named waited, and waits no more. */
static void take_turns(void)
{
    static uint64_t turns[GEYSERTRAY_TURNS_NUMBERS];
    uint64_t *lent_turns, refusal, kind = chance(8);
    int sound = chance(20) != 0;
    geysertray_turn turn = {0, 0, 0, 0};
    lent_turns = lend(TURNS, turns, sizeof turns);
    if (!sound)
        spoil(lent_turns, sizeof turns), memcpy(fences[TURNS].before, lent_turns, sizeof turns);
    if (kind == 0)
        refusal = geysertray_turns_set_up(lent_turns, chance(11));
    else if (kind < 5)
        refusal = geysertray_turns_register(lent_turns, chance(10));
    else {
        turn = geysertray_turns_next(lent_turns, chance(2), number());
        refusal = !turn.named;
        if (sound && turn.named && (turn.sender >= turns[0] || turns[1 + turn.sender] != 1 || lent_turns[1 + turn.sender] != 0))
            faults++, printf("turns: sender %" PRIu64 " was named\n", turn.sender);
    }
    if (sound)
        memcpy(turns, lent_turns, sizeof turns);
    look_at_slices(refusal ? 0 : 1u << TURNS, "turns");
}

/* A group of so many random sets: its numbers and its bytes, of which mostly all are true. */
static uint64_t batch_numbers[9 * GEYSERTRAY_BATCH_NUMBERS];
static uint8_t sets[ROOM];
static size_t sets_count;

static void random_group(uint64_t count)
{
    uint64_t sequence = half.head[2] ? half.head[3] + 1 : 1, i;
    sets_count = 0;
    for (i = 0; i < count; i++) {
        uint64_t *told = &batch_numbers[i * GEYSERTRAY_BATCH_NUMBERS];
        random_set();
        if (sets_count + SET_COUNT > sizeof sets)
            set_end = set;
        memcpy(sets + sets_count, set, SET_COUNT);
        sets_count += SET_COUNT;
        told[0] = chance(50) ? half.head[0] : number(), told[1] = chance(50) ? sequence : number(), told[2] = chance(50) ? set_patches : number(), told[3] = number();
        told[4] = chance(50) ? set_operations : number(), told[5] = chance(50) ? set_edition : number(), told[6] = chance(50) ? SET_COUNT : number();
        sequence += set_patches != 0;
    }
}

static uint64_t taken_groups;

static void group(void)
{
    geysertray_group_answer told;
    uint64_t count = chance(10) ? 1 + chance(3) : chance(10);
    size_t numbers = count * GEYSERTRAY_BATCH_NUMBERS - (count && chance(40) == 0);
    int sound, nothing;
    lend_session();
    random_group(count);
    lend_half(TO_HEAD, &panel.halves[1 - panel.current]), lend_half(SPARE_HEAD, &spare);
    lend_anchors(panel.node_count, 2 * panel.pair_count, panel.collection_count);
    lend(NUMBERS, batch_numbers, 8 * numbers), lend(SET, sets, sets_count);
    sound = memcmp(&half, &panel.halves[panel.current], sizeof half) == 0;
    told = geysertray_group(
        AT64(HEAD), AT64(NODES), panel.node_count, AT64(PAIRS), 2 * panel.pair_count, AT64(COLLECTIONS), panel.collection_count, AT8(BINDINGS), AT8(AVAILABILITY),
        AT8(ENTRIES), AT64(NUMBERS), numbers, AT8(SET), sets_count, AT64(TO_HEAD), AT8(TO_BINDINGS), AT8(TO_AVAILABILITY), AT8(TO_ENTRIES), AT8(TO_LENGTHS),
        AT64(SPARE_HEAD), AT8(SPARE_BINDINGS), AT8(SPARE_AVAILABILITY), AT8(SPARE_ENTRIES), AT8(SPARE_LENGTHS));
    nothing = told.answer.disposition > GEYSERTRAY_REJECTED || told.answer.number == GEYSERTRAY_NOT_A_GROUP;
    if (sound && !nothing) {
        keep_half(told.half == GEYSERTRAY_SECOND_HALF ? SPARE_HEAD : TO_HEAD, &panel.halves[1 - panel.current]);
        keep_half(told.half == GEYSERTRAY_SECOND_HALF ? TO_HEAD : SPARE_HEAD, &spare);
        panel.current = told.half == GEYSERTRAY_OWN_HALF ? panel.current : 1 - panel.current;
        taken_groups += told.count != 0;
    }
    look_at_slices(nothing ? 0 : HALF_BITS << TO_HEAD | HALF_BITS << SPARE_HEAD, "group");
}

static void look_up(void)
{
    uint64_t collection = number(), key = held_key(collection);
    geysertray_value value;
    lend_session();
    switch (chance(6)) {
    case 0: value = geysertray_binding_value(AT64(HEAD), AT8(BINDINGS), number(), (uint32_t)chance(3)); break;
    case 1: value = geysertray_entry_value(AT64(HEAD), AT8(ENTRIES), collection, key); break;
    case 2: value = geysertray_entry_at(AT64(HEAD), AT8(ENTRIES), collection, (size_t)number()).value; break;
    case 3: value.disposition = geysertray_node_availability(AT64(HEAD), AT8(AVAILABILITY), number()).disposition; break;
    case 4: value.disposition = geysertray_entry_count(AT64(HEAD), AT8(ENTRIES), collection).disposition; break;
    default: value.disposition = geysertray_collection_length(AT64(HEAD), AT8(LENGTHS), collection).disposition; break;
    }
    if (value.disposition != GEYSERTRAY_ANSWERED && value.disposition != GEYSERTRAY_NO_SESSION)
        faults++, printf("a look-up: disposition %" PRIu64 "\n", value.disposition);
    look_at_slices(0, "look_up");
}

static uint8_t filling[ROOM];

/* Room for an answer, mostly enough, sometimes none. */
static size_t lend_out(size_t enough, size_t width)
{
    size_t size = (chance(3) ? enough : chance(enough)) / width * width;
    lend(OUT, filling, size);
    return size / width;
}

/* Whether what stands behind the answer's bytes stayed, too. */
static void look_at_out(geysertray_count answer, uint64_t width, const char *call)
{
    uint64_t bytes = answer.count * width;
    if (bytes > fences[OUT].size || memcmp(AT8(OUT) + bytes, fences[OUT].before + bytes, fences[OUT].size - bytes) != 0)
        faults++, printf("%s: more than its answer was written\n", call);
    look_at_slices(answer.disposition == GEYSERTRAY_ANSWERED ? 1u << OUT : 0, call);
}

static void list_panel(void)
{
    size_t room;
    lend_session();
    room = lend_out(GEYSERTRAY_LISTING_BYTES, 1);
    look_at_out(geysertray_listing(AT64(HEAD), AT8(BINDINGS), AT8(AVAILABILITY), AT8(ENTRIES), AT8(OUT), room), 1, "listing");
}

static void print_collection(void)
{
    size_t room;
    lend_session();
    room = lend_out(GEYSERTRAY_PRINT_BYTES, 1);
    look_at_out(geysertray_print_collection(AT64(HEAD), AT8(ENTRIES), number(), AT8(OUT), room), 1, "print_collection");
}

static void page(void)
{
    uint64_t keys[GEYSERTRAY_PAGE_KEYS + 1], collection = number();
    size_t count = chance(50) ? chance(9) : GEYSERTRAY_PAGE_KEYS + chance(2), i, room;
    for (i = 0; i < count; i++)
        keys[i] = held_key(collection);
    lend_session();
    lend(SET, keys, 8 * count);
    room = lend_out((count + chance(3)) * GEYSERTRAY_PAGE_WIDTH + 1, 1);
    look_at_out(
        geysertray_collection_page(AT64(HEAD), AT8(ENTRIES), collection, AT64(SET), count, AT8(OUT), room), GEYSERTRAY_PAGE_WIDTH, "collection_page");
}

static void on_set(void)
{
    const uint8_t *bytes = lend_set();
    uint64_t edition = chance(30) ? set_edition : number();
    size_t room;
    switch (chance(3)) {
    case 0:
        room = lend_out(GEYSERTRAY_SET_BYTES, 1);
        look_at_out(geysertray_convert(bytes, SET_COUNT, edition, AT8(OUT), room), 1, "convert");
        break;
    case 1:
        room = lend_out(GEYSERTRAY_LISTING_BYTES, 1);
        look_at_out(geysertray_set_listing(bytes, SET_COUNT, edition, AT8(OUT), room), 1, "set_listing");
        break;
    default:
        room = lend_out(GEYSERTRAY_SET_BYTES, 1);
        look_at_out(
            geysertray_import_terms(
                bytes, SET_COUNT, edition, number(), number(), number(), number(), chance(2), number(), number(), number(), number(), number(), AT8(OUT), room),
            1, "import_terms");
    }
}

/* Lines of a term list, some of another form. */
static void import(void)
{
    static const char line[] = "12\tSuction valve\n";
    size_t count = chance(140), i, room;
    char list[140 * sizeof line];
    for (i = 0; i < count; i++)
        memcpy(list + i * (sizeof line - 1), line, sizeof line - 1), list[i * (sizeof line - 1)] = (char)(chance(400) ? '1' + chance(9) : chance(256));
    lend(SET, list, count * (sizeof line - 1));
    room = lend_out(GEYSERTRAY_SET_BYTES, 1);
    look_at_out(
        geysertray_import_terms(AT8(SET), count * (sizeof line - 1), 1 + chance(2), number(), 1, 1, 1, chance(2), number(), 0, 1, 1, 1, AT8(OUT), room), 1, "import");
}

static void check_set(void)
{
    const uint8_t *bytes = lend_set();
    uint64_t edition = chance(30) ? set_edition : number();
    size_t room = lend_out(8 * GEYSERTRAY_FINDING_NUMBERS, 8);
    if (chance(2)) {
        geysertray_checked told = geysertray_check(bytes, SET_COUNT, edition, AT64(OUT), room);
        look_at_out((geysertray_count){told.disposition, told.number, 3 * told.written}, 8, "check");
    } else {
        geysertray_dependencies told = geysertray_depends(bytes, SET_COUNT, edition, AT64(OUT), room);
        look_at_out((geysertray_count){told.disposition, told.number, 2 * (told.held + told.lacked)}, 8, "depends");
    }
}

static void (*const calls[])(void) = {
    step, batch, batch, batch, batch, batch, group, group, create_refused, take_turns, look_up, look_up, list_panel, print_collection, page, on_set, import, check_set,
};

int main(int count, char **words)
{
    uint64_t all = count > 2 ? strtoull(words[2], NULL, 10) : 1000000, i;
    seed = count > 1 ? strtoull(words[1], NULL, 10) : 1;
    build_fences();
    for (i = 0; i < sizeof filling; i++)
        filling[i] = (uint8_t)chance(256);
    for (i = 0; i < all && faults == 0; i++)
        if (i % 2000 == 0)
            create();
        else
            calls[chance(sizeof calls / sizeof *calls)]();
    printf("%" PRIu64 " random calls, %" PRIu64 " batches applied, %" PRIu64 " groups taken, %" PRIu64 " faults\n", i, applied_batches, taken_groups, faults);
    return faults != 0;
}
