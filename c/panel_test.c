/* A panel in C: creation, a batch that is applied, batches that are refused and leave every byte, a step; what the panel then holds; and the calls on
   bytes. Each line that fails is told, and the status is 1.

   cc -std=c11 -Wall -Wextra -Wpedantic -Iinclude c/panel_test.c crates/c_exports_c/out/libc_exports_c.a -o panel_test */
#include "geysertray.h"
#include <stdio.h>
#include <string.h>

static int failures;

static void expect(int holds, const char *what, int line)
{
    if (!holds) {
        printf("line %d: %s\n", line, what);
        failures++;
    }
}
#define EXPECT(condition) expect((condition), #condition, __LINE__)

/* ---- sets, put together from document 01's 'Canonical bytes' */

static uint8_t *put(uint8_t *at, uint64_t number, int bytes)
{
    int i;
    for (i = 0; i < bytes; i++)
        *at++ = (uint8_t)(number >> (8 * i));
    return at;
}

static uint8_t *put_heading(uint8_t *at, uint64_t patches)
{
    at = put(at, 27, 4);
    memcpy(at, "UI_DNA2_PROJECTION_PATCH_V1", 27);
    return put(at + 27, patches, 4);
}

static uint8_t *put_patch(uint8_t *at, uint64_t id, uint64_t sequence, uint64_t operations)
{
    at = put(put(put(at, id, 8), 1, 8), 1, 8);       /* id, stream, document */
    at = put(at, 0, 1);                              /* no surface */
    at = put(put(put(put(at, id - 1, 8), id, 8), 1, 8), sequence, 8); /* revisions, epoch, sequence */
    return put(at, operations, 4);
}

static uint8_t *put_insert(uint8_t *at, uint64_t collection, uint64_t key, uint64_t before_key)
{
    at = put(put(put(at, 3, 1), collection, 8), key, 8);
    return before_key ? put(put(at, 1, 1), before_key, 8) : put(at, 0, 1);
}

static size_t insert_set(uint8_t *out, uint64_t id, uint64_t collection, uint64_t key, uint64_t value)
{
    uint8_t *at = put_insert(put_patch(put_heading(out, 1), id, id, 1), collection, key, 0);
    return (size_t)(put(put(at, 4, 1), value, 8) - out); /* unsigned */
}

/* document 01's 'Listing': Pending for node 5; in collection 9 insert key 2 as -4, then key 1 before 2 as text Ok; binding 5, 0 as T */
static size_t listing_set(uint8_t *out)
{
    uint8_t *at = put_patch(put_heading(out, 1), 1, 1, 4);
    at = put(put(put(at, 2, 1), 5, 8), 3, 1);
    at = put(put(put_insert(at, 9, 2, 0), 2, 1), (uint64_t)-4, 8);
    at = put(put(put_insert(at, 9, 1, 2), 3, 1), 2, 4);
    memcpy(at, "Ok", 2);
    at = put(put(put(at + 2, 1, 1), 5, 8), 0, 4);
    return (size_t)(put(put(at, 1, 1), 2, 1) - out);
}

static const char listed[] = "P\t4\nB\t5\t0\tQ\t2\nA\t5\t3\nC\t9\t1\tT\tOk\nC\t9\t2\tS\t-4\n";

static geysertray_panel panel, before;
static uint64_t many[129];
static uint8_t output[GEYSERTRAY_LISTING_BYTES];

/* whether the bytes of the output from an index on are as they were lent: each 0x5a */
static int kept_from(size_t from)
{
    size_t i;
    for (i = from; i < sizeof output; i++)
        if (output[i] != 0x5a)
            return 0;
    return 1;
}

static int counted(geysertray_count answer, uint64_t count)
{
    return answer.disposition == GEYSERTRAY_ANSWERED && answer.number == 0 && answer.count == count;
}

static int refused(geysertray_count answer, uint64_t number)
{
    return answer.disposition == GEYSERTRAY_REJECTED && answer.number == number && answer.count == 0 && kept_from(0);
}

static void test_session(void)
{
    uint8_t set[256];
    size_t size = insert_set(set, 1, 9, 7, 42);
    geysertray_answer answer;
    geysertray_lifecycle step;
    geysertray_half *half;

    panel.node_count = 1, panel.nodes[0] = 5;
    panel.pair_count = 1, panel.pairs[0] = 5, panel.pairs[1] = 0;
    panel.collection_count = 1, panel.collections[0] = 9;
    EXPECT(geysertray_open(&panel, 4711, 4096, 8, 4, 16) == 0);

    /* Created takes batches; an Uninitialized cursor takes any number */
    answer = geysertray_send(&panel, 4711, 3, 1, 1, 1, set, size, 1);
    EXPECT(answer.disposition == GEYSERTRAY_APPLIED && answer.has_cursor == 1 && answer.cursor == 3);
    EXPECT(panel.current == 1);
    EXPECT(geysertray_current(&panel)->head[10] == 1);

    /* a refusal leaves every byte of both halves */
    before = panel;
    answer = geysertray_send(&panel, 4711, 4, 1, 1, 1, set, size, 1);
    EXPECT(answer.disposition == GEYSERTRAY_REJECTED && answer.number == GEYSERTRAY_KEY_RULE && answer.stage == 8);
    EXPECT(memcmp(&panel, &before, sizeof panel) == 0);
    answer = geysertray_send(&panel, 1, 4, 1, 1, 1, set, size, 1);
    EXPECT(answer.number == GEYSERTRAY_SESSION_MISMATCH);
    answer = geysertray_send(&panel, 4711, 4, 1, 1, 1, set, size - 1, 1);
    EXPECT(answer.number == GEYSERTRAY_MALFORMED);
    answer = geysertray_send(&panel, 4711, 4, 1, 1, 1, set, size, 2);
    EXPECT(answer.number == GEYSERTRAY_MALFORMED);
    answer = geysertray_send(&panel, 4711, 4, 1, 1, 1, set, size, 3);
    EXPECT(answer.disposition == GEYSERTRAY_NO_SUCH);
    EXPECT(memcmp(&panel, &before, sizeof panel) == 0);

    /* counts over a capacity are not believed */
    panel.halves[1].head[10] = 129;
    answer = geysertray_send(&panel, 4711, 4, 1, 1, 1, set, size, 1);
    EXPECT(answer.disposition == GEYSERTRAY_NO_SESSION);
    panel = before;

    size = insert_set(set, 2, 9, 8, 43);
    answer = geysertray_send(&panel, 4711, 4, 1, 1, 1, set, size, 1);
    EXPECT(answer.disposition == GEYSERTRAY_APPLIED && answer.cursor == 4 && panel.current == 0);
    EXPECT(geysertray_current(&panel)->head[10] == 2);

    step = geysertray_step(&panel, GEYSERTRAY_ACTIVATE, 16);
    EXPECT(step.disposition == GEYSERTRAY_APPLIED && step.lifecycle == GEYSERTRAY_ACTIVE && step.cursor == 4);
    step = geysertray_step(&panel, GEYSERTRAY_RESUME, 16);
    EXPECT(step.disposition == GEYSERTRAY_REJECTED && step.number == GEYSERTRAY_INVALID_LIFECYCLE);
    step = geysertray_step(&panel, 5, 16);
    EXPECT(step.disposition == GEYSERTRAY_NO_SUCH);
    step = geysertray_step(&panel, GEYSERTRAY_CLOSE, 16);
    EXPECT(step.lifecycle == GEYSERTRAY_CLOSED);
    answer = geysertray_send(&panel, 4711, 5, 0, 1, 0, set, size, 1);
    EXPECT(answer.number == GEYSERTRAY_SESSION_CLOSED);

    /* 129 anchors of a kind; and numbers of bindings that are no pairs */
    before = panel;
    half = &panel.halves[0];
    EXPECT(geysertray_create(1, 0, 0, 0, 0, many, 129, many, 0, many, 0, half->head, half->bindings, half->availability, half->entries, half->lengths) == GEYSERTRAY_TOO_MANY_ANCHORS);
    EXPECT(geysertray_create(1, 0, 0, 0, 0, many, 0, many, 3, many, 0, half->head, half->bindings, half->availability, half->entries, half->lengths) == GEYSERTRAY_NO_SESSION);
    EXPECT(memcmp(&panel, &before, sizeof panel) == 0);
}

/* ---- what a panel holds */

static void open_listed(void)
{
    uint8_t set[256];
    size_t size = listing_set(set);
    EXPECT(size == 181);
    panel.node_count = 1, panel.nodes[0] = 5;
    panel.pair_count = 1, panel.pairs[0] = 5, panel.pairs[1] = 0;
    panel.collection_count = 1, panel.collections[0] = 9;
    EXPECT(geysertray_open(&panel, 7, 4096, 8, 4, 16) == 0);
    EXPECT(geysertray_send(&panel, 7, 1, 1, size, 4, set, size, 1).disposition == GEYSERTRAY_APPLIED);
}

static void test_lookups(void)
{
    geysertray_value value = geysertray_panel_binding(&panel, 5, 0);
    geysertray_availability node = geysertray_panel_node(&panel, 5);
    geysertray_entry entry;
    size_t i;
    EXPECT(value.disposition == GEYSERTRAY_ANSWERED && value.found == 1 && value.mark == 1 && value.kind == GEYSERTRAY_QUAD && value.quad == GEYSERTRAY_QUAD_T);
    EXPECT(geysertray_panel_binding(&panel, 5, 1).found == 0);
    EXPECT(node.found == 1 && node.mark == 1 && node.availability == GEYSERTRAY_PENDING);
    EXPECT(geysertray_panel_node(&panel, 6).found == 0);
    value = geysertray_panel_entry(&panel, 9, 2);
    EXPECT(value.kind == GEYSERTRAY_SIGNED && value.signed_number == -4 && value.unsigned_number == 0);
    value = geysertray_panel_entry(&panel, 9, 1);
    EXPECT(value.kind == GEYSERTRAY_TEXT && value.text_length == 2 && memcmp(value.text, "Ok", 2) == 0);
    for (i = 2; i < GEYSERTRAY_TEXT_BYTES; i++)
        EXPECT(value.text[i] == 0);
    value = geysertray_panel_entry(&panel, 9, 3);
    EXPECT(value.disposition == GEYSERTRAY_ANSWERED && value.found == 0 && value.kind == 0);
    entry = geysertray_panel_entry_at(&panel, 9, 1);
    EXPECT(entry.key == 2 && entry.value.found == 1 && entry.value.signed_number == -4);
    EXPECT(geysertray_panel_entry_at(&panel, 9, 2).value.found == 0);
    EXPECT(counted(geysertray_panel_count(&panel, 9), 2) && counted(geysertray_panel_length(&panel, 9), 2));
    EXPECT(counted(geysertray_panel_count(&panel, 8), 0) && counted(geysertray_panel_length(&panel, 8), 0));
}

static void test_page(void)
{
    const uint64_t keys[] = {2, 7, 1, 2};
    geysertray_page_place place;
    memset(output, 0x5a, sizeof output);
    EXPECT(refused(geysertray_panel_page(&panel, 9, keys, 4, output, 4 * GEYSERTRAY_PAGE_WIDTH - 1), GEYSERTRAY_OUTPUT_TOO_SHORT));
    EXPECT(refused(geysertray_panel_page(&panel, 9, many, 65, output, sizeof output), GEYSERTRAY_TOO_MANY_KEYS));
    EXPECT(counted(geysertray_panel_page(&panel, 9, keys, 4, output, sizeof output), 4) && kept_from(4 * GEYSERTRAY_PAGE_WIDTH));
    place = geysertray_page_row(output);
    EXPECT(place.position == 1 && place.value.found == 1 && place.value.mark == 1 && place.value.signed_number == -4);
    EXPECT(geysertray_page_row(output + GEYSERTRAY_PAGE_WIDTH).value.found == 0);
    place = geysertray_page_row(output + 2 * GEYSERTRAY_PAGE_WIDTH);
    EXPECT(place.position == 0 && place.value.kind == GEYSERTRAY_TEXT && place.value.text_length == 2);
    EXPECT(memcmp(output, output + 3 * GEYSERTRAY_PAGE_WIDTH, GEYSERTRAY_PAGE_WIDTH) == 0);
}

static void test_text(void)
{
    char printed[256];
    size_t size = strlen(listed);
    memset(output, 0x5a, sizeof output);
    EXPECT(refused(geysertray_panel_listing(&panel, output, size - 1), GEYSERTRAY_OUTPUT_TOO_SHORT));
    EXPECT(counted(geysertray_panel_listing(&panel, output, sizeof output), size));
    EXPECT(memcmp(output, listed, size) == 0 && kept_from(size));
    /* document 02, Job 10: key in 20, two spaces, 58 characters, newline */
    snprintf(printed, sizeof printed, "%20d  %-58s\n%20d  %-58s\n", 1, "Ok", 2, "-4");
    memset(output, 0x5a, sizeof output);
    EXPECT(refused(geysertray_panel_print(&panel, 9, output, 161), GEYSERTRAY_OUTPUT_TOO_SHORT));
    EXPECT(counted(geysertray_panel_print(&panel, 9, output, sizeof output), 162));
    EXPECT(memcmp(output, printed, 162) == 0 && kept_from(162));
}

/* counts over a capacity are no session, for every call that reads */
static void test_no_session(void)
{
    geysertray_half *half = geysertray_current(&panel);
    half->head[8] = half->head[9] = half->head[10] = 1000;
    memset(output, 0x5a, sizeof output);
    EXPECT(geysertray_panel_binding(&panel, 5, 0).disposition == GEYSERTRAY_NO_SESSION);
    EXPECT(geysertray_panel_node(&panel, 5).disposition == GEYSERTRAY_NO_SESSION);
    EXPECT(geysertray_panel_entry(&panel, 9, 1).disposition == GEYSERTRAY_NO_SESSION);
    EXPECT(geysertray_panel_entry_at(&panel, 9, 0).value.disposition == GEYSERTRAY_NO_SESSION);
    EXPECT(geysertray_panel_count(&panel, 9).disposition == GEYSERTRAY_NO_SESSION);
    EXPECT(geysertray_panel_length(&panel, 9).disposition == GEYSERTRAY_NO_SESSION);
    EXPECT(geysertray_panel_page(&panel, 9, many, 1, output, sizeof output).disposition == GEYSERTRAY_NO_SESSION);
    EXPECT(geysertray_panel_print(&panel, 9, output, sizeof output).disposition == GEYSERTRAY_NO_SESSION);
    EXPECT(geysertray_panel_listing(&panel, output, sizeof output).disposition == GEYSERTRAY_NO_SESSION);
    EXPECT(kept_from(0));
}

/* ---- calls on bytes */

static void test_check(void)
{
    uint8_t set[512], *at = put_heading(set, 3);
    uint64_t findings[8];
    geysertray_checked answer;
    int i;
    memset(findings, 0x5a, sizeof findings);
    /* document 01: three patches alike, id 7, sequence 3: kinds 4 and 5, each (7, 3), once */
    for (i = 0; i < 3; i++)
        at = put(put(put_insert(put_patch(at, 7, 3, 1), 9, 1, 0), 4, 1), 1, 8);
    answer = geysertray_check(set, (size_t)(at - set), 1, findings, 8);
    EXPECT(answer.disposition == GEYSERTRAY_ANSWERED && answer.in_patch == 0 && answer.logical == 2 && answer.written == 2);
    EXPECT(findings[0] == GEYSERTRAY_FOUND_DUPLICATE_ID && findings[1] == 7 && findings[2] == 3);
    EXPECT(findings[3] == GEYSERTRAY_FOUND_DUPLICATE_SEQUENCE && findings[4] == 7 && findings[5] == 3 && findings[6] == findings[7]);
    answer = geysertray_check(set, (size_t)(at - set), 1, findings, 5);
    EXPECT(answer.logical == 2 && answer.written == 1);
    /* a patch without operations: kind 6, in the patch */
    at = put_patch(put_heading(set, 1), 7, 3, 0);
    answer = geysertray_check(set, (size_t)(at - set), 1, findings, 8);
    EXPECT(answer.in_patch == 1 && answer.patch == 0 && answer.logical == 1 && findings[0] == GEYSERTRAY_FOUND_NO_OPERATIONS);
    answer = geysertray_check(set, 3, 1, findings, 8);
    EXPECT(answer.disposition == GEYSERTRAY_REJECTED && answer.number == GEYSERTRAY_MALFORMED);
    answer = geysertray_check(set, 3, 0, findings, 8);
    EXPECT(answer.disposition == GEYSERTRAY_NO_SUCH && answer.number == 0);
}

static void test_import(void)
{
    static const char list[] = "1\tOk\n", twice[] = "1\tOk\n1\tOk\n";
    uint8_t set[256], *at = put_insert(put_patch(put_heading(set, 1), 4, 4, 1), 9, 1, 0);
    size_t size;
    at = put(put(at, 3, 1), 2, 4);
    memcpy(at, "Ok", 2);
    size = (size_t)(at + 2 - set);
    memset(output, 0x5a, sizeof output);
    EXPECT(refused(geysertray_import_terms((const uint8_t *)list, 4, 1, 9, 4, 1, 1, 0, 0, 3, 4, 1, 4, output, size - 1), GEYSERTRAY_OUTPUT_TOO_SHORT));
    EXPECT(refused(geysertray_import_terms((const uint8_t *)list, 1, 1, 9, 4, 1, 1, 0, 0, 3, 4, 1, 4, output, sizeof output), GEYSERTRAY_OTHER_FORM));
    EXPECT(refused(geysertray_import_terms((const uint8_t *)twice, 10, 1, 9, 4, 1, 1, 0, 0, 3, 4, 1, 4, output, sizeof output), GEYSERTRAY_CHECKS_FAILED));
    EXPECT(geysertray_import_terms((const uint8_t *)list, 5, 3, 9, 4, 1, 1, 0, 0, 3, 4, 1, 4, output, sizeof output).disposition == GEYSERTRAY_NO_SUCH && kept_from(0));
    EXPECT(counted(geysertray_import_terms((const uint8_t *)list, 5, 1, 9, 4, 1, 1, 0, 77, 3, 4, 1, 4, output, sizeof output), size));
    EXPECT(memcmp(output, set, size) == 0 && kept_from(size));
    /* a surface takes eight bytes more: the byte 1 and the number in place of the byte 0 */
    EXPECT(counted(geysertray_import_terms((const uint8_t *)list, 5, 1, 9, 4, 1, 1, 1, 77, 3, 4, 1, 4, output, sizeof output), size + 8));
    EXPECT(output[59] == 1 && output[60] == 77);
}

static void test_depends(void)
{
    uint8_t set[256], *at = put_insert(put_patch(put_heading(set, 1), 1, 1, 1), 9, 7, 6);
    uint64_t keys[5] = {5, 5, 5, 5, 5};
    geysertray_dependencies answer;
    at = put(put(at, 4, 1), 1, 8);
    /* document 02, Job 8: the neighbour must be there, the key absent */
    answer = geysertray_depends(set, (size_t)(at - set), 1, keys, 3);
    EXPECT(answer.disposition == GEYSERTRAY_REJECTED && answer.number == GEYSERTRAY_OUTPUT_TOO_SHORT && keys[0] == 5);
    answer = geysertray_depends(set, (size_t)(at - set), 1, keys, 5);
    EXPECT(answer.disposition == GEYSERTRAY_ANSWERED && answer.never == 0 && answer.held == 1 && answer.lacked == 1);
    EXPECT(keys[0] == 9 && keys[1] == 6 && keys[2] == 9 && keys[3] == 7 && keys[4] == 5);
    /* removing a key and then updating it */
    at = put(put(put(put_patch(put_heading(set, 1), 1, 1, 2), 5, 1), 9, 8), 7, 8);
    at = put(put(put(put(put(at, 4, 1), 9, 8), 7, 8), 4, 1), 1, 8);
    answer = geysertray_depends(set, (size_t)(at - set), 1, keys, 0);
    EXPECT(answer.disposition == GEYSERTRAY_ANSWERED && answer.never == 1 && answer.patch == 0 && answer.operation == 1);
    EXPECT(geysertray_depends(set, 9, 1, keys, 5).number == GEYSERTRAY_MALFORMED);
    EXPECT(geysertray_depends(set, 9, 7, keys, 5).disposition == GEYSERTRAY_NO_SUCH);
}

static void test_editions(void)
{
    uint8_t set[256], back[256];
    size_t size = listing_set(set), lines = strlen(listed);
    memset(output, 0x5a, sizeof output);
    EXPECT(refused(geysertray_convert(set, size, 1, output, size - 1), GEYSERTRAY_OUTPUT_TOO_SHORT));
    EXPECT(refused(geysertray_convert(set, size, 2, output, sizeof output), GEYSERTRAY_MALFORMED));
    EXPECT(geysertray_convert(set, size, 3, output, sizeof output).disposition == GEYSERTRAY_NO_SUCH);
    EXPECT(counted(geysertray_convert(set, size, 1, output, sizeof output), size) && kept_from(size));
    EXPECT(output[30] == '2' && memcmp(output, set, 30) == 0 && memcmp(output + 31, set + 31, size - 31) == 0);
    EXPECT(counted(geysertray_convert(output, size, 2, back, sizeof back), size) && memcmp(back, set, size) == 0);
    /* a score of 100 in place of the quad: the other edition lacks it */
    memcpy(set, output, size);
    set[size - 2] = 5, set[size - 1] = 100;
    memset(output, 0x5a, sizeof output);
    EXPECT(refused(geysertray_convert(set, size, 2, output, sizeof output), GEYSERTRAY_KIND_MISSING));
    EXPECT(counted(geysertray_set_listing(back, size, 1, output, sizeof output), lines) && memcmp(output, listed, lines) == 0 && kept_from(lines));
    memset(output, 0x5a, sizeof output);
    EXPECT(refused(geysertray_set_listing(back, size, 1, output, lines - 1), GEYSERTRAY_OUTPUT_TOO_SHORT));
    EXPECT(geysertray_set_listing(back, size, 0, output, sizeof output).disposition == GEYSERTRAY_NO_SUCH);
    EXPECT(counted(geysertray_set_listing(back, size, 2, output, sizeof output), 5) && memcmp(output, "E\t10\n", 5) == 0);
}

/* ---- the rule behind a refusal */

static void test_explain(void)
{
    uint8_t set[256];
    size_t size = listing_set(set);
    geysertray_explanation told;
    geysertray_panel before;
    open_listed();
    before = panel;
    told = geysertray_panel_explain(&panel, 7, 2, 1, 0, 4, set, size, 1);
    EXPECT(told.disposition == GEYSERTRAY_REJECTED && told.number == GEYSERTRAY_KEY_RULE && told.rule == GEYSERTRAY_RULE_KEY_PRESENT);
    EXPECT(told.place.has_patch == 1 && told.place.patch == 0 && told.place.has_operation == 1 && told.place.operation == 1 && told.figures.count == 0);
    told = geysertray_panel_explain(&panel, 8, 2, 1, 0, 4, set, size, 1);
    EXPECT(told.rule == GEYSERTRAY_RULE_FOREIGN_SESSION && told.figures.count == 2 && told.figures.first == 8 && told.figures.second == 7);
    EXPECT(told.place.has_patch == 0 && strcmp(geysertray_rule_name(told.rule), "foreign-session") == 0);
    told = geysertray_panel_explain(&panel, 7, 2, 1, 0, 4, set, 10, 1);
    EXPECT(told.number == GEYSERTRAY_MALFORMED && told.rule == GEYSERTRAY_RULE_TOO_FEW_BYTES && told.figures.count == 1 && told.figures.first == 10);
    EXPECT(geysertray_panel_explain(&panel, 7, 2, 1, 0, 4, set, size, 3).disposition == GEYSERTRAY_NO_SUCH);
    EXPECT(memcmp(&panel, &before, sizeof panel) == 0);
    EXPECT(geysertray_open(&panel, 7, 4096, 8, 4, 16) == 0);
    EXPECT(geysertray_panel_explain(&panel, 7, 1, 1, 0, 4, set, size, 1).disposition == GEYSERTRAY_ANSWERED);
    panel.halves[0].head[10] = 129;
    EXPECT(geysertray_panel_explain(&panel, 7, 1, 1, 0, 4, set, size, 1).disposition == GEYSERTRAY_NO_SESSION);
    EXPECT(geysertray_rule_name(0)[0] == 0 && geysertray_rule_name(32)[0] == 0);
}

/* document 02, Job 14: in a circle after the one last named, at the start from sender 0 on */
static void test_turns(void)
{
    uint64_t turns[GEYSERTRAY_TURNS_NUMBERS] = {0}, kept[GEYSERTRAY_TURNS_NUMBERS];
    geysertray_turn turn;
    EXPECT(geysertray_turns_set_up(turns, 0) == GEYSERTRAY_WRONG_SENDER_COUNT && geysertray_turns_set_up(turns, 9) == GEYSERTRAY_WRONG_SENDER_COUNT);
    EXPECT(turns[0] == 0 && geysertray_turns_set_up(turns, 3) == 0 && turns[0] == 3);
    EXPECT(geysertray_turns_next(turns, 0, 0).named == 0);
    EXPECT(geysertray_turns_register(turns, 3) == GEYSERTRAY_UNKNOWN_SENDER);
    EXPECT(geysertray_turns_register(turns, 0) == 0 && geysertray_turns_register(turns, 2) == 0);
    memcpy(kept, turns, sizeof turns);
    EXPECT(geysertray_turns_register(turns, 2) == GEYSERTRAY_ALREADY_WAITING && memcmp(kept, turns, sizeof turns) == 0);
    turn = geysertray_turns_next(turns, 0, 0);
    EXPECT(turn.named == 1 && turn.sender == 0 && turn.number == 1);
    EXPECT(geysertray_turns_register(turns, 0) == 0);
    turn = geysertray_turns_next(turns, 1, 41);
    EXPECT(turn.named == 1 && turn.sender == 2 && turn.number == 42);
    turn = geysertray_turns_next(turns, 1, UINT64_MAX);
    EXPECT(turn.named == 1 && turn.sender == 0 && turn.number == UINT64_MAX);
    memcpy(kept, turns, sizeof turns);
    EXPECT(geysertray_panel_turn(&panel, turns).named == 0 && memcmp(kept, turns, sizeof turns) == 0);
}

int main(void)
{
    EXPECT(geysertray_version() == 1000000);
    test_session();
    open_listed();
    test_lookups();
    test_page();
    test_text();
    test_no_session();
    test_check();
    test_import();
    test_depends();
    test_editions();
    test_turns();
    test_explain();
    printf(failures ? "%d failed\n" : "a panel in C: ok\n", failures);
    return failures != 0;
}
