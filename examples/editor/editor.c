/* An editor in small: reads the set-up and the batches of a replay script, keeps a panel, and prints the page that a translator sees after each batch.
   Lines of other commands are passed over. README.md has the command. */
#include "geysertray.h"
#include <inttypes.h>
#include <stdio.h>
#include <stdlib.h>
#include <string.h>

enum { LINE_BYTES = 131072 };

static geysertray_panel panel;
static uint64_t id, limits[4];
static uint8_t set[LINE_BYTES / 2];

/* ---- the page */

static void print_value(const geysertray_value *value)
{
    if (value->kind == GEYSERTRAY_TEXT)
        printf("%.*s\n", (int)value->text_length, (const char *)value->text);
    else if (value->kind == GEYSERTRAY_QUAD)
        printf("%c\n", "NFTS"[value->quad]);
    else if (value->kind == GEYSERTRAY_SIGNED)
        printf("%" PRId64 "\n", value->signed_number);
    else
        printf("%" PRIu64 "\n", value->unsigned_number);
}

static void print_bindings(void)
{
    size_t i;
    for (i = 0; i < panel.pair_count; i++) {
        uint64_t node = panel.pairs[2 * i], slot = panel.pairs[2 * i + 1];
        geysertray_value value = geysertray_panel_binding(&panel, node, (uint32_t)slot);
        if (value.found) {
            printf("  node %" PRIu64 ", slot %" PRIu64 ": ", node, slot);
            print_value(&value);
        }
    }
}

static void print_nodes(void)
{
    static const char *const states[] = {"Available", "Unavailable", "Hidden", "Pending", "Stale"};
    size_t i;
    for (i = 0; i < panel.node_count; i++) {
        geysertray_availability told = geysertray_panel_node(&panel, panel.nodes[i]);
        if (told.found)
            printf("  node %" PRIu64 " is %s\n", panel.nodes[i], states[told.availability]);
    }
}

static void print_collection(uint64_t collection)
{
    uint64_t count = geysertray_panel_length(&panel, collection).count, i;
    printf("  collection %" PRIu64 " has %" PRIu64 "\n", collection, count);
    for (i = 0; i < count; i++) {
        geysertray_entry entry = geysertray_panel_entry_at(&panel, collection, i);
        printf("%5" PRIu64 ". [%" PRIu64 "] ", i + 1, entry.key);
        print_value(&entry.value);
    }
}

static void print_page(void)
{
    size_t i;
    print_bindings();
    print_nodes();
    for (i = 0; i < panel.collection_count; i++)
        print_collection(panel.collections[i]);
}

/* ---- the script */

/* The decimal numbers behind a word, up to so many; where the next field begins. */
static char *read_numbers(char *at, uint64_t *numbers, int count)
{
    int i;
    for (i = 0; i < count; i++)
        numbers[i] = strtoull(at, &at, 10);
    return at;
}

static size_t read_set(const char *hex)
{
    size_t count = 0;
    unsigned byte;
    while (count < sizeof set && sscanf(hex + 2 * count, "%2x", &byte) == 1)
        set[count++] = (uint8_t)byte;
    return count;
}

static void keep_anchor(uint64_t *anchors, size_t *count, char *rest, int numbers)
{
    if (*count < GEYSERTRAY_ANCHORS)
        read_numbers(rest, anchors + numbers * (*count)++, numbers);
}

static void set_up(char *rest)
{
    rest = read_numbers(rest, &id, 1);
    read_numbers(rest, limits, 4);
    panel.node_count = panel.pair_count = panel.collection_count = 0;
}

static void open_panel(void)
{
    uint64_t refusal = geysertray_open(&panel, id, limits[0], limits[1], limits[2], limits[3]);
    if (refusal) {
        printf("no panel: rule %" PRIu64 "\n", refusal);
        exit(1);
    }
}

static void take_batch(char *rest)
{
    uint64_t told[5];
    char *hex = read_numbers(rest, told, 5);
    size_t count = read_set(hex + strspn(hex, " "));
    geysertray_answer answer = geysertray_send(&panel, told[0], told[1], told[2], told[3], told[4], set, count, 1);
    if (answer.disposition == GEYSERTRAY_REJECTED)
        printf("batch %" PRIu64 ": refused by rule %" PRIu64 "\n", told[1], answer.number);
    else
        printf("batch %" PRIu64 ": %s\n", told[1], answer.disposition == GEYSERTRAY_APPLIED ? "taken" : "nothing to change");
    print_page();
}

static void take_step(char *rest)
{
    static const char *const words[] = {"activate", "suspend", "resume", "close", "noop"};
    uint64_t command;
    for (command = 0; command < 5; command++)
        if (strncmp(rest, words[command], strlen(words[command])) == 0)
            geysertray_step(&panel, command, strtoull(rest + strlen(words[command]), NULL, 10));
}

static void take_line(char *line)
{
    char *rest = strchr(line, ' ');
    if (rest)
        *rest++ = 0;
    else
        line[strcspn(line, "\n")] = 0, rest = line + strlen(line);
    if (strcmp(line, "session") == 0)
        set_up(rest);
    else if (strcmp(line, "node") == 0)
        keep_anchor(panel.nodes, &panel.node_count, rest, 1);
    else if (strcmp(line, "binding") == 0)
        keep_anchor(panel.pairs, &panel.pair_count, rest, 2);
    else if (strcmp(line, "collection") == 0)
        keep_anchor(panel.collections, &panel.collection_count, rest, 1);
    else if (strcmp(line, "create") == 0)
        open_panel();
    else if (strcmp(line, "apply") == 0)
        take_step(rest);
    else if (strcmp(line, "batch") == 0)
        take_batch(rest);
}

int main(void)
{
    static char line[LINE_BYTES + 2];
    while (fgets(line, sizeof line, stdin))
        if (line[0] != '#' && line[0] != '\n')
            take_line(line);
    return 0;
}
