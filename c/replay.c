/* Answers a replay script over the calls for C. kit/README.md has the form of commands and answers, and kit/run.py runs the kit against it.

   cc -std=c11 -Wall -Wextra -Wpedantic -Ibuild/include c/replay.c build/libgeysertray.a -o build/replay */
#include "geysertray.h"
#include <inttypes.h>
#include <stdio.h>
#include <string.h>

enum { LINE_BYTES = 131072, KEPT_ANCHORS = 129, PAGE_KEYS = 128, MOST_FIELDS = 2 + PAGE_KEYS, LINE_BATCHES = 16 };

/* the set-up for the next session */
static uint64_t id, limits[4], nodes[KEPT_ANCHORS], pairs[2 * KEPT_ANCHORS], collections[KEPT_ANCHORS];
static size_t node_count, pair_count, collection_count;
/* the session, if there is one */
static geysertray_panel panel;
static geysertray_half spare;
static int has_session;
static uint64_t edition = 1;
/* the turns, if there are any */
static uint64_t turns[GEYSERTRAY_TURNS_NUMBERS];
static int has_turns;
/* the fields of a line */
static uint64_t numbers[MOST_FIELDS], has_optional;
static size_t number_count;
static uint8_t set[LINE_BYTES / 2 + 1];
static size_t set_count;
static uint8_t out[LINE_BYTES];
static uint64_t words[16384];

static const char *const dispositions[] = {"applied", "no-change", "rejected"};
static const char *const lifecycles[] = {"created", "active", "suspended", "closed"};

/* ---- lines of answers */

static void print_optional(uint64_t has, uint64_t number)
{
    if (has)
        printf("\t%" PRIu64, number);
    else
        printf("\t-");
}

static void print_answer(const geysertray_answer *answer)
{
    printf("R\t%s\t%" PRIu64 "\t%" PRIu64 "\t%" PRIu64 "\t%" PRIu64, dispositions[answer->disposition], answer->number, answer->stage, answer->logical, answer->emitted);
    print_optional(answer->has_cursor, answer->cursor);
    putchar('\n');
}

static void print_escaped(const uint8_t *text, uint64_t length)
{
    static const char plain[] = "\\\t\n\r", told[] = "\\tnr";
    uint64_t i;
    for (i = 0; i < length; i++) {
        const char *at = text[i] ? strchr(plain, text[i]) : NULL;
        if (at)
            printf("\\%c", told[at - plain]);
        else
            putchar(text[i]);
    }
}

static void print_fields(const geysertray_value *value)
{
    switch (value->kind) {
    case GEYSERTRAY_QUAD: printf("\tQ\t%" PRIu64, value->quad); break;
    case GEYSERTRAY_SIGNED: printf("\tS\t%" PRId64, value->signed_number); break;
    case GEYSERTRAY_TEXT: printf("\tT\t"), print_escaped(value->text, value->text_length); break;
    case GEYSERTRAY_UNSIGNED: printf("\tU\t%" PRIu64, value->unsigned_number); break;
    default: printf("\tM\t%" PRIu64, value->unsigned_number);
    }
    putchar('\n');
}

static void print_value(const geysertray_value *value)
{
    printf("V");
    if (value->found)
        print_fields(value);
    else
        printf("\t-\n");
}

static void print_mark(uint64_t found, uint64_t mark)
{
    if (found)
        printf("X\t%" PRIu64 "\n", mark);
    else
        printf("X\t-\n");
}

/* Whether a call was refused; then the number stands behind the letter. */
static int refused(char letter, uint64_t disposition, uint64_t number)
{
    if (disposition == GEYSERTRAY_APPLIED)
        return 0;
    printf("%c\t%" PRIu64 "\n", letter, number);
    return 1;
}

/* ---- the session */

static void set_up(void)
{
    id = numbers[0];
    memcpy(limits, numbers + 1, sizeof limits);
    node_count = pair_count = collection_count = 0;
}

static void keep_node(void)
{
    if (node_count < KEPT_ANCHORS)
        nodes[node_count++] = numbers[0];
}

static void keep_binding(void)
{
    if (pair_count < KEPT_ANCHORS) {
        pairs[2 * pair_count] = numbers[0];
        pairs[2 * pair_count++ + 1] = numbers[1];
    }
}

static void keep_collection(void)
{
    if (collection_count < KEPT_ANCHORS)
        collections[collection_count++] = numbers[0];
}

/* A panel has room for 128 anchors of a kind; more are put to the call below, which refuses them. */
static uint64_t create_panel(void)
{
    geysertray_half *half = panel.halves;
    if (node_count > GEYSERTRAY_ANCHORS || pair_count > GEYSERTRAY_ANCHORS || collection_count > GEYSERTRAY_ANCHORS)
        return geysertray_create(
            id, limits[0], limits[1], limits[2], limits[3], nodes, node_count, pairs, 2 * pair_count, collections, collection_count, half->head,
            half->bindings, half->availability, half->entries, half->lengths);
    memcpy(panel.nodes, nodes, sizeof panel.nodes);
    memcpy(panel.pairs, pairs, sizeof panel.pairs);
    memcpy(panel.collections, collections, sizeof panel.collections);
    panel.node_count = node_count, panel.pair_count = pair_count, panel.collection_count = collection_count;
    return geysertray_open(&panel, id, limits[0], limits[1], limits[2], limits[3]);
}

static void create(void)
{
    uint64_t number = create_panel();
    has_session = number == 0;
    printf("S\t%" PRIu64 "\n", number);
}

static void apply(void)
{
    geysertray_lifecycle step = geysertray_step(&panel, numbers[0], numbers[1]);
    printf("L\t%s\t%" PRIu64 "\t%" PRIu64 "\t%" PRIu64 "\t%" PRIu64 "\t%s", dispositions[step.disposition], step.number, step.stage, step.logical, step.emitted, lifecycles[step.lifecycle]);
    print_optional(step.has_cursor, step.cursor);
    printf("\t%" PRIu64 "\n", step.stimulus_bytes);
}

static void batch(void)
{
    geysertray_answer answer = geysertray_send(&panel, numbers[0], numbers[1], numbers[2], numbers[3], numbers[4], set, set_count, edition);
    print_answer(&answer);
}

/* The figures of a rule, in the order of docs/RULES.md. */
static void print_figures(const geysertray_explanation *told)
{
    const geysertray_figures *figures = &told->figures;
    const geysertray_rule_place *place = &told->place;
    const uint64_t all[] = {figures->first, figures->second, figures->third, figures->fourth};
    int reading = told->rule >= GEYSERTRAY_RULE_SET_TOO_LONG && told->rule <= GEYSERTRAY_RULE_BYTES_LEFT;
    uint64_t i;
    if (told->rule == GEYSERTRAY_RULE_FINDINGS && !place->has_patch)
        printf("\tset");
    else if (told->rule == GEYSERTRAY_RULE_FINDINGS)
        print_optional(1, place->patch);
    for (i = 0; i < figures->count; i++)
        print_optional(1, all[i]);
    if (told->rule == GEYSERTRAY_RULE_CURSOR && figures->count == 0)
        print_optional(0, 0);
    if (reading || place->has_operation) {
        print_optional(place->has_patch, place->patch);
        print_optional(place->has_operation, place->operation);
    }
}

static void explain(void)
{
    geysertray_explanation told =
        geysertray_panel_explain(&panel, numbers[0], numbers[1], numbers[2], numbers[3], numbers[4], set, set_count, edition);
    printf("W\t%" PRIu64, told.number);
    if (told.rule) {
        printf("\t%s", geysertray_rule_name(told.rule));
        print_figures(&told);
    } else if (told.disposition == GEYSERTRAY_REJECTED)
        printf("\twithheld");
    putchar('\n');
}

static void group(void)
{
    geysertray_group_answer told = geysertray_send_group(&panel, &spare, numbers, number_count, set, set_count);
    if (told.answer.number == GEYSERTRAY_NOT_A_GROUP) {
        printf("U\t%" PRIu64 "\n", told.answer.number);
    } else if (told.answer.disposition == GEYSERTRAY_REJECTED) {
        printf("U\t0\t0\t%" PRIu64 "\n", told.place);
        print_answer(&told.answer);
    } else {
        printf("U\t0\t%" PRIu64, told.count);
        print_optional(told.answer.has_cursor, told.answer.cursor);
        putchar('\n');
    }
}

static void in_edition(void)
{
    edition = numbers[0];
}

/* ---- look-ups */

static void show(void)
{
    geysertray_count told = geysertray_panel_listing(&panel, out, sizeof out);
    fwrite(out, 1, told.count, stdout);
}

static void print(void)
{
    geysertray_count told = geysertray_panel_print(&panel, numbers[0], out, numbers[1]);
    if (refused('O', told.disposition, told.number))
        return;
    printf("O\t0\t%" PRIu64 "\n", told.count);
    fwrite(out, 1, told.count, stdout);
}

static void length(void)
{
    printf("Z\t%" PRIu64 "\n", geysertray_panel_length(&panel, numbers[0]).count);
}

static void page(void)
{
    size_t room = numbers[1] * GEYSERTRAY_PAGE_WIDTH;
    geysertray_count told = geysertray_panel_page(&panel, numbers[0], numbers + 2, number_count - 2, out, room);
    uint64_t i;
    if (refused('Y', told.disposition, told.number))
        return;
    printf("Y\t0\t%" PRIu64 "\n", told.count);
    for (i = 0; i < told.count; i++) {
        geysertray_page_place place = geysertray_page_row(out + i * GEYSERTRAY_PAGE_WIDTH);
        if (place.value.found) {
            printf("M\t%" PRIu64, place.position);
            print_fields(&place.value);
        } else
            printf("M\t-\n");
    }
}

static void value_binding(void)
{
    geysertray_value value = geysertray_panel_binding(&panel, numbers[0], (uint32_t)numbers[1]);
    print_value(&value);
}

static void value_node(void)
{
    geysertray_availability found = geysertray_panel_node(&panel, numbers[0]);
    if (found.found)
        printf("V\tA\t%" PRIu64 "\n", found.availability);
    else
        printf("V\t-\n");
}

static void value_entry(void)
{
    geysertray_value value = geysertray_panel_entry(&panel, numbers[0], numbers[1]);
    print_value(&value);
}

static void mark_binding(void)
{
    geysertray_value value = geysertray_panel_binding(&panel, numbers[0], (uint32_t)numbers[1]);
    print_mark(value.found, value.mark);
}

static void mark_node(void)
{
    geysertray_availability found = geysertray_panel_node(&panel, numbers[0]);
    print_mark(found.found, found.mark);
}

static void mark_entry(void)
{
    geysertray_value value = geysertray_panel_entry(&panel, numbers[0], numbers[1]);
    print_mark(value.found, value.mark);
}

/* ---- calls on bytes */

static void check(void)
{
    geysertray_checked told = geysertray_check(set, set_count, edition, words, sizeof words / sizeof *words);
    uint64_t i;
    if (refused('K', told.disposition, told.number))
        return;
    if (told.in_patch)
        printf("K\t0\t%" PRIu64 "\t%" PRIu64 "\n", told.patch, told.logical);
    else
        printf("K\t0\tset\t%" PRIu64 "\n", told.logical);
    for (i = 0; i < told.written; i++)
        printf("F\t%" PRIu64 "\t%" PRIu64 "\t%" PRIu64 "\n", words[3 * i], words[3 * i + 1], words[3 * i + 2]);
}

static void list(void)
{
    geysertray_count told = geysertray_set_listing(set, set_count, edition, out, sizeof out);
    fwrite(out, 1, told.count, stdout);
}

/* A set that was made, behind the letter. */
static void print_set(char letter, geysertray_count told)
{
    uint64_t i;
    if (refused(letter, told.disposition, told.number))
        return;
    printf("%c\t0\t", letter);
    for (i = 0; i < told.count; i++)
        printf("%02x", out[i]);
    putchar('\n');
}

static void convert(void)
{
    print_set('T', geysertray_convert(set, set_count, edition, out, numbers[0]));
}

static void import_terms(void)
{
    const uint64_t *n = numbers;
    print_set('I', geysertray_import_terms(set, set_count, edition, n[1], n[2], n[3], n[4], has_optional, n[5], n[6], n[7], n[8], n[9], out, n[0]));
}

static void depends(void)
{
    geysertray_dependencies told = geysertray_depends(set, set_count, edition, words, numbers[0]);
    uint64_t i;
    if (refused('D', told.disposition, told.number))
        return;
    if (told.never) {
        printf("D\t0\tnever\t%" PRIu64 "\t%" PRIu64 "\n", told.patch, told.operation);
        return;
    }
    printf("D\t0\tneeds\t%" PRIu64 "\t%" PRIu64 "\n", told.held, told.lacked);
    for (i = 0; i < told.held + told.lacked; i++)
        printf("Q\t%" PRIu64 "\t%" PRIu64 "\n", words[2 * i], words[2 * i + 1]);
}

/* ---- turns */

static void senders(void)
{
    uint64_t number = geysertray_turns_set_up(turns, numbers[0]);
    has_turns = has_turns || number == 0;
    printf("J\t%" PRIu64 "\n", number);
}

static void wait_for_turn(void)
{
    if (has_turns)
        printf("J\t%" PRIu64 "\n", geysertray_turns_register(turns, numbers[0]));
    else
        printf("N\n");
}

static void turn(void)
{
    const uint64_t *head = geysertray_current(&panel)->head;
    geysertray_turn told;
    if (!has_turns) {
        printf("N\n");
        return;
    }
    told = geysertray_turns_next(turns, head[2], head[3]);
    if (told.named)
        printf("J\t%" PRIu64 "\t%" PRIu64 "\n", told.sender, told.number);
    else
        printf("J\tnone\n");
}

/* ---- one line */

/* The form has a letter for each field: n a number, s a slot, o a number or none, h bytes in hex, e an edition, a a step; c, d, p and k are rooms;
   behind * stand up to 128 numbers; g is up to 16 batches and their sets. */
static const struct command {
    const char *word, *form;
    int needs_session;
    void (*run)(void);
} commands[] = {
    {"session", "nnnnn", 0, set_up},
    {"node", "n", 0, keep_node},
    {"binding", "ns", 0, keep_binding},
    {"collection", "n", 0, keep_collection},
    {"create", "", 0, create},
    {"apply", "an", 1, apply},
    {"batch", "nnnnnh", 1, batch},
    {"explain", "nnnnnh", 1, explain},
    {"group", "g", 1, group},
    {"check", "h", 0, check},
    {"list", "h", 0, list},
    {"show", "", 1, show},
    {"value binding", "ns", 1, value_binding},
    {"value node", "n", 1, value_node},
    {"value entry", "nn", 1, value_entry},
    {"mark binding", "ns", 1, mark_binding},
    {"mark node", "n", 1, mark_node},
    {"mark entry", "nn", 1, mark_entry},
    {"edition", "e", 0, in_edition},
    {"convert", "ch", 0, convert},
    {"depends", "dh", 0, depends},
    {"print", "np", 1, print},
    {"length", "n", 1, length},
    {"senders", "n", 0, senders},
    {"wait", "n", 0, wait_for_turn},
    {"turn", "", 1, turn},
    {"page", "nk*", 1, page},
    {"import", "cnnnnonnnnh", 0, import_terms},
};

static int read_number(const char *field, size_t length, uint64_t last, uint64_t *number)
{
    size_t i;
    *number = 0;
    if (length == 0 || (length > 1 && field[0] == '0'))
        return 0;
    for (i = 0; i < length; i++) {
        uint64_t digit = (uint64_t)(field[i] - '0');
        if (field[i] < '0' || field[i] > '9' || *number > (UINT64_MAX - digit) / 10)
            return 0;
        *number = 10 * *number + digit;
    }
    return *number <= last;
}

static int read_hex(const char *field, size_t length)
{
    static const char digits[] = "0123456789abcdef";
    size_t i;
    set_count = 0;
    if (length == 1 && field[0] == '-')
        return 1;
    for (i = 0; i + 1 < length; i += 2) {
        const char *high = memchr(digits, field[i], 16), *low = memchr(digits, field[i + 1], 16);
        if (!high || !low)
            return 0;
        set[set_count++] = (uint8_t)(16 * (high - digits) + (low - digits));
    }
    return length > 0 && length % 2 == 0;
}

static int read_step(const char *field, size_t length, uint64_t *number)
{
    static const char *const steps[] = {"activate", "suspend", "resume", "close", "noop"};
    for (*number = 0; *number < 5; ++*number)
        if (strlen(steps[*number]) == length && memcmp(steps[*number], field, length) == 0)
            return 1;
    return 0;
}

static int read_field(char form, const char *field, size_t length, uint64_t *number)
{
    switch (form) {
    case 'h': return read_hex(field, length);
    case 'o': has_optional = length != 1 || *field != '-'; return !has_optional || read_number(field, length, UINT64_MAX, number);
    case 'k': return read_number(field, length, 128, number);
    case 'a': return read_step(field, length, number);
    case 'e': return read_number(field, length, 2, number) && *number > 0;
    case 's': return read_number(field, length, UINT32_MAX, number);
    case 'c': return read_number(field, length, 32768, number);
    case 'd': return read_number(field, length, 16384, number);
    case 'p': return read_number(field, length, 131072, number);
    default: return read_number(field, length, UINT64_MAX, number);
    }
}

/* A batch of a group: seven numbers with a comma between, the sixth an edition. */
static int read_member(const char *at, const char *end)
{
    size_t i;
    for (i = 0; i < GEYSERTRAY_BATCH_NUMBERS; i++) {
        const char *comma = memchr(at, ',', (size_t)(end - at)), *stop = comma ? comma : end;
        if ((i + 1 < GEYSERTRAY_BATCH_NUMBERS) != (comma != NULL) || !read_field(i == 5 ? 'e' : 'n', at, (size_t)(stop - at), &numbers[number_count++]))
            return 0;
        at = stop + 1;
    }
    return 1;
}

static int read_group(const char *at, const char *end)
{
    for (number_count = 0; at < end && *at == ' ';) {
        const char *field = at + 1, *next = memchr(field, ' ', (size_t)(end - field));
        if (!next)
            return read_hex(field, (size_t)(end - field));
        if (number_count == LINE_BATCHES * GEYSERTRAY_BATCH_NUMBERS || !read_member(field, next))
            return 0;
        at = next;
    }
    return 0;
}

/* The fields behind a command's words, each behind one space. */
static int read_fields(const char *form, const char *at, const char *end)
{
    if (*form == 'g')
        return read_group(at, end);
    for (number_count = 0; *form == '*' ? at < end && number_count < MOST_FIELDS : *form != 0; number_count++) {
        const char *field = at + 1, *next;
        if (at == end || *at != ' ')
            return 0;
        next = memchr(field, ' ', (size_t)(end - field));
        at = next ? next : end;
        if (!read_field(*form, field, (size_t)(at - field), &numbers[number_count]))
            return 0;
        form += *form != '*';
    }
    return at == end;
}

/* Whether the line is a command; then it is answered. */
static int answer(const char *line, size_t length)
{
    size_t i;
    if (length == 0 || line[0] == '#')
        return 1;
    for (i = 0; i < sizeof commands / sizeof *commands; i++) {
        const struct command *command = &commands[i];
        size_t word = strlen(command->word);
        if (length < word || memcmp(line, command->word, word) != 0 || !read_fields(command->form, line + word, line + length))
            continue;
        if (command->needs_session && !has_session)
            printf("N\n");
        else
            command->run();
        return 1;
    }
    return 0;
}

/* A line without its LF: 1, or 0 for the end, or 2 for what is no line. */
static int read_line(char *line, size_t *length)
{
    int byte;
    for (*length = 0; (byte = getchar()) != EOF && byte != '\n'; line[(*length)++] = (char)byte)
        if (*length == LINE_BYTES)
            return 2;
    return byte == '\n' ? 1 : *length == 0 ? 0 : 2;
}

int main(void)
{
    static char line[LINE_BYTES + 1];
    size_t length, count = 0;
    int what;
    while ((what = read_line(line, &length)) != 0) {
        count++;
        if (what == 2 || !answer(line, length)) {
            printf("?\t%zu\n", count);
            break;
        }
    }
    return 0;
}
