/* A match panel's session in memory that the caller owns, and calls on the bytes of sets, for C and whatever calls C. docs/EMBEDDING.md has examples.

   A panel has its anchors and two halves. A batch reads the one half and writes the next session to the other; after `applied` the two are
   exchanged, and after any other answer nothing has changed. The calls allocate nothing and keep nothing between them. Memory that is lent to one
   call must not overlap, and no other thread may use a panel while a call on it runs. Proved: every call on memory of these sizes ends and stays
   inside it, and what it answers is what document 01 says. Not proved: this header, the linker, and the caller's part. */
#ifndef GEYSERTRAY_H
#define GEYSERTRAY_H

#include <stddef.h>
#include <stdint.h>
#include <string.h>

#ifdef __cplusplus
extern "C" {
#endif

/* what became of a call; calls that read or write but change no session answer 0, 2, 3 or 4 */
enum {
    GEYSERTRAY_APPLIED = 0,
    GEYSERTRAY_ANSWERED = 0,
    GEYSERTRAY_NO_CHANGE = 1,
    GEYSERTRAY_REJECTED = 2,
    GEYSERTRAY_NO_SESSION = 3,
    GEYSERTRAY_NO_SUCH = 4
};

/* lifecycle commands, and the lifecycles that a head and an answer tell */
enum {
    GEYSERTRAY_ACTIVATE = 0,
    GEYSERTRAY_SUSPEND = 1,
    GEYSERTRAY_RESUME = 2,
    GEYSERTRAY_CLOSE = 3,
    GEYSERTRAY_NO_OP = 4
};
enum {
    GEYSERTRAY_CREATED = 0,
    GEYSERTRAY_ACTIVE = 1,
    GEYSERTRAY_SUSPENDED = 2,
    GEYSERTRAY_CLOSED = 3
};

/* the half in which a session stands after a group: its own, or one of the two that were lent to work in */
enum {
    GEYSERTRAY_OWN_HALF = 0,
    GEYSERTRAY_FIRST_HALF = 1,
    GEYSERTRAY_SECOND_HALF = 2
};

/* why a call was rejected: docs/RULES.md says what to do */
enum {
    GEYSERTRAY_SESSION_MISMATCH = 1,
    GEYSERTRAY_SESSION_CLOSED = 2,
    GEYSERTRAY_INVALID_LIFECYCLE = 3,
    GEYSERTRAY_LIMIT_EXCEEDED = 4,
    GEYSERTRAY_COUNTS_DIFFER = 5,
    GEYSERTRAY_INVALID_TARGET = 6,
    GEYSERTRAY_CURSOR_MISMATCH = 7,
    GEYSERTRAY_KEY_RULE = 8,
    GEYSERTRAY_PANEL_FULL = 9,
    GEYSERTRAY_MALFORMED = 10,
    GEYSERTRAY_CHECKS_FAILED = 11,
    GEYSERTRAY_OVER_CAPACITY = 12,
    GEYSERTRAY_TOO_MANY_ANCHORS = 13,
    GEYSERTRAY_OUTPUT_TOO_SHORT = 14,
    GEYSERTRAY_OTHER_FORM = 15,
    GEYSERTRAY_TOO_MANY_KEYS = 16,
    GEYSERTRAY_NOT_A_GROUP = 17,
    GEYSERTRAY_KIND_MISSING = 18,
    GEYSERTRAY_UNKNOWN_SENDER = 19,
    GEYSERTRAY_ALREADY_WAITING = 20,
    GEYSERTRAY_WRONG_SENDER_COUNT = 21
};

/* kinds of values, and what a quad and a node's availability are */
enum {
    GEYSERTRAY_QUAD = 1,
    GEYSERTRAY_SIGNED = 2,
    GEYSERTRAY_TEXT = 3,
    GEYSERTRAY_UNSIGNED = 4,
    GEYSERTRAY_SCORE = 5
};
enum {
    GEYSERTRAY_QUAD_N = 0,
    GEYSERTRAY_QUAD_F = 1,
    GEYSERTRAY_QUAD_T = 2,
    GEYSERTRAY_QUAD_S = 3
};
enum {
    GEYSERTRAY_AVAILABLE = 0,
    GEYSERTRAY_UNAVAILABLE = 1,
    GEYSERTRAY_HIDDEN = 2,
    GEYSERTRAY_PENDING = 3,
    GEYSERTRAY_STALE = 4
};

/* findings of the patch checks: the first of the three numbers of a record */
enum {
    GEYSERTRAY_FOUND_BROKEN_CHAIN = 1,
    GEYSERTRAY_FOUND_BEFORE_SELF = 2,
    GEYSERTRAY_FOUND_DUPLICATE_TARGET = 3,
    GEYSERTRAY_FOUND_DUPLICATE_ID = 4,
    GEYSERTRAY_FOUND_DUPLICATE_SEQUENCE = 5,
    GEYSERTRAY_FOUND_NO_OPERATIONS = 6,
    GEYSERTRAY_FOUND_MIXED_DOCUMENT = 7,
    GEYSERTRAY_FOUND_MIXED_EPOCH = 8,
    GEYSERTRAY_FOUND_MIXED_STREAM = 9,
    GEYSERTRAY_FOUND_REVISION_NOT_ABOVE = 10,
    GEYSERTRAY_FOUND_SEQUENCE_GAP = 11,
    GEYSERTRAY_FOUND_SEQUENCE_OVERFLOW = 12,
    GEYSERTRAY_FOUND_ID_ZERO = 13,
    GEYSERTRAY_FOUND_STREAM_ZERO = 14
};

/* ---- made from crates/c_answers and crates/c_exports by c/make_header.py */
#define GEYSERTRAY_HEAD_NUMBERS 11
#define GEYSERTRAY_BINDING_BYTES 16960
#define GEYSERTRAY_AVAILABILITY_BYTES 1088
#define GEYSERTRAY_ENTRY_BYTES 34432
#define GEYSERTRAY_LENGTH_BYTES 2048
#define GEYSERTRAY_PLAN_BINDING_BYTES 1792
#define GEYSERTRAY_PLAN_ENTRY_BYTES 4096
#define GEYSERTRAY_TEXT_BYTES 240
#define GEYSERTRAY_PAGE_WIDTH 262
#define GEYSERTRAY_TURNS_NUMBERS 11
#define GEYSERTRAY_ANCHORS 128
#define GEYSERTRAY_PAGE_KEYS 64
#define GEYSERTRAY_PRINT_BYTES 46848
#define GEYSERTRAY_LISTING_BYTES 102150
#define GEYSERTRAY_SET_BYTES 32768
#define GEYSERTRAY_FINDING_NUMBERS 945
#define GEYSERTRAY_DEPENDS_KEYS 2520
#define GEYSERTRAY_GROUP_BATCHES 8
#define GEYSERTRAY_BATCH_NUMBERS 7

/* the rules behind a number: docs/RULES.md has a sentence and the figures of each */
enum {
    GEYSERTRAY_RULE_FOREIGN_SESSION = 1,
    GEYSERTRAY_RULE_CLOSED = 2,
    GEYSERTRAY_RULE_DECLARED_PATCHES = 3,
    GEYSERTRAY_RULE_DECLARED_BYTES = 4,
    GEYSERTRAY_RULE_DECLARED_PATCHES_AND_BYTES = 5,
    GEYSERTRAY_RULE_SET_TOO_LONG = 6,
    GEYSERTRAY_RULE_HEADING = 7,
    GEYSERTRAY_RULE_TOO_FEW_BYTES = 8,
    GEYSERTRAY_RULE_OPERATION_TAG = 9,
    GEYSERTRAY_RULE_VALUE_KIND = 10,
    GEYSERTRAY_RULE_OPTIONAL = 11,
    GEYSERTRAY_RULE_AVAILABILITY = 12,
    GEYSERTRAY_RULE_QUAD = 13,
    GEYSERTRAY_RULE_SCORE = 14,
    GEYSERTRAY_RULE_TEXT_NOT_UTF8 = 15,
    GEYSERTRAY_RULE_PATCH_COUNT = 16,
    GEYSERTRAY_RULE_OPERATION_COUNT = 17,
    GEYSERTRAY_RULE_TEXT_LENGTH = 18,
    GEYSERTRAY_RULE_TEXT_CHARACTERS = 19,
    GEYSERTRAY_RULE_BYTES_LEFT = 20,
    GEYSERTRAY_RULE_FINDINGS = 21,
    GEYSERTRAY_RULE_COUNTS_DIFFER = 22,
    GEYSERTRAY_RULE_REFERENCES = 23,
    GEYSERTRAY_RULE_UNKNOWN_TARGET = 24,
    GEYSERTRAY_RULE_CURSOR = 25,
    GEYSERTRAY_RULE_KEY_PRESENT = 26,
    GEYSERTRAY_RULE_KEY_ABSENT = 27,
    GEYSERTRAY_RULE_NEIGHBOUR_ABSENT = 28,
    GEYSERTRAY_RULE_BINDINGS_FULL = 29,
    GEYSERTRAY_RULE_AVAILABILITIES_FULL = 30,
    GEYSERTRAY_RULE_ENTRIES_FULL = 31
};

/* The name of a rule as in docs/RULES.md, or no letters. */
static inline const char *geysertray_rule_name(uint64_t rule)
{
    static const char *const names[] = {
        "",
        "foreign-session",
        "closed",
        "declared-patches",
        "declared-bytes",
        "declared-patches-and-bytes",
        "set-too-long",
        "heading",
        "too-few-bytes",
        "operation-tag",
        "value-kind",
        "optional",
        "availability",
        "quad",
        "score",
        "text-not-utf8",
        "patch-count",
        "operation-count",
        "text-length",
        "text-characters",
        "bytes-left",
        "findings",
        "counts-differ",
        "references",
        "unknown-target",
        "cursor",
        "key-present",
        "key-absent",
        "neighbour-absent",
        "bindings-full",
        "availabilities-full",
        "entries-full"
    };
    return names[rule < sizeof names / sizeof *names ? rule : 0];
}

/* 0 Applied, 1 NoChange, 2 Rejected, 3 no session in the memory, 4 no such edition; the diagnostics; the cursor after the call, if there is one. */
typedef struct {
    uint64_t disposition;
    uint64_t number;
    uint64_t stage;
    uint64_t logical;
    uint64_t emitted;
    uint64_t has_cursor;
    uint64_t cursor;
} geysertray_answer;

/* The same of a lifecycle step, with 4 for no such command, and the lifecycle after it: 0 Created, 1 Active, 2 Suspended, 3 Closed. */
typedef struct {
    uint64_t disposition;
    uint64_t number;
    uint64_t stage;
    uint64_t logical;
    uint64_t emitted;
    uint64_t lifecycle;
    uint64_t has_cursor;
    uint64_t cursor;
    uint64_t stimulus_bytes;
} geysertray_lifecycle;

/* How many batches were taken; the place from 0 of the first that was refused; the half in which the session stands now, 0 its own, 1 the first and
   2 the second of those to work in; and the answer: 0 with the cursor afterwards, the refused batch's own with the cursor from before the group, 2
   and 17 for what is no group, 3 no session in the memory, 4 no such edition or numbers that are no sevens. */
typedef struct {
    uint64_t count;
    uint64_t place;
    uint64_t half;
    geysertray_answer answer;
} geysertray_group_answer;

/* 0 and how many; 2 and the number of the rule that refuses; 3 no session in the memory; 4 no such edition. A refusal leaves every byte. */
typedef struct {
    uint64_t disposition;
    uint64_t number;
    uint64_t count;
} geysertray_count;

/* 0, or 3 for no session in the memory; found is 1, or 0 and then every other number and byte is 0; the mark is the id of the patch that last
   gave the value. The kinds are 1 quad (N 0, F 1, T 2, S 3), 2 signed, 3 text, 4 unsigned, 5 score, which stands in unsigned_number. */
typedef struct {
    uint64_t disposition;
    uint64_t found;
    uint64_t mark;
    uint64_t kind;
    uint64_t quad;
    int64_t signed_number;
    uint64_t unsigned_number;
    uint64_t text_length;
    uint8_t text[GEYSERTRAY_TEXT_BYTES];
} geysertray_value;

/* Likewise; the availability is 0 Available, 1 Unavailable, 2 Hidden, 3 Pending, 4 Stale. */
typedef struct {
    uint64_t disposition;
    uint64_t found;
    uint64_t mark;
    uint64_t availability;
} geysertray_availability;

/* The entry at a position: its key, and its value. */
typedef struct {
    uint64_t key;
    geysertray_value value;
} geysertray_entry;

/* A key of a page: its position in the collection, and its value. */
typedef struct {
    uint64_t position;
    geysertray_value value;
} geysertray_page_place;

/* 0, and whether the findings are those of a patch (1, and its index from 0) or of the set (0, also where there are none), how many there are
   and how many records were written; 2 and the number of reading's rule; 4 no such edition. */
typedef struct {
    uint64_t disposition;
    uint64_t number;
    uint64_t in_patch;
    uint64_t patch;
    uint64_t logical;
    uint64_t written;
} geysertray_checked;

/* 0, and either never is 1 with the first operation that contradicts those before it, by its patch and its index there; or how many keys must
   be there at the start and how many must be absent. 2 and the number of the rule that refuses; 4 no such edition. */
typedef struct {
    uint64_t disposition;
    uint64_t number;
    uint64_t never;
    uint64_t patch;
    uint64_t operation;
    uint64_t held;
    uint64_t lacked;
} geysertray_dependencies;

/* The patch and the operation that a rule tells, by their indices from 0: 1 where it tells one. */
typedef struct {
    uint64_t has_patch;
    uint64_t patch;
    uint64_t has_operation;
    uint64_t operation;
} geysertray_rule_place;

/* So many figures of a rule, in the order of docs/RULES.md without patch and operation; the others are 0. */
typedef struct {
    uint64_t count;
    uint64_t first;
    uint64_t second;
    uint64_t third;
    uint64_t fourth;
} geysertray_figures;

/* 0 the batch would be taken; 2 it would be refused, with this number and by this rule, GEYSERTRAY_RULE_ and its name, or both are 0 where the
   session's limit of 0 diagnostics withholds them; 3 no session in the memory; 4 no such edition. */
typedef struct {
    uint64_t disposition;
    uint64_t number;
    uint64_t rule;
    geysertray_rule_place place;
    geysertray_figures figures;
} geysertray_explanation;

/* Whether a sender was named (1), and then which, and the number for its batch. */
typedef struct {
    uint64_t disposition;
    uint64_t named;
    uint64_t sender;
    uint64_t number;
} geysertray_turn;

/* The version of the library: 1000000 times the major number, 1000 times the minor one, and the patch number. */
uint64_t geysertray_version(void);

/* Makes a new session in one half of a panel's memory: 0, or 13 for too many anchors of a kind, or 3 where the numbers of the bindings are no pairs. */
uint64_t geysertray_create(
    uint64_t id,
    uint64_t stimulus_bytes,
    uint64_t diagnostics,
    uint64_t patches,
    uint64_t references,
    const uint64_t *nodes,
    size_t nodes_count,
    const uint64_t *pairs,
    size_t pairs_count,
    const uint64_t *collections,
    size_t collections_count,
    uint64_t head[GEYSERTRAY_HEAD_NUMBERS],
    uint8_t bindings[GEYSERTRAY_BINDING_BYTES],
    uint8_t availability[GEYSERTRAY_AVAILABILITY_BYTES],
    uint8_t entries[GEYSERTRAY_ENTRY_BYTES],
    uint8_t lengths[GEYSERTRAY_LENGTH_BYTES]);

/* One lifecycle step: 0 Activate, 1 Suspend, 2 Resume, 3 Close, 4 the explicit no-op. */
geysertray_lifecycle geysertray_lifecycle_step(
    uint64_t head[GEYSERTRAY_HEAD_NUMBERS],
    uint64_t command,
    uint64_t stimulus_bytes);

/* One batch, from one half of a panel's memory to the other, which has the next session where the answer is Applied and is left otherwise. It
   is planned in memory of zeros, which are zeros again after the call. */
geysertray_answer geysertray_batch(
    const uint64_t head[GEYSERTRAY_HEAD_NUMBERS],
    const uint64_t *nodes,
    size_t nodes_count,
    const uint64_t *pairs,
    size_t pairs_count,
    const uint64_t *collections,
    size_t collections_count,
    const uint8_t bindings[GEYSERTRAY_BINDING_BYTES],
    const uint8_t availability[GEYSERTRAY_AVAILABILITY_BYTES],
    const uint8_t entries[GEYSERTRAY_ENTRY_BYTES],
    uint64_t session_id,
    uint64_t sequence_no,
    uint64_t patch_count,
    uint64_t stimulus_bytes,
    uint64_t target_references,
    const uint8_t *set,
    size_t set_count,
    uint64_t edition,
    uint64_t to_head[GEYSERTRAY_HEAD_NUMBERS],
    uint8_t to_bindings[GEYSERTRAY_BINDING_BYTES],
    uint8_t to_availability[GEYSERTRAY_AVAILABILITY_BYTES],
    uint8_t to_entries[GEYSERTRAY_ENTRY_BYTES],
    uint8_t to_lengths[GEYSERTRAY_LENGTH_BYTES],
    uint8_t plan_bindings[GEYSERTRAY_PLAN_BINDING_BYTES],
    uint8_t plan_availability[GEYSERTRAY_AVAILABILITY_BYTES],
    uint8_t plan_entries[GEYSERTRAY_PLAN_ENTRY_BYTES]);

/* Several batches as if sent singly in order, or none. A batch is seven numbers: session id, sequence number, patch count, stimulus bytes, target
   references, edition and the bytes of its set. The half that is read stays; the answer tells in which half the session stands, and the two that are
   lent to work in can be lent to a later call, whatever came of the group. */
geysertray_group_answer geysertray_group(
    const uint64_t head[GEYSERTRAY_HEAD_NUMBERS],
    const uint64_t *nodes,
    size_t nodes_count,
    const uint64_t *pairs,
    size_t pairs_count,
    const uint64_t *collections,
    size_t collections_count,
    const uint8_t bindings[GEYSERTRAY_BINDING_BYTES],
    const uint8_t availability[GEYSERTRAY_AVAILABILITY_BYTES],
    const uint8_t entries[GEYSERTRAY_ENTRY_BYTES],
    const uint64_t *batches,
    size_t batches_count,
    const uint8_t *sets,
    size_t sets_count,
    uint64_t first_head[GEYSERTRAY_HEAD_NUMBERS],
    uint8_t first_bindings[GEYSERTRAY_BINDING_BYTES],
    uint8_t first_availability[GEYSERTRAY_AVAILABILITY_BYTES],
    uint8_t first_entries[GEYSERTRAY_ENTRY_BYTES],
    uint8_t first_lengths[GEYSERTRAY_LENGTH_BYTES],
    uint64_t second_head[GEYSERTRAY_HEAD_NUMBERS],
    uint8_t second_bindings[GEYSERTRAY_BINDING_BYTES],
    uint8_t second_availability[GEYSERTRAY_AVAILABILITY_BYTES],
    uint8_t second_entries[GEYSERTRAY_ENTRY_BYTES],
    uint8_t second_lengths[GEYSERTRAY_LENGTH_BYTES]);

/* The value of a binding. */
geysertray_value geysertray_binding_value(
    const uint64_t head[GEYSERTRAY_HEAD_NUMBERS],
    const uint8_t bindings[GEYSERTRAY_BINDING_BYTES],
    uint64_t node,
    uint32_t slot);

/* The availability of a node. */
geysertray_availability geysertray_node_availability(
    const uint64_t head[GEYSERTRAY_HEAD_NUMBERS],
    const uint8_t availability[GEYSERTRAY_AVAILABILITY_BYTES],
    uint64_t node);

/* The value of a collection's key. */
geysertray_value geysertray_entry_value(
    const uint64_t head[GEYSERTRAY_HEAD_NUMBERS],
    const uint8_t entries[GEYSERTRAY_ENTRY_BYTES],
    uint64_t collection,
    uint64_t key);

/* How many entries a collection has, counted in the table of entries. */
geysertray_count geysertray_entry_count(
    const uint64_t head[GEYSERTRAY_HEAD_NUMBERS],
    const uint8_t entries[GEYSERTRAY_ENTRY_BYTES],
    uint64_t collection);

/* The entry at a position of a collection, from 0. */
geysertray_entry geysertray_entry_at(
    const uint64_t head[GEYSERTRAY_HEAD_NUMBERS],
    const uint8_t entries[GEYSERTRAY_ENTRY_BYTES],
    uint64_t collection,
    size_t position);

/* How many entries a collection has, told by the table of lengths alone. */
geysertray_count geysertray_collection_length(
    const uint64_t head[GEYSERTRAY_HEAD_NUMBERS],
    const uint8_t lengths[GEYSERTRAY_LENGTH_BYTES],
    uint64_t collection);

/* Looks up to 64 keys of a collection up together: a row of GEYSERTRAY_PAGE_WIDTH bytes for each, in their order, and the count is that of the
   rows; 16 for more keys, 14 for too little room. What is behind the rows stays. */
geysertray_count geysertray_collection_page(
    const uint64_t head[GEYSERTRAY_HEAD_NUMBERS],
    const uint8_t entries[GEYSERTRAY_ENTRY_BYTES],
    uint64_t collection,
    const uint64_t *keys,
    size_t keys_count,
    uint8_t *answers,
    size_t answers_count);

/* Takes a row of a page apart. Of other bytes it tells some value, or none. */
geysertray_page_place geysertray_page_row(
    const uint8_t row[GEYSERTRAY_PAGE_WIDTH]);

/* Prints a collection for paper, whole or not at all; the count is that of the bytes; 14 for too little room. What is behind them stays. */
geysertray_count geysertray_print_collection(
    const uint64_t head[GEYSERTRAY_HEAD_NUMBERS],
    const uint8_t entries[GEYSERTRAY_ENTRY_BYTES],
    uint64_t collection,
    uint8_t *out,
    size_t out_count);

/* Writes the listing of a session's panel, whole or not at all; the count is that of the bytes; 14 for too little room. What is behind them stays. */
geysertray_count geysertray_listing(
    const uint64_t head[GEYSERTRAY_HEAD_NUMBERS],
    const uint8_t bindings[GEYSERTRAY_BINDING_BYTES],
    const uint8_t availability[GEYSERTRAY_AVAILABILITY_BYTES],
    const uint8_t entries[GEYSERTRAY_ENTRY_BYTES],
    uint8_t *out,
    size_t out_count);

/* Checks a set: records of three numbers, kind, domain and secondary, as many as fit; 12 or 10 for a set that does not read. */
geysertray_checked geysertray_check(
    const uint8_t *set,
    size_t set_count,
    uint64_t edition,
    uint64_t *findings,
    size_t findings_count);

/* Brings a term list in as a set of one patch, of this envelope (has_surface 0: no surface): an insert for each line; the count is that of the
   bytes. 15 for a line of another form, 12, 11 for what the patch checks find, 14. What is behind the set stays. */
geysertray_count geysertray_import_terms(
    const uint8_t *list,
    size_t list_count,
    uint64_t edition,
    uint64_t collection,
    uint64_t patch_id,
    uint64_t stream,
    uint64_t document,
    uint64_t has_surface,
    uint64_t surface,
    uint64_t previous_revision,
    uint64_t revision,
    uint64_t epoch,
    uint64_t sequence,
    uint8_t *out,
    size_t out_count);

/* Converts a set of an edition into the other; the count is that of the bytes. 12 or 10 for a set that does not read, 18 for a value that the
   other edition lacks, 14. What is behind the set stays. */
geysertray_count geysertray_convert(
    const uint8_t *set,
    size_t set_count,
    uint64_t edition,
    uint8_t *out,
    size_t out_count);

/* Writes the listing of a set on an empty panel; the count is that of the bytes. A set that is refused is listed as `E` and the number; 14. */
geysertray_count geysertray_set_listing(
    const uint8_t *set,
    size_t set_count,
    uint64_t edition,
    uint8_t *out,
    size_t out_count);

/* What a set depends on: two numbers for each key, collection and key, first of those that must be there at the start, then of those that must
   be absent. 12 or 10 for a set that does not read, 11 for what the patch checks find, 14; these and never write nothing. */
geysertray_dependencies geysertray_depends(
    const uint8_t *set,
    size_t set_count,
    uint64_t edition,
    uint64_t *out,
    size_t out_count);

/* Sets turns up for one to eight senders, of whom nobody waits: 0, or 21 for any other number, which leaves the numbers. */
uint64_t geysertray_turns_set_up(
    uint64_t turns[GEYSERTRAY_TURNS_NUMBERS],
    size_t senders);

/* The sender of a number from 0 waits from now on: 0; 19 for a number out of the range, 20 for one that waits already, which leave the numbers. */
uint64_t geysertray_turns_register(
    uint64_t turns[GEYSERTRAY_TURNS_NUMBERS],
    size_t sender);

/* Names the sender whose turn it is, which then waits no more, with the number for its batch: the one after the session's cursor, whose two
   numbers stand in its head. With none waiting the numbers stay. */
geysertray_turn geysertray_turns_next(
    uint64_t turns[GEYSERTRAY_TURNS_NUMBERS],
    uint64_t has_cursor,
    uint64_t cursor);

/* By which rule geysertray_batch would refuse a batch with these arguments, and with which figures. It takes longer than the batch. */
geysertray_explanation geysertray_explain(
    const uint64_t head[GEYSERTRAY_HEAD_NUMBERS],
    const uint64_t *nodes,
    size_t nodes_count,
    const uint64_t *pairs,
    size_t pairs_count,
    const uint64_t *collections,
    size_t collections_count,
    const uint8_t bindings[GEYSERTRAY_BINDING_BYTES],
    const uint8_t availability[GEYSERTRAY_AVAILABILITY_BYTES],
    const uint8_t entries[GEYSERTRAY_ENTRY_BYTES],
    uint64_t session_id,
    uint64_t sequence_no,
    uint64_t patch_count,
    uint64_t stimulus_bytes,
    uint64_t target_references,
    const uint8_t *set,
    size_t set_count,
    uint64_t edition);
/* ---- end of what is made */

/* ---- a panel in one block */

typedef struct {
    uint64_t head[GEYSERTRAY_HEAD_NUMBERS];
    uint8_t bindings[GEYSERTRAY_BINDING_BYTES];
    uint8_t availability[GEYSERTRAY_AVAILABILITY_BYTES];
    uint8_t entries[GEYSERTRAY_ENTRY_BYTES];
    uint8_t lengths[GEYSERTRAY_LENGTH_BYTES];
} geysertray_half;

/* Where a batch is planned: zeros before each call, and zeros again after it. */
typedef struct {
    uint8_t bindings[GEYSERTRAY_PLAN_BINDING_BYTES];
    uint8_t availability[GEYSERTRAY_AVAILABILITY_BYTES];
    uint8_t entries[GEYSERTRAY_PLAN_ENTRY_BYTES];
} geysertray_plan;

typedef struct {
    uint64_t nodes[GEYSERTRAY_ANCHORS], pairs[2 * GEYSERTRAY_ANCHORS], collections[GEYSERTRAY_ANCHORS];
    size_t node_count, pair_count, collection_count;
    int current; /* the half that holds the session: 0 or 1 */
    geysertray_half halves[2];
    geysertray_plan plan;
} geysertray_panel;

/* The half that holds the session. */
static inline geysertray_half *geysertray_current(geysertray_panel *panel)
{
    return &panel->halves[panel->current];
}

/* Opens a panel whose anchors and their counts stand in it already: 0, or 13. Both halves are made ready, and the plan. */
static inline uint64_t geysertray_open(geysertray_panel *panel, uint64_t id, uint64_t stimulus_bytes, uint64_t diagnostics, uint64_t patches, uint64_t references)
{
    uint64_t answer = 0;
    int i;
    panel->current = 0;
    memset(&panel->plan, 0, sizeof panel->plan);
    for (i = 0; i < 2 && answer == 0; i++) {
        geysertray_half *half = &panel->halves[i];
        answer = geysertray_create(
            id, stimulus_bytes, diagnostics, patches, references, panel->nodes, panel->node_count, panel->pairs, 2 * panel->pair_count, panel->collections,
            panel->collection_count, half->head, half->bindings, half->availability, half->entries, half->lengths);
    }
    return answer;
}

/* One lifecycle step of a panel. */
static inline geysertray_lifecycle geysertray_step(geysertray_panel *panel, uint64_t command, uint64_t stimulus_bytes)
{
    return geysertray_lifecycle_step(geysertray_current(panel)->head, command, stimulus_bytes);
}

/* One batch of a panel; where it is applied the halves are exchanged. */
static inline geysertray_answer geysertray_send(
    geysertray_panel *panel, uint64_t session_id, uint64_t sequence_no, uint64_t patch_count, uint64_t stimulus_bytes, uint64_t target_references,
    const uint8_t *set, size_t set_count, uint64_t edition)
{
    const geysertray_half *from = &panel->halves[panel->current];
    geysertray_half *to = &panel->halves[1 - panel->current];
    geysertray_plan *plan = &panel->plan;
    geysertray_answer answer = geysertray_batch(
        from->head, panel->nodes, panel->node_count, panel->pairs, 2 * panel->pair_count, panel->collections, panel->collection_count, from->bindings,
        from->availability, from->entries, session_id, sequence_no, patch_count, stimulus_bytes, target_references, set, set_count, edition, to->head,
        to->bindings, to->availability, to->entries, to->lengths, plan->bindings, plan->availability, plan->entries);
    if (answer.disposition == GEYSERTRAY_APPLIED)
        panel->current = 1 - panel->current;
    return answer;
}

/* By which rule geysertray_send would refuse a batch with these arguments; nothing is sent. */
static inline geysertray_explanation geysertray_panel_explain(
    const geysertray_panel *panel, uint64_t session_id, uint64_t sequence_no, uint64_t patch_count, uint64_t stimulus_bytes, uint64_t target_references,
    const uint8_t *set, size_t set_count, uint64_t edition)
{
    const geysertray_half *half = &panel->halves[panel->current];
    return geysertray_explain(
        half->head, panel->nodes, panel->node_count, panel->pairs, 2 * panel->pair_count, panel->collections, panel->collection_count, half->bindings,
        half->availability, half->entries, session_id, sequence_no, patch_count, stimulus_bytes, target_references, set, set_count, edition);
}

/* A group of a panel: seven numbers for each batch, and the sets end to end. The spare half is all zeros, or as an earlier call left it; one serves
   any number of panels that are used by one thread. Where the group is taken the panel holds the session after it. */
static inline geysertray_group_answer geysertray_send_group(
    geysertray_panel *panel, geysertray_half *spare, const uint64_t *batches, size_t batches_count, const uint8_t *sets, size_t sets_count)
{
    const geysertray_half *from = &panel->halves[panel->current];
    geysertray_half *to = &panel->halves[1 - panel->current];
    geysertray_group_answer told = geysertray_group(
        from->head, panel->nodes, panel->node_count, panel->pairs, 2 * panel->pair_count, panel->collections, panel->collection_count, from->bindings,
        from->availability, from->entries, batches, batches_count, sets, sets_count, to->head, to->bindings, to->availability, to->entries, to->lengths,
        spare->head, spare->bindings, spare->availability, spare->entries, spare->lengths);
    if (told.half == GEYSERTRAY_SECOND_HALF)
        *to = *spare;
    if (told.half != GEYSERTRAY_OWN_HALF)
        panel->current = 1 - panel->current;
    return told;
}

/* The next turn, with the number for a batch to this panel. */
static inline geysertray_turn geysertray_panel_turn(const geysertray_panel *panel, uint64_t turns[GEYSERTRAY_TURNS_NUMBERS])
{
    const geysertray_half *half = &panel->halves[panel->current];
    return geysertray_turns_next(turns, half->head[2], half->head[3]);
}

/* ---- what a panel holds */

/* The value of a binding. */
static inline geysertray_value geysertray_panel_binding(const geysertray_panel *panel, uint64_t node, uint32_t slot)
{
    const geysertray_half *half = &panel->halves[panel->current];
    return geysertray_binding_value(half->head, half->bindings, node, slot);
}

/* The availability of a node. */
static inline geysertray_availability geysertray_panel_node(const geysertray_panel *panel, uint64_t node)
{
    const geysertray_half *half = &panel->halves[panel->current];
    return geysertray_node_availability(half->head, half->availability, node);
}

/* The value of a collection's key. */
static inline geysertray_value geysertray_panel_entry(const geysertray_panel *panel, uint64_t collection, uint64_t key)
{
    const geysertray_half *half = &panel->halves[panel->current];
    return geysertray_entry_value(half->head, half->entries, collection, key);
}

/* The entry at a position of a collection, from 0. */
static inline geysertray_entry geysertray_panel_entry_at(const geysertray_panel *panel, uint64_t collection, size_t position)
{
    const geysertray_half *half = &panel->halves[panel->current];
    return geysertray_entry_at(half->head, half->entries, collection, position);
}

/* How many entries a collection has: counted, and told by the table of lengths. Both answer alike of a panel. */
static inline geysertray_count geysertray_panel_count(const geysertray_panel *panel, uint64_t collection)
{
    const geysertray_half *half = &panel->halves[panel->current];
    return geysertray_entry_count(half->head, half->entries, collection);
}
static inline geysertray_count geysertray_panel_length(const geysertray_panel *panel, uint64_t collection)
{
    const geysertray_half *half = &panel->halves[panel->current];
    return geysertray_collection_length(half->head, half->lengths, collection);
}

/* A page of keys; geysertray_page_row takes each row apart. */
static inline geysertray_count geysertray_panel_page(
    const geysertray_panel *panel, uint64_t collection, const uint64_t *keys, size_t keys_count, uint8_t *answers, size_t answers_count)
{
    const geysertray_half *half = &panel->halves[panel->current];
    return geysertray_collection_page(half->head, half->entries, collection, keys, keys_count, answers, answers_count);
}

/* The print of a collection; GEYSERTRAY_PRINT_BYTES hold every one. */
static inline geysertray_count geysertray_panel_print(const geysertray_panel *panel, uint64_t collection, uint8_t *out, size_t out_count)
{
    const geysertray_half *half = &panel->halves[panel->current];
    return geysertray_print_collection(half->head, half->entries, collection, out, out_count);
}

/* The listing; GEYSERTRAY_LISTING_BYTES hold every one. */
static inline geysertray_count geysertray_panel_listing(const geysertray_panel *panel, uint8_t *out, size_t out_count)
{
    const geysertray_half *half = &panel->halves[panel->current];
    return geysertray_listing(half->head, half->bindings, half->availability, half->entries, out, out_count);
}

#ifdef __cplusplus
}
#endif
#endif
