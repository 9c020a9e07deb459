// The calls of geysertray.h for C++17: a panel that owns its memory, and answers as values. A refused call throws `refused`, which names the rule,
// and leaves the panel as it was. One thread at a time may use a panel; different panels share nothing.
#ifndef GEYSERTRAY_HPP
#define GEYSERTRAY_HPP

#include "geysertray.h"

#include <cstddef>
#include <cstdint>
#include <memory>
#include <optional>
#include <stdexcept>
#include <string>
#include <utility>
#include <vector>

namespace geysertray {

using bytes = std::vector<std::uint8_t>;

// What each number means, in the words of docs/RULES.md; at 0 what a hidden number means.
inline const char *rule(std::uint64_t number)
{
    static const char *const rules[] = {
        "The session's limit of diagnostics is 0, so the number is hidden; the logical count still tells how many there were.",
        "The batch names another session.",
        "The session was closed; it takes nothing any more.",
        "This command has no place in this state, such as resuming what was never suspended.",
        "One of the session's own limits is passed: patches or stimulus bytes as declared, or target references as counted.",
        "The declared count of patches or of target references is not what the set has.",
        "So many operations (the logical count) aim at a node, a binding or a collection that the session was not created with.",
        "The batch's number is not the one after the last that was applied: a batch was lost, sent twice, or sent after a refused one.",
        "An operation met a list that it does not fit: the key to insert is there already, or the key or the neighbour is missing.",
        "The panel is full: 64 bindings, 64 availabilities, 128 entries over all collections.",
        "The bytes are no set: wrong heading or byte, too few bytes, a text cut off however long it was to be, a text that is no UTF-8, a score above 100 or in the first edition, bytes left over.",
        "The set reads, and its patches contradict each other or themselves.",
        "More than a set can carry: 32,768 bytes, 64 patches, 128 operations a patch, 240 bytes or 160 characters a text, all of whose bytes are there.",
        "A session was to be created with more than 128 anchors of one kind.",
        "The output is shorter than the bytes that the writer, the converter or bringing in a term list would write, than the list of keys that a set depends on, or than the print of a collection; or an answer table has fewer places than a page has keys.",
        "A line of a term list has another form than key, tab, text: it is empty, has no tab or two, its key has a sign, a leading zero or is past 2^64−1, or its text is no UTF-8.",
        "A page of more than 64 keys was asked for, whatever room there is for the answers.",
        "No batches, more than eight, or lengths that do not add up to the bytes that were lent.",
        "A set of the second edition with a match score was to be converted into the first, which has none.",
        "A sender registered under a number that the set-up does not have: n senders are numbered 0 to n − 1.",
        "The sender waits already; it keeps its place.",
        "Turns were to be set up for no senders, or for more than eight.",
    };
    return rules[number < sizeof rules / sizeof *rules ? number : 0];
}

// A call was refused, and nothing was changed. The answer has the rest where a session refused it, and the place tells which batch of a group it
// was, from 0.
class refused : public std::runtime_error {
public:
    explicit refused(std::uint64_t number, std::optional<geysertray_answer> answer = std::nullopt, std::optional<std::uint64_t> place = std::nullopt)
        : std::runtime_error(std::to_string(number) + ": " + rule(number)), number_(number), answer_(answer), place_(place)
    {
    }
    std::uint64_t number() const { return number_; }
    const std::optional<geysertray_answer> &answer() const { return answer_; }
    const std::optional<std::uint64_t> &place() const { return place_; }

private:
    std::uint64_t number_;
    std::optional<geysertray_answer> answer_;
    std::optional<std::uint64_t> place_;
};

// The panel's memory holds no session: something else wrote to it.
class no_session : public std::logic_error {
public:
    no_session() : std::logic_error("no session in the panel's memory") {}
};

enum class kind { quad = 1, signed_number, text, unsigned_number, score };

// A text, or a number: the signed one of its kind, else the other. The mark is the patch that last gave the value.
struct value {
    enum kind kind;
    std::uint64_t number;
    std::int64_t signed_number;
    std::string text;
    std::uint64_t mark;
};

struct limits {
    std::uint64_t stimulus_bytes, diagnostics, patches, references;
};

// What a sender declares of a set.
struct declared {
    std::uint64_t session, sequence, patches, stimulus_bytes, references;
};

// Why a batch is refused: the number, the rule's name as in docs/RULES.md, the patch and the operation that it tells, and its other figures. Where the
// session's limit of 0 diagnostics withholds it, the number is 0 and the rule has no letters.
struct explanation {
    std::uint64_t number;
    std::string rule;
    std::optional<std::uint64_t> patch, operation;
    std::vector<std::uint64_t> figures;
};

// A batch of a group, with its set's edition and how many bytes the set has.
struct group_batch {
    declared batch;
    std::uint64_t edition, bytes;
};

struct page_entry {
    std::uint64_t position;
    struct value value;
};

namespace detail {

inline void look(std::uint64_t disposition)
{
    if (disposition == GEYSERTRAY_NO_SESSION)
        throw no_session();
    if (disposition == GEYSERTRAY_NO_SUCH)
        throw std::invalid_argument("no such edition or command");
}

// An answer that is no refusal.
template <class Answer> Answer accepted(const Answer &answer)
{
    look(answer.disposition);
    if (answer.disposition == GEYSERTRAY_REJECTED)
        throw refused(answer.number);
    return answer;
}

// Where a call reads, never nowhere.
template <class Number> const Number *at(const std::vector<Number> &numbers)
{
    static const Number none{};
    return numbers.empty() ? &none : numbers.data();
}

inline std::optional<value> value_of(const geysertray_value &told)
{
    look(told.disposition);
    if (!told.found)
        return std::nullopt;
    const auto what = static_cast<enum kind>(told.kind);
    const std::uint64_t number = what == kind::quad ? told.quad : told.unsigned_number;
    return value{what, number, told.signed_number, std::string(told.text, told.text + told.text_length), told.mark};
}

inline std::optional<explanation> explanation_of(const geysertray_explanation &told)
{
    look(told.disposition);
    if (told.disposition != GEYSERTRAY_REJECTED)
        return std::nullopt;
    const auto &place = told.place;
    const auto &figures = told.figures;
    const std::uint64_t all[] = {figures.first, figures.second, figures.third, figures.fourth};
    return explanation{
        told.number, geysertray_rule_name(told.rule), place.has_patch ? std::make_optional(place.patch) : std::nullopt,
        place.has_operation ? std::make_optional(place.operation) : std::nullopt, std::vector<std::uint64_t>(all, all + figures.count)};
}

// What a call writes into room for so many bytes.
template <class Call> bytes written(std::size_t room, Call call)
{
    bytes out(room + 1);
    out.resize(accepted(call(out.data(), room)).count);
    return out;
}

inline std::string text(const bytes &from)
{
    return std::string(from.begin(), from.end());
}

} // namespace detail

class panel {
public:
    using number = std::uint64_t;

    panel(number id, const limits &bounds, std::vector<number> nodes, const std::vector<std::pair<number, std::uint32_t>> &bindings, std::vector<number> collections)
        : nodes_(std::move(nodes)), collections_(std::move(collections)), halves_(new geysertray_half[3]()), plan_(new geysertray_plan())
    {
        for (const auto &binding : bindings)
            pairs_.insert(pairs_.end(), {binding.first, binding.second});
        create(id, bounds, halves_[0]);
        create(id, bounds, halves_[1]);
    }

    // One lifecycle step: GEYSERTRAY_ACTIVATE and so on.
    geysertray_lifecycle step(number command, number stimulus_bytes = 0)
    {
        const auto told = geysertray_lifecycle_step(here().head, command, stimulus_bytes);
        detail::look(told.disposition);
        if (told.disposition == GEYSERTRAY_REJECTED)
            throw refused(told.number, geysertray_answer{told.disposition, told.number, told.stage, told.logical, told.emitted, told.has_cursor, told.cursor});
        return told;
    }

    // One batch: a set's bytes, and what its sender declares of them.
    geysertray_answer send(const declared &batch, const bytes &set, number edition = 1)
    {
        const auto &from = here();
        auto &to = halves_[next_];
        const auto told = geysertray_batch(
            from.head, detail::at(nodes_), nodes_.size(), detail::at(pairs_), pairs_.size(), detail::at(collections_), collections_.size(), from.bindings, from.availability,
            from.entries, batch.session, batch.sequence, batch.patches, batch.stimulus_bytes, batch.references, detail::at(set), set.size(), edition, to.head,
            to.bindings, to.availability, to.entries, to.lengths, plan_->bindings, plan_->availability, plan_->entries);
        detail::look(told.disposition);
        if (told.disposition == GEYSERTRAY_REJECTED)
            throw refused(told.number, told);
        if (told.disposition == GEYSERTRAY_APPLIED)
            std::swap(current_, next_);
        return told;
    }

    // Up to eight batches as if sent singly in order, or none of them; their sets lie end to end in the bytes.
    geysertray_group_answer send_group(const std::vector<group_batch> &batches, const bytes &sets)
    {
        std::vector<number> numbers;
        for (const auto &each : batches) {
            const auto &batch = each.batch;
            numbers.insert(numbers.end(), {batch.session, batch.sequence, batch.patches, batch.stimulus_bytes, batch.references, each.edition, each.bytes});
        }
        const auto &from = here();
        auto &first = halves_[next_], &second = halves_[spare_];
        const auto told = geysertray_group(
            from.head, detail::at(nodes_), nodes_.size(), detail::at(pairs_), pairs_.size(), detail::at(collections_), collections_.size(), from.bindings, from.availability,
            from.entries, detail::at(numbers), numbers.size(), detail::at(sets), sets.size(), first.head, first.bindings, first.availability, first.entries, first.lengths,
            second.head, second.bindings, second.availability, second.entries, second.lengths);
        detail::look(told.answer.disposition);
        if (told.answer.number == GEYSERTRAY_NOT_A_GROUP)
            throw refused(told.answer.number);
        if (told.answer.disposition == GEYSERTRAY_REJECTED)
            throw refused(told.answer.number, told.answer, told.place);
        if (told.half != GEYSERTRAY_OWN_HALF)
            std::swap(current_, told.half == GEYSERTRAY_FIRST_HALF ? next_ : spare_);
        return told;
    }

    // By which rule send would refuse this batch; none where it would be taken. Nothing is sent.
    std::optional<explanation> explain(const declared &batch, const bytes &set, number edition = 1) const
    {
        return detail::explanation_of(geysertray_explain(
            here().head, detail::at(nodes_), nodes_.size(), detail::at(pairs_), pairs_.size(), detail::at(collections_), collections_.size(), here().bindings,
            here().availability, here().entries, batch.session, batch.sequence, batch.patches, batch.stimulus_bytes, batch.references, detail::at(set),
            set.size(), edition));
    }

    // The number of the last batch that was applied.
    std::optional<number> cursor() const
    {
        return here().head[2] ? std::make_optional(here().head[3]) : std::nullopt;
    }

    std::optional<value> binding(number node, std::uint32_t slot) const
    {
        return detail::value_of(geysertray_binding_value(here().head, here().bindings, node, slot));
    }

    // Availability and mark.
    std::optional<std::pair<number, number>> node(number node) const
    {
        const auto told = geysertray_node_availability(here().head, here().availability, node);
        detail::look(told.disposition);
        return told.found ? std::make_optional(std::make_pair(told.availability, told.mark)) : std::nullopt;
    }

    std::optional<value> entry(number collection, number key) const
    {
        return detail::value_of(geysertray_entry_value(here().head, here().entries, collection, key));
    }

    // Key and value of the entry at a position of its collection, from 0.
    std::optional<std::pair<number, value>> entry_at(number collection, std::size_t position) const
    {
        const auto told = geysertray_entry_at(here().head, here().entries, collection, position);
        auto found = detail::value_of(told.value);
        return found ? std::make_optional(std::make_pair(told.key, *std::move(found))) : std::nullopt;
    }

    number length(number collection) const
    {
        return detail::accepted(geysertray_collection_length(here().head, here().lengths, collection)).count;
    }

    // Up to 64 keys of a collection looked up together.
    std::vector<std::optional<page_entry>> page(number collection, const std::vector<number> &keys) const
    {
        const auto rows = detail::written(keys.size() * GEYSERTRAY_PAGE_WIDTH, [&](std::uint8_t *out, std::size_t room) {
            auto told = geysertray_collection_page(here().head, here().entries, collection, detail::at(keys), keys.size(), out, room);
            told.count *= GEYSERTRAY_PAGE_WIDTH;
            return told;
        });
        std::vector<std::optional<page_entry>> page;
        for (std::size_t at = 0; at < rows.size(); at += GEYSERTRAY_PAGE_WIDTH) {
            const auto row = geysertray_page_row(rows.data() + at);
            auto found = detail::value_of(row.value);
            page.push_back(found ? std::make_optional(page_entry{row.position, *std::move(found)}) : std::nullopt);
        }
        return page;
    }

    // A collection laid out for paper, in lines of 80 characters.
    std::string print(number collection) const
    {
        return detail::text(detail::written(GEYSERTRAY_PRINT_BYTES, [&](std::uint8_t *out, std::size_t room) {
            return geysertray_print_collection(here().head, here().entries, collection, out, room);
        }));
    }

    // Every record of the panel, one to a line.
    std::string listing() const
    {
        return detail::text(detail::written(GEYSERTRAY_LISTING_BYTES, [&](std::uint8_t *out, std::size_t room) {
            return geysertray_listing(here().head, here().bindings, here().availability, here().entries, out, room);
        }));
    }

private:
    geysertray_half &here() { return halves_[current_]; }
    const geysertray_half &here() const { return halves_[current_]; }

    void create(number id, const limits &bounds, geysertray_half &half)
    {
        const number answer = geysertray_create(
            id, bounds.stimulus_bytes, bounds.diagnostics, bounds.patches, bounds.references, detail::at(nodes_), nodes_.size(), detail::at(pairs_), pairs_.size(),
            detail::at(collections_), collections_.size(), half.head, half.bindings, half.availability, half.entries, half.lengths);
        if (answer != 0)
            throw refused(answer);
    }

    std::vector<number> nodes_, pairs_, collections_;
    std::unique_ptr<geysertray_half[]> halves_;
    std::unique_ptr<geysertray_plan> plan_;
    int current_ = 0, next_ = 1, spare_ = 2;
};

// Turns among one to eight senders to one panel, numbered from 0. A refused call throws `refused` and leaves the turns as they were.
class turns {
public:
    // Whose turn it is, and the number for its batch.
    struct turn {
        std::uint64_t sender, number;
    };

    explicit turns(std::size_t senders) { done(geysertray_turns_set_up(numbers_, senders)); }

    // The sender waits for its turn from now on.
    void wait(std::size_t sender) { done(geysertray_turns_register(numbers_, sender)); }

    // Whose turn it is now, with the panel's cursor; it waits no more. None where nobody waits.
    std::optional<turn> next(std::optional<std::uint64_t> cursor)
    {
        const auto told = geysertray_turns_next(numbers_, cursor.has_value(), cursor.value_or(0));
        detail::look(told.disposition);
        return told.named ? std::make_optional(turn{told.sender, told.number}) : std::nullopt;
    }

private:
    static void done(std::uint64_t refusal)
    {
        if (refusal != 0)
            throw refused(refusal);
    }

    std::uint64_t numbers_[GEYSERTRAY_TURNS_NUMBERS] = {};
};

// ---- calls on bytes, which need no panel

using key = std::pair<std::uint64_t, std::uint64_t>;

struct finding {
    std::uint64_t kind, domain, secondary;
};

// What was found, in the patch of that place, or in the set.
struct findings {
    std::optional<std::uint64_t> patch;
    std::vector<finding> found;
};

// Never, with the patch and the operation that contradicts those before it; or the keys of collections that must be there, and that must be absent.
struct dependencies {
    std::optional<key> never;
    std::vector<key> held, lacked;
};

// A patch without its operations.
struct envelope {
    std::uint64_t id, stream, document;
    std::optional<std::uint64_t> surface;
    std::uint64_t previous_revision, revision, epoch, sequence;
};

// What the patch checks find in a set.
inline findings check(const bytes &set, std::uint64_t edition = 1)
{
    std::vector<std::uint64_t> out(GEYSERTRAY_FINDING_NUMBERS);
    const auto told = detail::accepted(geysertray_check(detail::at(set), set.size(), edition, out.data(), out.size()));
    findings all{told.in_patch ? std::make_optional(told.patch) : std::nullopt, {}};
    for (std::size_t i = 0; i < told.written; i++)
        all.found.push_back({out[3 * i], out[3 * i + 1], out[3 * i + 2]});
    return all;
}

// What a panel must hold and lack for a set to apply.
inline dependencies depends(const bytes &set, std::uint64_t edition = 1)
{
    std::vector<std::uint64_t> out(2 * GEYSERTRAY_DEPENDS_KEYS);
    const auto told = detail::accepted(geysertray_depends(detail::at(set), set.size(), edition, out.data(), out.size()));
    dependencies all;
    if (told.never)
        all.never = key(told.patch, told.operation);
    for (std::size_t i = 0; i < told.held + told.lacked; i++)
        (i < told.held ? all.held : all.lacked).emplace_back(out[2 * i], out[2 * i + 1]);
    return all;
}

// A set of this edition in the other one.
inline bytes convert(const bytes &set, std::uint64_t edition)
{
    return detail::written(
        GEYSERTRAY_SET_BYTES, [&](std::uint8_t *out, std::size_t room) { return geysertray_convert(detail::at(set), set.size(), edition, out, room); });
}

// Lines of key, tab and text as a set with one patch of inserts.
inline bytes import_terms(const bytes &terms, std::uint64_t collection, const envelope &patch, std::uint64_t edition = 1)
{
    return detail::written(GEYSERTRAY_SET_BYTES, [&](std::uint8_t *out, std::size_t room) {
        return geysertray_import_terms(
            detail::at(terms), terms.size(), edition, collection, patch.id, patch.stream, patch.document, patch.surface.has_value(), patch.surface.value_or(0),
            patch.previous_revision, patch.revision, patch.epoch, patch.sequence, out, room);
    });
}

// What a set makes of an empty panel, as panel::listing tells it; a refused set is one line of E and the number.
inline std::string set_listing(const bytes &set, std::uint64_t edition = 1)
{
    return detail::text(detail::written(GEYSERTRAY_LISTING_BYTES, [&](std::uint8_t *out, std::size_t room) {
        return geysertray_set_listing(detail::at(set), set.size(), edition, out, room);
    }));
}

} // namespace geysertray

#endif
