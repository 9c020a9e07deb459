// The C++ wrapper on the set of examples/panel.set, whose listing README.md has: test < examples/panel.set. Each line that fails is told, and the status is 1.
//
// c++ -std=c++17 -Wall -Wextra -Wpedantic -Ibuild/include bindings/cpp/test.cpp build/libgeysertray.a -o build/cpp_test
#include "geysertray.hpp"

#include <cstdio>
#include <iostream>
#include <iterator>

static int failures;

static void expect(bool holds, const char *what, int line)
{
    if (!holds) {
        std::printf("line %d: %s\n", line, what);
        failures++;
    }
}
#define EXPECT(condition) expect((condition), #condition, __LINE__)

// The number that a call is refused with, or 0.
template <class Call> static std::uint64_t refusal(Call call)
{
    try {
        call();
    } catch (const geysertray::refused &refused) {
        return refused.number();
    }
    return 0;
}

static const char *const listing = "P\t4\nB\t5\t0\tQ\t2\nA\t5\t3\nC\t9\t1\tT\tOk\nC\t9\t2\tS\t-4\n";

static void look_at(const geysertray::panel &panel)
{
    EXPECT(panel.listing() == listing);
    EXPECT(panel.binding(5, 0)->kind == geysertray::kind::quad && panel.binding(5, 0)->number == GEYSERTRAY_QUAD_T);
    EXPECT(!panel.binding(5, 1));
    EXPECT(panel.node(5)->first == GEYSERTRAY_PENDING && !panel.node(6));
    EXPECT(panel.entry(9, 1)->text == "Ok" && panel.entry(9, 2)->signed_number == -4 && !panel.entry(9, 3));
    EXPECT(panel.length(9) == 2 && panel.length(8) == 0);
    EXPECT(panel.entry_at(9, 0)->first == 1 && panel.entry_at(9, 1)->first == 2 && !panel.entry_at(9, 2));
    const auto page = panel.page(9, {2, 3, 1});
    EXPECT(page.size() == 3 && page[0]->position == 1 && !page[1] && page[2]->value.text == "Ok");
    EXPECT(panel.page(9, {}).empty());
    EXPECT(refusal([&] { panel.page(9, std::vector<std::uint64_t>(65)); }) == GEYSERTRAY_TOO_MANY_KEYS);
    EXPECT(panel.print(9).substr(0, 24) == "                   1  Ok");
}

static void explain(const geysertray::panel &panel, const geysertray::bytes &set)
{
    const auto key = panel.explain({7, 4, 1, 0, 4}, set);
    EXPECT(key->number == GEYSERTRAY_KEY_RULE && key->rule == "key-present" && key->patch == 0 && key->operation == 1 && key->figures.empty());
    const auto cursor = panel.explain({7, 9, 1, 0, 4}, set);
    EXPECT(cursor->rule == "cursor" && !cursor->patch && cursor->figures == std::vector<std::uint64_t>{4});
    const auto counts = panel.explain({7, 4, 2, 0, 4}, set);
    EXPECT(counts->rule == "counts-differ" && counts->figures == (std::vector<std::uint64_t>{2, 1, 4, 4}));
    EXPECT(panel.explain({7, 4, 0, 0, 0}, {})->rule == "too-few-bytes");
    const geysertray::panel fresh(7, {4096, 8, 4, 16}, {5}, {{5, 0}}, {9}), silent(7, {4096, 0, 4, 16}, {}, {}, {});
    EXPECT(!fresh.explain({7, 1, 1, 0, 4}, set) && silent.explain({8, 1, 1, 0, 4}, set)->rule.empty());
    EXPECT(panel.cursor() == 3 && !fresh.cursor());
}

static void take_turns()
{
    geysertray::turns turns(3);
    EXPECT(!turns.next(std::nullopt));
    turns.wait(2);
    turns.wait(0);
    EXPECT(refusal([&] { turns.wait(2); }) == GEYSERTRAY_ALREADY_WAITING && refusal([&] { turns.wait(3); }) == GEYSERTRAY_UNKNOWN_SENDER);
    const auto first = turns.next(std::nullopt), second = turns.next(6);
    EXPECT(first->sender == 0 && second->sender == 2 && second->number == 7 && !turns.next(6));
    EXPECT(refusal([] { geysertray::turns(0); }) == GEYSERTRAY_WRONG_SENDER_COUNT && refusal([] { geysertray::turns(9); }) == GEYSERTRAY_WRONG_SENDER_COUNT);
}

static void send(const geysertray::bytes &set)
{
    geysertray::panel panel(7, {4096, 8, 4, 16}, {5}, {{5, 0}}, {9});
    EXPECT(panel.listing() == "P\t0\n");
    EXPECT(panel.step(GEYSERTRAY_ACTIVATE).lifecycle == GEYSERTRAY_ACTIVE);
    EXPECT(refusal([&] { panel.step(GEYSERTRAY_RESUME); }) == GEYSERTRAY_INVALID_LIFECYCLE);
    EXPECT(panel.send({7, 3, 1, 0, 4}, set).cursor == 3);
    look_at(panel);
    try {
        panel.send({7, 4, 1, 0, 4}, set);
        EXPECT(!"the keys are there already");
    } catch (const geysertray::refused &refused) {
        EXPECT(refused.number() == GEYSERTRAY_KEY_RULE && refused.answer()->stage == 8 && refused.answer()->cursor == 3);
        EXPECT(std::string(refused.what()).rfind("8: An operation met a list that it does not fit", 0) == 0);
    }
    look_at(panel);
    EXPECT(refusal([&] { panel.send({7, 4, 0, 0, 0}, {}); }) == GEYSERTRAY_MALFORMED);
    explain(panel, set);
    geysertray::panel moved = std::move(panel);
    look_at(moved);
}

static void send_group(const geysertray::bytes &set)
{
    geysertray::panel panel(7, {4096, 8, 4, 16}, {5}, {{5, 0}}, {9});
    const geysertray::bytes none(set.begin(), set.begin() + 31);
    geysertray::bytes sets = none;
    sets.insert(sets.end(), 4, 0);
    const geysertray::group_batch empty{{7, 9, 0, 0, 0}, 1, 35};
    EXPECT(panel.send_group({empty}, sets).half == GEYSERTRAY_OWN_HALF);
    EXPECT(refusal([&] { panel.send_group({empty, empty}, sets); }) == GEYSERTRAY_NOT_A_GROUP);
    sets.insert(sets.end(), set.begin(), set.end());
    const auto told = panel.send_group({empty, {{7, 3, 1, 0, 4}, 1, set.size()}}, sets);
    EXPECT(told.count == 2 && told.half == GEYSERTRAY_FIRST_HALF && told.answer.cursor == 3);
    look_at(panel);
    try {
        panel.send_group({empty, {{7, 4, 1, 0, 4}, 1, set.size()}}, sets);
        EXPECT(!"the keys are there already");
    } catch (const geysertray::refused &refused) {
        EXPECT(refused.number() == GEYSERTRAY_KEY_RULE && refused.place() == 1u && refused.answer()->cursor == 3);
    }
    look_at(panel);
}

static void on_bytes(const geysertray::bytes &set)
{
    EXPECT(geysertray::set_listing(set) == listing);
    EXPECT(geysertray::set_listing({}) == "E\t10\n");
    EXPECT(geysertray::check(set).found.empty() && !geysertray::check(set).patch);
    EXPECT(refusal([&] { geysertray::check({}); }) == GEYSERTRAY_MALFORMED);
    EXPECT(geysertray::convert(geysertray::convert(set, 1), 2) == set);
    EXPECT(geysertray::depends(set).held.empty() && geysertray::depends(set).lacked.size() == 2);
    const geysertray::bytes terms{'7', '\t', 'O', 'k', '\n'};
    EXPECT(geysertray::set_listing(geysertray::import_terms(terms, 9, {1, 1, 1, std::nullopt, 0, 1, 1, 1})) == "P\t1\nC\t9\t7\tT\tOk\n");
    EXPECT(refusal([] { geysertray::import_terms({'7'}, 9, {1, 1, 1, 3, 0, 1, 1, 1}); }) == GEYSERTRAY_OTHER_FORM);
    try {
        geysertray::check(set, 3);
        EXPECT(!"there is no third edition");
    } catch (const std::invalid_argument &) {
    }
}

int main()
{
    const geysertray::bytes set{std::istreambuf_iterator<char>(std::cin), {}};
    send(set);
    send_group(set);
    on_bytes(set);
    take_turns();
    EXPECT(refusal([] { geysertray::panel(1, {0, 0, 0, 0}, std::vector<std::uint64_t>(129), {}, {}); }) == GEYSERTRAY_TOO_MANY_ANCHORS);
    std::printf(failures ? "%d failed\n" : "a panel in C++: ok\n", failures);
    return failures != 0;
}
