// The class for C++: every call, its answer and its refusal. Compiled without exceptions.
#include <array>
#include <cstdio>
#include <cstdlib>
#include <vector>

#include "bellbadger.hpp"

#define CHECK(fact)                                                \
    do {                                                           \
        if (!(fact)) {                                             \
            std::printf("%s:%d: %s\n", __FILE__, __LINE__, #fact); \
            std::exit(1);                                          \
        }                                                          \
    } while (0)

using bellbadger::Judge;
using bellbadger::Verdict;

static const std::array<std::uint8_t, 30> rule_a = {{3, 2, 1, 0, 0, 0, 4, 0, 0, 0, 22, 0, 6, 0, 28,
                                                     0, 2, 0, 30, 0, 0, 0, 0, 0, 0, 1, 1, 0, 1, 2}};

static void refusals() {
    Judge judge;
    const std::vector<std::uint8_t> none;
    CHECK(!judge.verdict().has_value() && judge.verdict().error().number() == 21);
    CHECK(judge.open(1).error().number() == 20);
    CHECK(judge.load(none).error().number() == 1);
    CHECK(judge.install(bellbadger_checked_rule()).error().number() == 3);
    CHECK(judge.deliver(0, 0, none).error().number() == 21);
    CHECK(judge.withdraw(0).error().number() == 21);
    CHECK(judge.deliver(0, 0, none).value_or(bellbadger::Looked{7}).bytes == 7);
}

static void answers() {
    Judge judge;
    const bellbadger::Result<bellbadger::Loaded> loaded = judge.load(rule_a);
    CHECK(loaded.has_value() && loaded->sets == 5 && (*loaded).starts == 3 && loaded.error().number() == 0);
    CHECK(judge.open(2).has_value());
    CHECK(judge.verdict()->verdict == Verdict::waiting && judge.verdict()->number == 2);
    const std::vector<std::uint8_t> zero = {0}, one = {1};
    CHECK(judge.deliver(1, 0, one)->bytes == 1 && judge.deliver(0, 0, zero).value().bytes == 1);
    const bellbadger::Report yes = judge.verdict().value();
    CHECK(yes.is_yes() && yes.verdict == Verdict::yes && yes.number == 3);
    CHECK(yes.bytes == 2 && yes.quotient == 1 && yes.remainder == 1);
    CHECK(judge.deliver(0, 0, zero).error().number() == 22 && judge.verdict()->is_yes());
    CHECK(judge.withdraw(0).has_value() && !judge.verdict()->is_yes());
    CHECK(judge.deliver(0, 1, one.data(), one.size()).has_value());
    CHECK(judge.verdict()->verdict == Verdict::no && !judge.verdict()->is_yes());
    CHECK(judge.raw().board.places == 2);
    const Judge copy = judge;
    CHECK(judge.install(bellbadger_read(rule_a.data(), rule_a.size()).rule)->sets == 5);
    CHECK(judge.verdict().error().number() == 21 && copy.verdict()->verdict == Verdict::no);
}

static void saved() {
    Judge judge, other;
    CHECK(judge.load(rule_a).has_value() && judge.open(2).has_value());
    const std::vector<std::uint8_t> zero = {0}, one = {1};
    CHECK(judge.deliver(0, 0, zero).has_value());
    std::vector<std::uint8_t> bytes(BELLBADGER_SAVED_SIZE);
    judge.save(bytes.data());
    CHECK(other.restore(bytes.data(), bytes.size() - 1).error().number() == 46 && other.verdict().error().number() == 21);
    CHECK(other.restore(bytes).has_value() && other.verdict()->verdict == Verdict::waiting);
    CHECK(other.deliver(1, 0, one).has_value() && other.verdict()->is_yes() && !judge.verdict()->is_yes());
    bytes[9]++;
    CHECK(other.restore(bytes).error().number() == 46 && other.verdict()->is_yes());
}

int main() {
    CHECK(bellbadger::fits());
    refusals();
    answers();
    saved();
#ifdef A_VERDICT_AS_TRUTH
    if (Judge().verdict()) std::puts("ship");
#endif
    std::puts("C++ class: as in C");
    return 0;
}
