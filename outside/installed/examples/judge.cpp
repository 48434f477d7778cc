// Judges a trace of two chunks, the second first, by the rule that accepts what ends in 0 1.
#include <cstdio>
#include <vector>

#include <bellbadger/bellbadger.hpp>

using Bytes = std::vector<std::uint8_t>;

int main() {
    const Bytes rule = {3, 2, 1, 0, 0, 0, 4, 0, 0, 0, 22, 0, 6, 0, 28, 0, 2, 0, 30, 0, 0, 0, 0, 0, 0, 1, 1, 0, 1, 2};
    bellbadger::Judge judge;
    const bool taken = judge.load(rule).has_value() && judge.open(2).has_value() && judge.deliver(1, 0, Bytes{1}).has_value() &&
                       judge.deliver(0, 0, Bytes{0}).has_value();
    if (!taken) return 2;
    const bool yes = judge.verdict()->is_yes();
    std::puts(yes ? "yes" : "no");
    return yes ? 0 : 1;
}
