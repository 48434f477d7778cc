// The valve trace judge as a class, from C++11 on, around the functions of bellbadger.h. It throws
// nothing and needs no exceptions: a call that may be refused answers a Result, which has a value or
// the number of the refusal. A refused call leaves the judge as it was.
#ifndef BELLBADGER_HPP
#define BELLBADGER_HPP

#include <cstddef>
#include <cstdint>
#include <cstdlib>

#include "bellbadger.h"

namespace bellbadger {

// Why a call was refused: its number, as bellbadger.h has them.
class Refused {
public:
    explicit Refused(std::uint8_t number) : number_(number) {}
    std::uint8_t number() const { return number_; }

private:
    std::uint8_t number_;
};

// A value, or a refusal. It is no truth value: that there is a verdict does not make it a yes.
template <typename Value>
class Result {
public:
    Result(const Value &value) : value_(value), number_(0) {}
    Result(Refused refused) : value_(), number_(refused.number()) {}

    bool has_value() const { return number_ == 0; }
    explicit operator bool() const = delete;

    // The value; where there is none the program is ended, so ask has_value() first.
    const Value &value() const {
        if (!has_value()) std::abort();
        return value_;
    }
    const Value &operator*() const { return value(); }
    const Value *operator->() const { return &value(); }
    Value value_or(const Value &other) const { return has_value() ? value_ : other; }

    // The refusal; where there is none its number is 0.
    Refused error() const { return Refused(number_); }

private:
    Value value_;
    std::uint8_t number_;
};

// That a call without an answer of its own was accepted.
struct Done {};

struct Loaded {
    std::uint16_t sets;
    std::uint8_t starts;
};

struct Looked {
    std::uint32_t bytes;
};

enum class Verdict : std::uint8_t { waiting = BELLBADGER_WAITING, yes = BELLBADGER_YES, no = BELLBADGER_NO };

// A verdict: with how many places are empty, or with the count, the bytes of the text and what is
// there for each.
struct Report {
    Verdict verdict;
    std::uint64_t number, bytes, quotient, remainder;

    BELLBADGER_RESULT bool is_yes() const { return verdict == Verdict::yes; }
};

// Whether the library that is linked or loaded is one that this header was written for.
BELLBADGER_RESULT inline bool fits() {
    const std::uint32_t version = bellbadger_version();
    return version >> 16 == BELLBADGER_VERSION_MAJOR && (version & 65535) >= BELLBADGER_VERSION_MINOR &&
           bellbadger_state_size() == sizeof(bellbadger_judge);
}

// One rule and one board: 28 KB, which stand where the object does.
class Judge {
public:
    Judge() { bellbadger_new_at(&judge_); }

    BELLBADGER_RESULT Result<Loaded> install(const bellbadger_checked_rule &rule) {
        Loaded loaded = {0, 0};
        const int refused = bellbadger_install_at(&judge_, &rule, &loaded.sets, &loaded.starts);
        return answer(refused, loaded);
    }

    BELLBADGER_RESULT Result<Loaded> load(const std::uint8_t *file, std::size_t length) {
        Loaded loaded = {0, 0};
        const int refused = bellbadger_load_at(&judge_, file, length, &loaded.sets, &loaded.starts);
        return answer(refused, loaded);
    }

    BELLBADGER_RESULT Result<Done> open(std::size_t places) { return answer(bellbadger_open_at(&judge_, places), Done()); }

    BELLBADGER_RESULT Result<Looked> deliver(std::size_t place, std::uint32_t revision, const std::uint8_t *chunk, std::size_t length) {
        Looked looked = {0};
        const int refused = bellbadger_deliver_at(&judge_, place, revision, chunk, length, &looked.bytes);
        return answer(refused, looked);
    }

    BELLBADGER_RESULT Result<Done> withdraw(std::size_t place) { return answer(bellbadger_withdraw_at(&judge_, place), Done()); }

    BELLBADGER_RESULT Result<Report> verdict() const {
        const bellbadger_verdict_result said = bellbadger_verdict_at(&judge_);
        switch (said.kind) {
            case BELLBADGER_WAITING:
            case BELLBADGER_YES:
            case BELLBADGER_NO:
                return Report{static_cast<Verdict>(said.kind), said.number, said.bytes, said.quotient, said.remainder};
            default:
                return Refused(static_cast<std::uint8_t>(said.number));
        }
    }

    // The judge as bytes, BELLBADGER_SAVED_SIZE of them, into out.
    void save(std::uint8_t *out) const { bellbadger_save_at(&judge_, out); }

    // Makes it the judge that was saved as the bytes; refused with 46 it stays as it is.
    BELLBADGER_RESULT Result<Done> restore(const std::uint8_t *bytes, std::size_t length) {
        return answer(bellbadger_restore_at(&judge_, bytes, length), Done());
    }

    // The same with anything that has data() and size(): a vector, an array, a span of bytes.
    template <typename Bytes>
    BELLBADGER_RESULT Result<Loaded> load(const Bytes &file) {
        return load(file.data(), file.size());
    }

    template <typename Bytes>
    BELLBADGER_RESULT Result<Looked> deliver(std::size_t place, std::uint32_t revision, const Bytes &chunk) {
        return deliver(place, revision, chunk.data(), chunk.size());
    }

    template <typename Bytes>
    BELLBADGER_RESULT Result<Done> restore(const Bytes &bytes) {
        return restore(bytes.data(), bytes.size());
    }

    // For the functions of the other headers.
    const bellbadger_judge &raw() const { return judge_; }

private:
    template <typename Value>
    static Result<Value> answer(int refused, const Value &value) {
        if (refused) return Refused(static_cast<std::uint8_t>(refused));
        return value;
    }

    bellbadger_judge judge_;
};

}  // namespace bellbadger

#endif
