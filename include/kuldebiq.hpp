// SPDX-License-Identifier: MIT
//
// Kuldebiq for C++20: the calls of kuldebiq.h with spans, handles that free themselves, ranges, and
// refusals that are thrown. What a call answers, costs and asks of its pointers is said there. None
// of this file is proved; it has no code but what passes the calls on.
//
// A refusal for want of memory is std::bad_alloc, and each other one kuldebiq::refused. What a
// refused call leaves as it was, stays as it was. An index or a map that moved holds nothing, and
// each call of it is refused with KULDEBIQ_NOTHING_HELD. A call of an index or a map also writes to
// its handle when it only asks, so none is const, and none runs beside another of the same object.
#ifndef KULDEBIQ_HPP
#define KULDEBIQ_HPP

#include "kuldebiq.h"

#include <array>
#include <bit>
#include <concepts>
#include <cstddef>
#include <cstdint>
#include <iterator>
#include <new>
#include <optional>
#include <span>
#include <stdexcept>
#include <string>
#include <type_traits>
#include <utility>
#include <vector>

namespace kuldebiq {

using pair = kuldebiq_pair;
using region = kuldebiq_region;
using segment = kuldebiq_segment;
using stretch = kuldebiq_stretch;
using update = kuldebiq_update;

// Hints, keys or questions, which lie with the caller.
using words = std::span<const std::uint64_t>;

// A call that was refused, otherwise than for want of memory.
class refused : public std::runtime_error {
public:
    explicit refused(kuldebiq_answer answer)
        : std::runtime_error(kuldebiq_status_text(answer.status) + std::string(" (") +
                             std::to_string(answer.number) + ')'),
          answer_(answer) {}
    std::uint32_t status() const noexcept { return answer_.status; }
    std::uint64_t number() const noexcept { return answer_.number; }

private:
    kuldebiq_answer answer_;
};

// The number of a call that was done. Throws of one that was refused.
inline std::uint64_t number(kuldebiq_answer answer) {
    if (answer.status == KULDEBIQ_NO_MEMORY) throw std::bad_alloc();
    if (answer.status != KULDEBIQ_DONE) throw refused(answer);
    return answer.number;
}

// A handle that frees what it holds. It moves, and isn't copied.
template <typename Handle, void (*Free)(Handle *)> class owned {
public:
    owned() = default;
    owned(owned &&other) noexcept : handle_(std::exchange(other.handle_, KULDEBIQ_NOTHING)) {}
    owned &operator=(owned &&other) noexcept {
        if (this != &other) {
            Free(&handle_);
            handle_ = std::exchange(other.handle_, KULDEBIQ_NOTHING);
        }
        return *this;
    }
    ~owned() { Free(&handle_); }

    // For calls of kuldebiq.h.
    Handle *get() noexcept { return &handle_; }

private:
    Handle handle_ = KULDEBIQ_NOTHING;
};

// A key of 64 or 32 bits.
template <typename Key>
concept key = std::same_as<Key, std::uint64_t> || std::same_as<Key, std::uint32_t>;

// ---- Lookups by hints

// The hints of sorted keys, which kuldebiq_hints_build makes.
template <key Key>
std::vector<std::uint64_t> hints_of(std::span<const Key> keys, std::uint32_t epsilon = 64) {
    owned<kuldebiq_hints, kuldebiq_hints_free> held;
    const auto answer = [&] {
        if constexpr (std::same_as<Key, std::uint64_t>) {
            return kuldebiq_hints_build(held.get(), keys.data(), keys.size(), epsilon);
        } else {
            return kuldebiq_hints_build32(held.get(), keys.data(), keys.size(), epsilon);
        }
    }();
    std::vector<std::uint64_t> hints(number(answer));
    number(kuldebiq_hints_write(held.get(), hints.data(), hints.size()));
    return hints;
}

inline std::vector<std::uint64_t> hints_of(const std::vector<std::uint64_t> &keys,
                                           std::uint32_t epsilon = 64) {
    return hints_of(words(keys), epsilon);
}

inline std::vector<std::uint64_t> hints_of(const std::vector<std::uint32_t> &keys,
                                           std::uint32_t epsilon = 64) {
    return hints_of(std::span<const std::uint32_t>(keys), epsilon);
}

// Sorted keys of 64 or 32 bits with the hints that lead a lookup among them. Both lie elsewhere and
// outlive this view. It may be copied, and any number of threads may ask.
template <key Key> class sorted {
public:
    sorted(std::span<const Key> keys, words hints) : keys_(keys), hints_(hints) {}

    std::span<const Key> keys() const { return keys_; }
    words hints() const { return hints_; }

    // How many keys are below the question.
    std::size_t find(std::uint64_t question) const {
        const auto call = [] {
            if constexpr (is_wide) return kuldebiq_find; else return kuldebiq_find32;
        }();
        return call(keys_.data(), keys_.size(), hints_.data(), hints_.size(), question);
    }

    // How many keys are at most the question.
    std::size_t find_past(std::uint64_t question) const {
        const auto call = [] {
            if constexpr (is_wide) return kuldebiq_find_past; else return kuldebiq_find_past32;
        }();
        return call(keys_.data(), keys_.size(), hints_.data(), hints_.size(), question);
    }

    // The places of many questions, written at their places.
    void find_many(words questions, std::span<std::size_t> places) const {
        const auto call = [] {
            if constexpr (is_wide) return kuldebiq_find_many; else return kuldebiq_find_many32;
        }();
        number(call(keys_.data(), keys_.size(), hints_.data(), hints_.size(), questions.data(),
                    questions.size(), places.data(), places.size()));
    }

    // The places behind many questions, written at their places.
    void find_past_many(words questions, std::span<std::size_t> places) const {
        const auto call = [] {
            if constexpr (is_wide) return kuldebiq_find_past_many;
            else return kuldebiq_find_past_many32;
        }();
        number(call(keys_.data(), keys_.size(), hints_.data(), hints_.size(), questions.data(),
                    questions.size(), places.data(), places.size()));
    }

    // The keys from one number to another, both included.
    std::span<const Key> between(std::uint64_t low, std::uint64_t high) const {
        const std::size_t from = find(low), to = find_past(high);
        return from < to ? keys_.subspan(from, to - from) : std::span<const Key>{};
    }

private:
    static constexpr bool is_wide = std::same_as<Key, std::uint64_t>;
    std::span<const Key> keys_;
    words hints_;
};

template <typename List>
sorted(const List &, words) -> sorted<std::remove_cv_t<typename List::value_type>>;

// Where hints say that the question's place is, among so many keys that lie elsewhere.
inline std::size_t told(words hints, std::size_t count, std::uint64_t question) noexcept {
    return kuldebiq_told(hints.data(), hints.size(), count, question);
}

// What hints say of themselves; nothing of hints in no format.
inline std::optional<kuldebiq_hints_facts> facts_of(words hints) noexcept {
    kuldebiq_hints_facts facts{};
    kuldebiq_hints_of(hints.data(), hints.size(), &facts);
    return facts.known == 1 ? std::optional(facts) : std::nullopt;
}

// ---- Boxes

// The code of a point.
inline std::uint64_t code(std::span<const std::uint32_t> point) {
    return number(kuldebiq_code(point.data(), point.size()));
}

// The places of sorted codes that lie in a region, as a range of stretches. Codes and hints lie
// elsewhere and outlive it. A region that is refused throws where the range begins.
class box {
public:
    class iterator {
    public:
        using value_type = stretch;
        using difference_type = std::ptrdiff_t;

        explicit iterator(const box &of) : of_(&of) { ++*this; }
        const stretch &operator*() const { return at_; }
        iterator &operator++() {
            some_ = number(kuldebiq_box(of_->codes_.data(), of_->codes_.size(), of_->hints_.data(),
                                        of_->hints_.size(), &of_->region_, at_.end, &at_)) != 0;
            return *this;
        }
        void operator++(int) { ++*this; }
        bool operator==(std::default_sentinel_t) const { return !some_; }

    private:
        const box *of_;
        stretch at_{0, 0};
        bool some_ = false;
    };

    box(words codes, words hints, const kuldebiq::region &in)
        : codes_(codes), hints_(hints), region_(in) {}
    iterator begin() const { return iterator(*this); }
    static std::default_sentinel_t end() { return {}; }

private:
    words codes_, hints_;
    kuldebiq::region region_;
};
static_assert(std::input_iterator<box::iterator>);

// The places of sorted codes whose points are nearest to a centre, by KULDEBIQ_CHEBYSHEV or
// KULDEBIQ_EUCLID, the nearest first: as many as there is room for. Gives how many were written.
inline std::size_t nearest(words codes, words hints, std::span<const std::uint32_t> centre,
                           std::uint32_t metric, std::span<kuldebiq_neighbour> neighbours) {
    return number(kuldebiq_nearest(codes.data(), codes.size(), hints.data(), hints.size(),
                                   centre.data(), centre.size(), metric, neighbours.data(),
                                   neighbours.size()));
}

// ---- The index

// An index over a copy of sorted keys.
class index {
public:
    explicit index(words keys, std::uint32_t epsilon = 64, std::uint32_t epsilon_above = 4) {
        number(kuldebiq_index_build(get(), keys.data(), keys.size(), epsilon, epsilon_above));
    }

    // A second handle to the same index, for another thread.
    index share() {
        index other{unbuilt{}};
        number(kuldebiq_index_share(get(), other.get()));
        return other;
    }

    std::uint64_t position(std::uint64_t question) {
        return number(kuldebiq_position(get(), question));
    }
    std::uint64_t position_after(std::uint64_t question) {
        return number(kuldebiq_position_after(get(), question));
    }
    void positions(words questions, std::span<std::uint32_t> positions) {
        number(kuldebiq_positions(get(), questions.data(), questions.size(), positions.data(),
                                  positions.size()));
    }
    std::uint64_t key_at(std::uint64_t place) { return number(kuldebiq_key_at(get(), place)); }
    std::uint64_t size() { return number(kuldebiq_index_keys(get())); }
    std::uint64_t levels() { return number(kuldebiq_index_levels(get())); }
    std::uint64_t segments(std::uint32_t level) {
        return number(kuldebiq_index_segments(get(), level));
    }
    kuldebiq::segment segment(std::uint32_t level, std::uint64_t place) {
        kuldebiq::segment found{};
        number(kuldebiq_index_segment(get(), level, place, &found));
        return found;
    }

    // For calls of kuldebiq.h.
    kuldebiq_index *get() noexcept { return held_.get(); }

private:
    struct unbuilt {};
    explicit index(unbuilt) {}
    owned<kuldebiq_index, kuldebiq_index_free> held_;
};

// ---- The map

// What an update does that a map can't accept any more: it compacts the map first, to as many
// levels as leave half of its entries free, or it is refused with KULDEBIQ_FULL.
enum class when_full { compact, refuse };

// The pairs of a map from one key to another, both included, by rising key. They are asked for in
// blocks as one goes along; the map stands, unmoved and unchanged, as long. One goes along once.
class pairs {
public:
    class iterator {
    public:
        using value_type = pair;
        using difference_type = std::ptrdiff_t;

        explicit iterator(pairs &of) : of_(&of) {}
        const pair &operator*() const { return of_->block_[of_->at_]; }
        iterator &operator++() {
            of_->pass();
            return *this;
        }
        void operator++(int) { of_->pass(); }
        bool operator==(std::default_sentinel_t) const { return of_->at_ == of_->count_; }

    private:
        pairs *of_;
    };

    pairs(kuldebiq_map *map, std::uint64_t low, std::uint64_t high) : map_(map), high_(high) {
        fill(low);
    }
    iterator begin() { return iterator(*this); }
    static std::default_sentinel_t end() { return {}; }

private:
    void fill(std::uint64_t low) {
        at_ = 0;
        count_ = number(kuldebiq_map_range(map_, low, high_, block_.data(), block_.size()));
    }

    // A block that isn't full is the last one.
    void pass() {
        const std::uint64_t key = block_[at_].key;
        if (++at_ < block_.size()) return;
        if (key < high_) {
            fill(key + 1);
        } else {
            at_ = count_ = 0;
        }
    }

    kuldebiq_map *map_;
    std::uint64_t high_;
    std::array<pair, 256> block_{};
    std::size_t at_ = 0, count_ = 0;
};
static_assert(std::input_iterator<pairs::iterator>);

// The same by falling key, each asked for by itself.
class pairs_back {
public:
    class iterator {
    public:
        using value_type = pair;
        using difference_type = std::ptrdiff_t;

        explicit iterator(const pairs_back &of) : of_(&of) { fill(of.high_); }
        const pair &operator*() const { return at_; }
        iterator &operator++() {
            if (at_.key > of_->low_) {
                fill(at_.key - 1);
            } else {
                some_ = false;
            }
            return *this;
        }
        void operator++(int) { ++*this; }
        bool operator==(std::default_sentinel_t) const { return !some_; }

    private:
        void fill(std::uint64_t to) {
            const kuldebiq_answer answer = kuldebiq_map_previous(of_->map_, to, &at_);
            some_ = answer.status != KULDEBIQ_ABSENT && (number(answer), at_.key >= of_->low_);
        }

        const pairs_back *of_;
        pair at_{};
        bool some_ = false;
    };

    pairs_back(kuldebiq_map *map, std::uint64_t low, std::uint64_t high)
        : map_(map), low_(low), high_(high) {}
    iterator begin() const { return iterator(*this); }
    static std::default_sentinel_t end() { return {}; }

private:
    kuldebiq_map *map_;
    std::uint64_t low_, high_;
};
static_assert(std::input_iterator<pairs_back::iterator>);

// An ordered map of keys to values.
class map {
public:
    static constexpr std::uint64_t greatest = UINT64_MAX;

    // An empty map of so many levels, 1 to 26.
    explicit map(std::uint32_t levels = 10) { number(kuldebiq_map_new(get(), levels)); }

    // The map of pairs whose keys rise.
    map(std::span<const pair> pairs, std::uint32_t levels) {
        number(kuldebiq_map_load(get(), levels, pairs.data(), pairs.size()));
    }

    // ---- Updates

    void put(std::uint64_t key, std::uint64_t value, when_full then = when_full::compact) {
        written([&] { return kuldebiq_map_put(get(), key, value); }, then);
    }
    // Whether there was such a key.
    bool del(std::uint64_t key, when_full then = when_full::compact) {
        return written([&] { return kuldebiq_map_del(get(), key); }, then) != 0;
    }
    // How many keys there were.
    std::uint64_t sweep(std::uint64_t low, std::uint64_t high,
                        when_full then = when_full::compact) {
        return written([&] { return kuldebiq_map_sweep(get(), low, high); }, then);
    }
    // All of the updates in order, or none.
    void apply(std::span<const update> updates, when_full then = when_full::compact) {
        written([&] { return kuldebiq_map_apply(get(), updates.data(), updates.size()); }, then);
    }
    // The least or the greatest key with its value, which go.
    std::optional<pair> pop_first(when_full then = when_full::compact) {
        return popped(kuldebiq_map_pop_first, then);
    }
    std::optional<pair> pop_last(when_full then = when_full::compact) {
        return popped(kuldebiq_map_pop_last, then);
    }
    // Makes the map anew with so many levels. Gives how many keys it has.
    std::uint64_t compact(std::uint32_t levels) {
        return number(kuldebiq_map_compact(get(), levels));
    }

    // ---- Questions

    std::optional<std::uint64_t> get(std::uint64_t key) {
        const kuldebiq_answer answer = kuldebiq_map_get(get(), key);
        if (answer.status == KULDEBIQ_ABSENT) return std::nullopt;
        return number(answer);
    }
    // The values at many keys, written at their places, and whether the map has the key: 1, or else
    // 0 with 0 as the value.
    void get_many(words keys, std::span<std::uint64_t> values, std::span<std::uint8_t> present) {
        number(kuldebiq_map_get_many(get(), keys.data(), keys.size(), values.data(), values.size(),
                                     present.data(), present.size()));
    }
    bool contains(std::uint64_t key) { return number(kuldebiq_map_contains(get(), key)) != 0; }
    bool empty() { return number(kuldebiq_map_is_empty(get())) != 0; }
    // How many keys there are from one to another, both included. Goes along them.
    std::uint64_t count(std::uint64_t low = 0, std::uint64_t high = greatest) {
        return number(kuldebiq_map_count(get(), low, high));
    }
    std::optional<pair> first() {
        return paired([&](pair *at) { return kuldebiq_map_first(get(), at); });
    }
    std::optional<pair> last() {
        return paired([&](pair *at) { return kuldebiq_map_last(get(), at); });
    }
    // The first pair from a key on, and the last one up to a key.
    std::optional<pair> next(std::uint64_t from) {
        return paired([&](pair *at) { return kuldebiq_map_next(get(), from, at); });
    }
    std::optional<pair> previous(std::uint64_t to) {
        return paired([&](pair *at) { return kuldebiq_map_previous(get(), to, at); });
    }
    pairs range(std::uint64_t low = 0, std::uint64_t high = greatest) {
        return pairs(get(), low, high);
    }
    pairs_back range_back(std::uint64_t low = 0, std::uint64_t high = greatest) {
        return pairs_back(get(), low, high);
    }
    // How many entries the map has accepted, and how many it accepts in its life.
    std::uint64_t accepted() { return number(kuldebiq_map_accepted(get())); }
    std::uint64_t capacity() { return number(kuldebiq_map_capacity(get())); }
    std::uint32_t levels() { return std::uint32_t(std::bit_width((capacity() + 1) / 64)) - 1; }

    // For calls of kuldebiq.h.
    kuldebiq_map *get() noexcept { return held_.get(); }

private:
    static constexpr std::uint32_t most_levels = 26;

    // An update; where the map is full, it is compacted and given as many more levels as it takes.
    template <typename Call> std::uint64_t written(Call call, when_full then) {
        kuldebiq_answer answer = call();
        if (answer.status != KULDEBIQ_FULL || then == when_full::refuse) return number(answer);
        const std::uint64_t keys = count();
        std::uint32_t wanted = levels();
        while (wanted < most_levels && (std::uint64_t(64) << wanted) <= 2 * keys) wanted++;
        compact(wanted);
        answer = call();
        while (answer.status == KULDEBIQ_FULL && wanted < most_levels) {
            compact(++wanted);
            answer = call();
        }
        return number(answer);
    }

    template <typename Call> std::optional<pair> popped(Call call, when_full then) {
        pair taken{};
        bool absent = false;
        written(
            [&] {
                const kuldebiq_answer answer = call(get(), &taken);
                absent = answer.status == KULDEBIQ_ABSENT;
                return absent ? kuldebiq_answer{KULDEBIQ_DONE, 0} : answer;
            },
            then);
        return absent ? std::nullopt : std::optional(taken);
    }

    template <typename Call> static std::optional<pair> paired(Call call) {
        pair found{};
        const kuldebiq_answer answer = call(&found);
        if (answer.status == KULDEBIQ_ABSENT) return std::nullopt;
        number(answer);
        return found;
    }

    owned<kuldebiq_map, kuldebiq_map_free> held_;
};

} // namespace kuldebiq

#endif
