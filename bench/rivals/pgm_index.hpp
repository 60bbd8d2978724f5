// A C++ PGM-index and its bucketed form, written from the published design (Ferragina and
// Vinciguerra, PVLDB 13(8), 2020) and not its authors' text. What may differ from theirs: of the
// slopes that fit the greatest is taken, as `float`, and multiplied in `double`; a line's height at
// its first key is rounded; one thread builds. Equal keys: the first place counts, and a point just
// above each run is added. A `float` slope has 24 bits, so a line over some 3e7 keys may miss its
// window.
#pragma once
#include "shared.hpp"
#include <cstddef>
#include <stdexcept>

using std::size_t;

namespace pgm {

// One line within eps of points that come one by one (O'Rourke, CACM 24(9), 1981). Slopes are
// fractions of whole numbers, compared by products of 128 bits. With CUTS the lower end of a
// point's range is cut at 0.
template <bool CUTS = true> class LineFitter {
    struct Vertex {
        u64 x;
        i64 y;
    };
    struct Direction {
        i128 dx, dy;
    };
    static Direction from_to(const Vertex &a, const Vertex &b) {
        return {(i128)b.x - (i128)a.x, (i128)b.y - (i128)a.y};
    }
    static bool less(const Direction &a, const Direction &b) { return a.dy * b.dx < b.dy * a.dx; }
    static bool greater(const Direction &a, const Direction &b) {
        return a.dy * b.dx > b.dy * a.dx;
    }
    static i128 cross(const Vertex &o, const Vertex &a, const Vertex &b) {
        Direction u = from_to(o, a), v = from_to(o, b);
        return u.dx * v.dy - u.dy * v.dx;
    }

    i64 eps_;
    std::vector<Vertex> low_, high_; // hulls: of the lower ends and of the upper ends
    size_t low_from_ = 0, high_from_ = 0;
    size_t count_ = 0;
    u64 first_x_ = 0, last_x_ = 0;
    Vertex r_[4] = {}; // r0,r2: the line of least slope; r1,r3: the line of greatest slope

public:
    explicit LineFitter(u64 eps) : eps_((i64)eps) {
        low_.reserve(1u << 16);
        high_.reserve(1u << 16);
    }

    // False where no line fits the point too. The fitter is then empty for the next line, and the
    // caller takes this one before it adds the point again.
    bool add(u64 x, u64 y) {
        if (count_ && x <= last_x_) throw std::logic_error("points must come with growing x");
        i64 low = (i64)y - eps_;
        if (CUTS && low < 0) low = 0;
        Vertex top{x, (i64)y + eps_}, bottom{x, low};

        if (count_ == 0) {
            first_x_ = last_x_ = x;
            r_[0] = top;
            r_[1] = bottom;
            low_.clear();
            high_.clear();
            low_.push_back(bottom);
            high_.push_back(top);
            low_from_ = high_from_ = 0;
            count_ = 1;
            return true;
        }
        if (count_ == 1) {
            last_x_ = x;
            r_[2] = bottom;
            r_[3] = top;
            low_.push_back(bottom);
            high_.push_back(top);
            count_ = 2;
            return true;
        }
        Direction least = from_to(r_[0], r_[2]), most = from_to(r_[1], r_[3]);
        if (less(from_to(r_[2], top), least) || greater(from_to(r_[3], bottom), most)) {
            count_ = 0;
            return false;
        }
        last_x_ = x;
        if (less(from_to(r_[1], top),
                 most)) { // the greatest slope goes down: pivot on the lower hull
            size_t at = low_from_;
            Direction best = from_to(top, low_[at]); // Both of each two go to the left.
            for (size_t i = at + 1; i < low_.size(); ++i) {
                Direction d = from_to(top, low_[i]);
                if (greater(d, best)) break;
                best = d;
                at = i;
            }
            r_[1] = low_[at];
            r_[3] = top;
            low_from_ = at;
            size_t end = high_.size();
            while (end >= high_from_ + 2 && cross(high_[end - 2], high_[end - 1], top) <= 0) --end;
            high_.resize(end);
            high_.push_back(top);
        }
        if (greater(from_to(r_[0], bottom),
                    least)) { // the least slope goes up: pivot on the upper hull
            size_t at = high_from_;
            Direction best = from_to(bottom, high_[at]);
            for (size_t i = at + 1; i < high_.size(); ++i) {
                Direction d = from_to(bottom, high_[i]);
                if (less(d, best)) break;
                best = d;
                at = i;
            }
            r_[0] = high_[at];
            r_[2] = bottom;
            high_from_ = at;
            size_t end = low_.size();
            while (end >= low_from_ + 2 && cross(low_[end - 2], low_[end - 1], bottom) >= 0) --end;
            low_.resize(end);
            low_.push_back(bottom);
        }
        ++count_;
        return true;
    }

    struct Line {
        u64 key;
        long double slope;
        i128 intercept;
    };
    // The line of greatest slope, its value at the first key rounded to the nearest integer.
    Line line(bool single) const {
        if (single) return {first_x_, 0, ((i128)r_[0].y + r_[1].y) / 2};
        Direction s = from_to(r_[1], r_[3]);
        i128 num = s.dy * ((i128)first_x_ - (i128)r_[1].x), den = s.dx;
        i128 half = (num < 0) != (den < 0) ? -(den / 2) : den / 2;
        return {first_x_, (long double)s.dy / (long double)s.dx, (num + half) / den + r_[1].y};
    }
    size_t points() const { return count_; }
};

// Fits the keys of the places below n: each distinct key at its first place, behind equal keys the
// number above them at the next place, and at the end the number above the last key at n.
template <class KeyAt, class Out> size_t segmentize(size_t n, u64 eps, KeyAt key, Out out) {
    LineFitter<true> fit(eps);
    size_t made = 0, in_line = 0;
    auto add = [&](u64 x, u64 y) {
        if (!fit.add(x, y)) {
            out(fit.line(in_line == 1));
            ++made;
            in_line = 0;
            fit.add(x, y);
        }
        ++in_line;
    };
    add(key(0), 0);
    for (size_t i = 1; i + 1 < n; ++i) {
        u64 k = key(i);
        if (k == key(i - 1)) {
            if (k + 1 < key(i + 1)) add(k + 1, i);
        } else
            add(k, i);
    }
    if (n >= 2 && key(n - 1) != key(n - 2)) add(key(n - 1), n - 1);
    add(key(n - 1) + 1, n);
    out(fit.line(in_line == 1));
    return made + 1;
}

struct Window {
    size_t pos, lo, hi;
};

template <class Floating> struct Segment {
    u64 key;
    Floating slope;
    u32 intercept;
    size_t operator()(u64 k) const { return (size_t)(slope * (double)(k - key)) + intercept; }
};

inline size_t minus_eps(size_t p, size_t e) { return p <= e ? 0 : p - e; }
inline size_t plus_eps(size_t p, size_t e, size_t n) { return p + e + 2 >= n ? n : p + e + 2; }

template <class Floating> Segment<Floating> pack(const typename LineFitter<true>::Line &l) {
    if (l.intercept < 0 || l.intercept > (i128)std::numeric_limits<u32>::max())
        throw std::overflow_error("intercept");
    return {l.key, (Floating)l.slope, (u32)l.intercept};
}

// No key may have this value.
constexpr u64 SENTINEL = std::numeric_limits<u64>::max();

// Ends a level in one sentinel, and has the numbers above the last key go to the count.
template <class Piece> void close_level(std::vector<Piece> &segments, u64 last_key, size_t count) {
    if (segments.back().key == SENTINEL) return;
    if (last_key + 1 != SENTINEL && segments.back()(SENTINEL - 1) < count)
        segments.push_back({last_key + 1, 0, (u32)count});
    segments.push_back({SENTINEL, 0, (u32)count});
}

template <size_t Epsilon = 64, size_t EpsilonRecursive = 4, class Floating = float> class Index {
public:
    using Piece = Segment<Floating>;

private:
    size_t n_ = 0;
    u64 first_ = 0;
    std::vector<Piece> segments_; // Level 0 first; a sentinel ends each level.
    std::vector<size_t> starts_;  // Where each level starts, and the end.

public:
    Index() = default;
    template <class It> Index(It first, It last) : n_((size_t)(last - first)) {
        if (!n_) return;
        first_ = first[0];
        if (first[n_ - 1] == SENTINEL)
            throw std::invalid_argument("the largest key value is reserved");
        segments_.reserve(n_ / (Epsilon * Epsilon) + 8);
        starts_.push_back(0);
        auto level = [&](u64 eps, size_t count, auto key) {
            size_t from = segments_.size();
            u64 last_key = key(count - 1);
            segmentize(count, eps, key,
                       [&](const auto &l) { segments_.push_back(pack<Floating>(l)); });
            close_level(segments_, last_key, count);
            starts_.push_back(segments_.size());
            return segments_.size() - from - 1;
        };
        size_t made = level(Epsilon, n_, [&](size_t i) { return (u64)first[(long)i]; });
        while (EpsilonRecursive && made > 1) {
            size_t off = starts_[starts_.size() - 2];
            made = level(EpsilonRecursive, made,
                         [&, off](size_t i) { return segments_[off + i].key; });
        }
    }

    const Piece *segment_for(u64 k) const {
        const Piece *base = segments_.data();
        if constexpr (EpsilonRecursive == 0) {
            auto it = std::upper_bound(base, base + starts_[1] - 1, k,
                                       [](u64 q, const Piece &s) { return q < s.key; });
            return it - 1;
        } else {
            const Piece *it = base + starts_[starts_.size() - 2];
            for (int l = (int)starts_.size() - 3; l >= 0; --l) {
                size_t pos = std::min<size_t>((*it)(k), it[1].intercept);
                const Piece *lo = base + starts_[(size_t)l] + minus_eps(pos, EpsilonRecursive + 1);
                while (lo[1].key <= k) ++lo;
                it = lo;
            }
            return it;
        }
    }
    Window search(u64 q) const {
        u64 k = std::max(first_, q);
        const Piece *it = segment_for(k);
        size_t pos = std::min<size_t>((*it)(k), it[1].intercept);
        return {pos, minus_eps(pos, Epsilon), plus_eps(pos, Epsilon, n_)};
    }
    size_t segments() const { return starts_.empty() ? 0 : starts_[1] - 1; }
    size_t height() const { return starts_.empty() ? 0 : starts_.size() - 1; }
    size_t bytes() const {
        return segments_.size() * sizeof(Piece) + starts_.size() * sizeof(size_t);
    }
};

// One level of segments, found by a table of equal steps of the keys.
template <size_t Epsilon = 64, size_t Top = 65536, class Floating = float> class Bucketing {
    using Piece = Segment<Floating>;
    size_t n_ = 0;
    u64 first_ = 0, step_ = 1;
    std::vector<Piece> segments_;
    std::vector<u32> top_;
    size_t made_ = 0;

public:
    template <class It> Bucketing(It first, It last) : n_((size_t)(last - first)) {
        if (!n_) return;
        first_ = first[0];
        u64 last_key = first[n_ - 1];
        if (last_key == SENTINEL) throw std::invalid_argument("the largest key value is reserved");
        segmentize(
            n_, Epsilon, [&](size_t i) { return (u64)first[(long)i]; },
            [&](const auto &l) { segments_.push_back(pack<Floating>(l)); });
        close_level(segments_, last_key, n_);
        made_ = segments_.size() - 1;
        step_ = last_key / Top + 1;
        top_.resize(Top + 1);
        size_t s = 0;
        // Of each step the first segment that begins in it or later.
        for (size_t j = 0; j <= Top; ++j) {
            while (s < made_ && (u128)segments_[s].key < (u128)step_ * j) ++s;
            top_[j] = (u32)s;
        }
    }
    Window search(u64 q) const {
        u64 k = std::max(first_, q);
        size_t j = std::min<u64>(k / step_, Top - 1);
        auto lo = segments_.data() + top_[j],
             hi = segments_.data() + (k / step_ >= Top ? made_ : top_[j + 1]);
        auto it = std::upper_bound(lo, hi, k, [](u64 x, const Piece &s) { return x < s.key; }) - 1;
        size_t pos = std::min<size_t>((*it)(k), it[1].intercept);
        return {pos, minus_eps(pos, Epsilon), plus_eps(pos, Epsilon, n_)};
    }
    size_t segments() const { return made_; }
    size_t height() const { return 2; }
    size_t bytes() const { return segments_.size() * sizeof(Piece) + top_.size() * sizeof(u32); }
};

} // namespace pgm
