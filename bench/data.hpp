// The records and windows of every run: the same on every machine, and the same for every peer.
#pragma once
#include <cstddef>
#include <cstdint>
#include <set>
#include <string>
#include <vector>

using Word = std::uint32_t;
using Words = std::vector<Word>;

// A key is 0 to this, less one.
constexpr Word infinity = 4294967295u;

// splitmix64 (Steele, Lea, Flood 2014).
struct Random {
    std::uint64_t state;
    std::uint64_t next() {
        std::uint64_t z = (state += 0x9e3779b97f4a7c15u);
        z = (z ^ (z >> 30)) * 0xbf58476d1ce4e5b9u;
        z = (z ^ (z >> 27)) * 0x94d049bb133111ebu;
        return z ^ (z >> 31);
    }
    // A number below `bound`, which is at most 2 ^ 32.
    Word below(std::uint64_t bound) { return Word(((next() >> 32) * bound) >> 32); }
};

// Uniform points of k keys, no two the same. Record i has location i + 1.
struct Records {
    int k = 0;
    Words keys;
    std::size_t count() const { return keys.size() / k; }
    const Word *point(std::size_t i) const { return keys.data() + i * k; }
    static Word location(std::size_t i) { return Word(i + 1); }
};

inline Records uniform(int k, std::size_t count, std::uint64_t seed) {
    Records r{k, {}};
    std::set<Words> seen;
    Random random{seed * 1000 + k};
    while (seen.size() < count) {
        Words point;
        for (int d = 0; d < k; d++) point.push_back(random.below(infinity));
        if (seen.insert(point).second) r.keys.insert(r.keys.end(), point.begin(), point.end());
    }
    return r;
}

// Windows of one kind: k lower ends, then k upper ends, for each.
struct Windows {
    int k = 0;
    std::string name;
    Words ends;
    std::size_t count() const { return ends.size() / (2 * k); }
    const Word *window(std::size_t i) const { return ends.data() + i * 2 * k; }
};

constexpr std::size_t windows_a_kind = 256;

// Windows as wide as `share` says of each axis, anywhere in the space.
inline Windows windows(const std::string &name, const std::vector<double> &share, std::uint64_t seed) {
    int k = int(share.size());
    Windows w{k, name, {}};
    Random random{seed * 1000 + k};
    for (std::size_t i = 0; i < windows_a_kind; i++) {
        Words lower, upper;
        for (int d = 0; d < k; d++) {
            auto wide = std::uint64_t(share[d] * infinity);
            Word at = random.below(infinity - wide + 1);
            lower.push_back(at);
            upper.push_back(Word(at + wide - 1));
        }
        w.ends.insert(w.ends.end(), lower.begin(), lower.end());
        w.ends.insert(w.ends.end(), upper.begin(), upper.end());
    }
    return w;
}

// Windows of one point each, every one a record's.
inline Windows one_point(const Records &records) {
    Windows w{records.k, "one point", {}};
    for (std::size_t i = 0; i < windows_a_kind; i++) {
        const Word *p = records.point(i * records.count() / windows_a_kind);
        w.ends.insert(w.ends.end(), p, p + records.k);
        w.ends.insert(w.ends.end(), p, p + records.k);
    }
    return w;
}

// The four kinds: .1 of each axis, .01 of the first and all of the others, .3 of each axis, one point.
inline std::vector<Windows> all_windows(const Records &records) {
    int k = records.k;
    auto by = [&](const char *share) {
        std::string name = share;
        for (int d = 1; d < k; d++) name += std::string(" x ") + share;
        return name;
    };
    std::vector<double> slab(k, 1.0);
    slab[0] = .01;
    std::string slab_name = ".01";
    for (int d = 1; d < k; d++) slab_name += " x 1";
    return {windows(by(".1"), std::vector<double>(k, .1), 11), windows(slab_name, slab, 12),
            windows(by(".3"), std::vector<double>(k, .3), 13), one_point(records)};
}
