// Robinson's tree, grown in memory by the steps of document 01 with any R and P, the pages that each placing touches counted.
// It is there to count (bench/robinson.cpp), to say how many records a pool takes, and to print a filled pool. The
// library's filled pool is compared with this tree's, word for word.
#pragma once
#include "data.hpp"
#include <algorithm>
#include <deque>
#include <optional>

// R and P of a page of `words` words of which the first `head` are no entries.
inline int regions_a_page(int k, int words = 32, int head = 4) { return (words - head) / (2 * k + 1); }
inline int points_a_page(int k, int words = 32, int head = 4) { return (words - head) / (k + 1); }

struct Tree {
    struct Page {
        bool leaf;
        Word domain;
        Words entries;
    };
    struct Broke {
        int domain;
        Word cut;
        int right;
    };

    int k, most_regions, most_points;
    std::deque<Page> pages{Page{}}; // page 0 is the header; nothing is freed, so the next number is the lowest free one
    int root = 0, levels = 0;
    std::size_t records = 0;
    std::vector<int> read, written; // by the last placing

    Tree(int k, int regions, int points) : k(k), most_regions(regions), most_points(points) {}
    explicit Tree(int k) : Tree(k, regions_a_page(k), points_a_page(k)) {}

    int width(const Page &p) const { return p.leaf ? k + 1 : 2 * k + 1; }
    int count(const Page &p) const { return int(p.entries.size()) / width(p); }
    bool overfull(const Page &p) const { return count(p) > (p.leaf ? most_points : most_regions); }
    int used() const { return int(pages.size()) - 1; }

    void place(const Word *point, Word location) {
        read.clear();
        written.clear();
        int before = int(pages.size());
        Words record(point, point + k);
        record.push_back(location);
        records++;
        if (root == 0) {
            root = claim(true, 0);
            levels = 1;
            pages[root].entries = record;
        } else if (auto broke = put(root, record)) {
            int top = claim(false, 0);
            Words left(k, 0), right(k, 0);
            left.resize(2 * k, infinity);
            right.resize(2 * k, infinity);
            left[k + broke->domain] = right[broke->domain] = broke->cut;
            left.push_back(root);
            right.push_back(broke->right);
            pages[top].entries = left;
            append(pages[top], right.data());
            root = top;
            levels++;
        }
        // Each page once, and of those read only pages that were there before.
        for (auto *list : {&read, &written}) {
            std::sort(list->begin(), list->end());
            list->erase(std::unique(list->begin(), list->end()), list->end());
        }
        read.erase(std::lower_bound(read.begin(), read.end(), before), read.end());
    }

    // The pages of each level, the root's first.
    std::vector<int> by_level() const {
        std::vector<int> counts, here;
        if (root) here = {root};
        while (!here.empty()) {
            counts.push_back(int(here.size()));
            std::vector<int> next;
            for (int at : here)
                if (!pages[at].leaf)
                    for (int i = 0; i < count(pages[at]); i++) next.push_back(child(pages[at], i));
            here = next;
        }
        return counts;
    }

    // The words that entries take, all pages together.
    std::size_t entry_words() const {
        std::size_t sum = 0;
        for (const Page &p : pages) sum += p.entries.size();
        return sum;
    }

    // The pool that holds this tree, for pages of 32 words.
    Words print(int n) const {
        Words w(32 * n, 0);
        w[0] = k, w[1] = n, w[2] = root, w[3] = levels, w[4] = Word(records);
        for (std::size_t at = 1; at < pages.size(); at++) {
            const Page &p = pages[at];
            Word *to = &w[32 * at];
            to[0] = p.leaf ? 2 : 1, to[1] = count(p), to[2] = p.domain;
            std::copy(p.entries.begin(), p.entries.end(), to + 4);
        }
        return w;
    }

  private:
    Word *entry(Page &p, int i) { return p.entries.data() + i * width(p); }
    int child(const Page &p, int i) const { return int(p.entries[i * width(p) + 2 * k]); }
    void append(Page &p, const Word *e) { p.entries.insert(p.entries.end(), e, e + width(p)); }

    int claim(bool leaf, Word domain) {
        pages.push_back(Page{leaf, domain, {}});
        written.push_back(used());
        return used();
    }

    std::optional<Broke> put(int at, const Words &record) {
        Page &p = pages[at];
        read.push_back(at);
        if (p.leaf) {
            append(p, record.data());
        } else {
            int i = 0;
            for (;; i++) {
                const Word *e = entry(p, i);
                bool holds = true;
                for (int d = 0; d < k; d++) holds = holds && e[d] <= record[d] && record[d] < e[k + d];
                if (holds) break;
            }
            auto broke = put(child(p, i), record);
            if (!broke) return {};
            Words right(entry(p, i), entry(p, i) + width(p));
            right[broke->domain] = entry(p, i)[k + broke->domain] = broke->cut;
            right[2 * k] = broke->right;
            append(p, right.data());
        }
        written.push_back(at);
        if (!overfull(p)) return {};
        auto [domain, cut] = choose(p);
        return Broke{domain, cut, split(at, domain, cut, (domain + 1) % k)};
    }

    std::pair<int, Word> choose(Page &p) {
        for (int step = 0;; step++) {
            int domain = int(p.domain + step) % k;
            Words keys;
            for (int i = 0; i < count(p); i++) keys.push_back(entry(p, i)[domain]);
            std::sort(keys.begin(), keys.end());
            auto at = keys.begin() + keys.size() / 2;
            if (*at == keys[0]) at = std::upper_bound(keys.begin(), keys.end(), keys[0]);
            if (at != keys.end()) return {domain, *at};
        }
    }

    int split(int at, int domain, Word cut, Word after) {
        Page old = std::move(pages[at]);
        int right = claim(old.leaf, after);
        pages[at] = Page{old.leaf, after, {}};
        read.push_back(at);
        written.push_back(at);
        for (int i = 0; i < count(old); i++) {
            Word *e = entry(old, i);
            if (old.leaf ? e[domain] < cut : e[k + domain] <= cut) {
                append(pages[at], e);
            } else if (e[domain] >= cut) {
                append(pages[right], e);
            } else {
                int below = child(old, i);
                int other = split(below, domain, cut, pages[below].domain);
                Words half(e, e + width(old));
                half[domain] = e[k + domain] = cut;
                half[2 * k] = other;
                append(pages[at], e);
                append(pages[right], half.data());
            }
        }
        return right;
    }
};

// The uniform records of k keys that a pool of n pages takes before the first 9, and the pool with all of them.
struct Filled {
    Records records;
    Words pool;
};

inline Filled filled(int k, int n, std::uint64_t seed = 1) {
    Records all = uniform(k, std::size_t(n) * points_a_page(k), seed);
    std::size_t takes = 0;
    for (Tree tree(k); takes < all.count(); takes++) {
        tree.place(all.point(takes), Records::location(takes));
        if (tree.used() >= n) break;
    }
    all.keys.resize(takes * k);
    Tree tree(k);
    for (std::size_t i = 0; i < takes; i++) tree.place(all.point(i), Records::location(i));
    return {all, tree.print(n)};
}
