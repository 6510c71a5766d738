// The floor: find and list over this library's pool in plain C++, with the tests that document 01 asks for and nothing proved.
// Same words, same pages read, same answers; K is known when it is compiled. What lies between this and a peer is the tree's
// shape, what lies between the library and this is the library's code.
#include "library.hpp"

namespace {
struct Plain : Peer {
    static constexpr int k = 2;
    Words pool;
    Word n = 0, reads = 0, total = 0, slots = 0;
    Word *answer = nullptr;

    const char *name() const override { return "plain walk"; }
    bool places() const override { return false; }
    void clear() override {}
    void place(const Word *, Word) override {}
    bool remove(const Word *, Word) override { return false; }
    void fill(const Records &records) override {
        Tree tree(k);
        for (std::size_t i = 0; i < records.count(); i++) tree.place(records.point(i), Records::location(i));
        n = 512;
        pool = tree.print(int(n));
    }
    bool good_header() const {
        Word rest = 0;
        for (int i = 5; i < 32; i++) rest |= pool[i];
        return pool[0] == k && pool[1] == n && pool[2] < n && pool[3] < n && (pool[2] == 0) == (pool[3] == 0) && rest == 0;
    }
    // The page, if it is one of this kind with a count that it may have.
    const Word *page(Word j, Word kind, Word least, Word most) const {
        if (j - 1 >= n - 1) return nullptr;
        const Word *p = pool.data() + 32 * j;
        return p[0] == kind && p[1] >= least && p[1] <= most ? p : nullptr;
    }
    bool walk(const Word *w, Word j, Word level) {
        if (++reads >= n) return false;
        if (level == 1) {
            const Word *p = page(j, 2, 0, 9);
            if (!p) return false;
            const Word *e = p + 4;
            Word here = 0;
            for (Word i = 0; i < 9; i++) {
                const Word *r = e + i * (k + 1);
                here |= Word((i < p[1]) & (r[0] - w[0] <= w[2] - w[0]) & (r[1] - w[1] <= w[3] - w[1])) << i;
            }
            for (; here; here &= here - 1, total++)
                if (total < slots) answer[total] = e[__builtin_ctz(here) * (k + 1) + k];
            return true;
        }
        const Word *p = page(j, 1, 1, 5);
        if (!p) return false;
        const Word *e = p + 4;
        Word hit[6], hits = 0;
        for (Word i = 0; i < 5; i++, e += 2 * k + 1) {
            Word low0 = std::max(e[0], w[0]), low1 = std::max(e[1], w[1]);
            hit[hits] = e[4];
            hits += (i < p[1]) & (low0 < e[2]) & (low0 <= w[2]) & (low1 < e[3]) & (low1 <= w[3]);
        }
        for (Word i = 0; i < hits; i++)
            if (!walk(w, hit[i], level - 1)) return false;
        return true;
    }
    Word list(const Word *w, Word *to) override {
        need(good_header() && w[0] <= w[2] && w[1] <= w[3], "a plain walk was refused");
        for (int i = 0; i < 2 * k; i++) need(w[i] != infinity, "a plain walk was refused");
        reads = total = 0, slots = 32 * n, answer = to;
        if (pool[3]) need(walk(w, pool[2], pool[3]), "a plain walk was refused");
        return total;
    }
    Word find(const Word *q) override {
        need(good_header() && q[0] != infinity && q[1] != infinity, "a plain walk was refused");
        Word j = pool[2];
        for (Word level = pool[3]; level > 1; level--) {
            const Word *p = page(j, 1, 1, 5);
            need(p, "a plain walk was refused");
            j = 0;
            const Word *e = p + 4;
            for (Word i = 0; i < p[1]; i++, e += 2 * k + 1)
                if ((e[0] <= q[0]) & (q[0] < e[2]) & (e[1] <= q[1]) & (q[1] < e[3])) {
                    j = e[4];
                    break;
                }
        }
        const Word *p = page(j, 2, 0, 9);
        need(p, "a plain walk was refused");
        const Word *e = p + 4;
        for (Word i = 0; i < p[1]; i++, e += k + 1)
            if (e[0] == q[0] && e[1] == q[1]) return e[2];
        return 0;
    }
};
} // namespace

std::unique_ptr<Peer> plain() { return std::make_unique<Plain>(); }
