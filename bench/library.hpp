// This library, through include/korytanka.h.
#pragma once
#include "peer.hpp"
#include "tree.hpp"
#include <cstdio>
#include <cstdlib>
#include <korytanka.h>

inline void need(bool good, const char *what) {
    if (good) return;
    std::fprintf(stderr, "bench: %s\n", what);
    std::exit(1);
}

struct Library : Peer {
    int k, n;
    Words pool, work;
    Word reads = 0; // by the last find or list

    Library(int k, int n) : k(k), n(n), pool(32 * n), work(32 * n) {}
    const char *name() const override { return "this library"; }
    bool places() const override { return true; }
    void clear() override { need(korytanka_format(pool.data(), pool.size(), k) == 0, "format was refused"); }

    // Places them; the pool is the one that bench/tree.hpp prints.
    void fill(const Filled &filled) {
        Peer::fill(filled.records);
        need(pool == filled.pool, "the pool is not the one that document 01 says");
        need(check() == 0, "a filled pool was not sound");
    }
    Word check() { return korytanka_check(pool.data(), pool.size()); }
    void place(const Word *p, Word location) override {
        need(korytanka_place(pool.data(), pool.size(), work.data(), work.size(), p, k, location) == 0, "place was refused");
    }
    bool remove(const Word *p, Word location) override {
        korytanka_removed r = korytanka_remove(pool.data(), pool.size(), p, k);
        return r.number == 0 && r.location == location;
    }
    Word list(const Word *w, Word *answer) override {
        korytanka_listed l = korytanka_list(pool.data(), pool.size(), w, 2 * k, answer, 32 * n);
        need(l.number == 0, "list was refused");
        reads = l.reads;
        return l.total;
    }
    Word find(const Word *p) override {
        korytanka_found f = korytanka_find(pool.data(), pool.size(), p, k);
        need(f.number == 0, "find was refused");
        reads = f.reads;
        return f.location;
    }
};
