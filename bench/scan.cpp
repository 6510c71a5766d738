// A linear scan for K = 2: the records in one array, every one looked at. Placing looks whether the point is there; removing
// puts the last record in the gap.
#include "peer.hpp"

namespace {
struct Scan : Peer {
    struct Record {
        Word key[2], location;
    };
    std::vector<Record> all;
    const char *name() const override { return "scan"; }
    void clear() override { all.clear(); }
    std::size_t at(const Word *p) const {
        std::size_t i = 0;
        while (i < all.size() && !(all[i].key[0] == p[0] && all[i].key[1] == p[1])) i++;
        return i;
    }
    void place(const Word *p, Word location) override {
        if (at(p) == all.size()) all.push_back({{p[0], p[1]}, location});
    }
    bool remove(const Word *p, Word location) override {
        std::size_t i = at(p);
        if (i == all.size() || all[i].location != location) return false;
        all[i] = all.back();
        all.pop_back();
        return true;
    }
    Word list(const Word *w, Word *answer) override {
        Word found = 0;
        for (const Record &r : all) {
            answer[found] = r.location; // no branch: the next record found overwrites it
            found += (r.key[0] >= w[0]) & (r.key[0] <= w[2]) & (r.key[1] >= w[1]) & (r.key[1] <= w[3]);
        }
        return found;
    }
    Word find(const Word *p) override {
        std::size_t i = at(p);
        return i == all.size() ? 0 : all[i].location;
    }
};
} // namespace

std::unique_ptr<Peer> scan() { return std::make_unique<Scan>(); }
