// libspatialindex's R-tree for K = 2: R*, in memory, fill factor .7 and 100 entries a node, as its own tools set them.
#include "peer.hpp"
#include <spatialindex/SpatialIndex.h>

namespace {
namespace si = SpatialIndex;

struct Take : si::IVisitor {
    Word *next;
    void visitNode(const si::INode &) override {}
    void visitData(const si::IData &d) override { *next++ = Word(d.getIdentifier()); }
    void visitData(std::vector<const si::IData *> &) override {}
};

struct Spatial : Peer {
    std::unique_ptr<si::IStorageManager> store;
    std::unique_ptr<si::ISpatialIndex> tree;
    Spatial() { clear(); }
    const char *name() const override { return "libspatialindex"; }
    void clear() override {
        tree.reset();
        store.reset(si::StorageManager::createNewMemoryStorageManager());
        si::id_type id;
        tree.reset(si::RTree::createNewRTree(*store, 0.7, 100, 100, 2, si::RTree::RV_RSTAR, id));
    }
    static si::Point point(const Word *p) {
        double at[2] = {double(p[0]), double(p[1])};
        return si::Point(at, 2);
    }
    void place(const Word *p, Word location) override { tree->insertData(0, nullptr, point(p), location); }
    bool remove(const Word *p, Word location) override { return tree->deleteData(point(p), location); }
    Word list(const Word *w, Word *answer) override {
        double low[2] = {double(w[0]), double(w[1])}, high[2] = {double(w[2]), double(w[3])};
        Take take;
        take.next = answer;
        tree->intersectsWithQuery(si::Region(low, high, 2), take);
        return Word(take.next - answer);
    }
    Word find(const Word *p) override {
        Word answer[1] = {0};
        Take take;
        take.next = answer;
        tree->pointLocationQuery(point(p), take);
        return answer[0];
    }
};
} // namespace

std::unique_ptr<Peer> spatialindex() { return std::make_unique<Spatial>(); }
