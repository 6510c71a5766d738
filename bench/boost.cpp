// Boost.Geometry's R-tree for K = 2: R*, 16 values a node, grown by insert or packed from all records at once. Of linear,
// quadratic and R* with 8, 16 and 32 values, and keys as std::uint32_t, float and double, none answers windows clearly faster.
// (With std::int32_t its areas overflow, and queries get some ten times slower.)
#define BOOST_ALLOW_DEPRECATED_HEADERS
#include "peer.hpp"
#include <boost/geometry.hpp>
#include <boost/geometry/index/rtree.hpp>
#include <boost/iterator/function_output_iterator.hpp>

namespace {
namespace bg = boost::geometry;
namespace bgi = bg::index;

using Point = bg::model::point<Word, 2, bg::cs::cartesian>;
using Box = bg::model::box<Point>;

struct Value {
    Point point;
    Word location;
};
struct PointOf {
    using result_type = const Point &;
    result_type operator()(const Value &v) const { return v.point; }
};
struct Same {
    bool operator()(const Value &a, const Value &b) const {
        return a.location == b.location && bg::get<0>(a.point) == bg::get<0>(b.point) && bg::get<1>(a.point) == bg::get<1>(b.point);
    }
};
using RTree = bgi::rtree<Value, bgi::rstar<16>, PointOf, Same>;

struct Boost : Peer {
    RTree tree;
    bool packed;
    explicit Boost(bool packed) : packed(packed) {}
    const char *name() const override { return packed ? "Boost, packed" : "Boost, placed"; }
    bool places() const override { return !packed; }
    void clear() override { tree.clear(); }
    void fill(const Records &records) override {
        if (!packed) return Peer::fill(records);
        std::vector<Value> values;
        for (std::size_t i = 0; i < records.count(); i++) values.push_back(value(records.point(i), Records::location(i)));
        tree = RTree(values.begin(), values.end());
    }
    static Value value(const Word *p, Word location) { return {Point(p[0], p[1]), location}; }
    void place(const Word *p, Word location) override { tree.insert(value(p, location)); }
    bool remove(const Word *p, Word location) override { return tree.remove(value(p, location)) == 1; }
    Word list(const Word *w, Word *answer) override {
        Word *next = answer;
        tree.query(bgi::intersects(Box(Point(w[0], w[1]), Point(w[2], w[3]))),
                   boost::make_function_output_iterator([&](const Value &v) { *next++ = v.location; }));
        return Word(next - answer);
    }
    Word find(const Word *p) override {
        Word location = 0;
        tree.query(bgi::intersects(Point(p[0], p[1])),
                   boost::make_function_output_iterator([&](const Value &v) { location = v.location; }));
        return location;
    }
};
} // namespace

std::unique_ptr<Peer> boost_placed() { return std::make_unique<Boost>(false); }
std::unique_ptr<Peer> boost_packed() { return std::make_unique<Boost>(true); }
