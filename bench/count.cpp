// The calls whose instructions callgrind counts. It counts inside the functions named to it and nowhere else (bench/run), and
// writes one file for each part: "title|row|calls|found|pages read", where found and pages read are for all calls together.
#include "library.hpp"
#include <valgrind/callgrind.h>

// Boost's answers, through one function each, so that callgrind can be told of them.
extern "C" {
__attribute__((noinline)) Word peer_list(Peer *peer, const Word *window, Word *answer) { return peer->list(window, answer); }
__attribute__((noinline)) Word peer_find(Peer *peer, const Word *point) { return peer->find(point); }
}

namespace {
constexpr std::size_t few = 64;

void part(const std::string &title, const std::string &row, std::size_t calls, double found = 0, double reads = 0) {
    std::string name = title + "|" + row + "|" + std::to_string(calls) + "|" + std::to_string(found) + "|" + std::to_string(reads);
    CALLGRIND_DUMP_STATS_AT(name.c_str());
}

template <class List, class Find> void asked(const std::string &title, const Filled &filled, List list, Find find) {
    auto kinds = all_windows(filled.records);
    const char *short_name[] = {"list .1 of each axis", "list .01 of the first", "list .3 of each axis", "list one point"};
    for (std::size_t kind = 0; kind < kinds.size(); kind++) {
        double found = 0, reads = 0;
        for (std::size_t i = 0; i < kinds[kind].count(); i++) list(kinds[kind].window(i), found, reads);
        part(title, short_name[kind], kinds[kind].count(), found, reads);
    }
    double reads = 0;
    for (std::size_t i = 0; i < windows_a_kind; i++) find(kinds.back().window(i), reads);
    part(title, "find", windows_a_kind, windows_a_kind, reads);
}

void count(const std::string &title, int k, int n) {
    Filled filled = ::filled(k, n);
    const Records &r = filled.records;
    Library library(k, n);
    library.pool = filled.pool;
    Words answer(32 * n + 1);
    CALLGRIND_START_INSTRUMENTATION;
    asked(
        title, filled,
        [&](const Word *w, double &found, double &reads) {
            found += library.list(w, answer.data());
            reads += library.reads;
        },
        [&](const Word *p, double &reads) {
            library.find(p);
            reads += library.reads;
        });
    need(library.check() == 0, "a filled pool was not sound");
    part(title, "check", 1);
    // The last records: removed from the full pool, and placed again.
    for (std::size_t i = r.count() - few; i < r.count(); i++) need(library.remove(r.point(i), Records::location(i)), "remove was refused");
    part(title, "remove, at the full pool", few);
    CALLGRIND_STOP_INSTRUMENTATION;
    Tree tree(k);
    for (std::size_t i = 0; i + few < r.count(); i++) tree.place(r.point(i), Records::location(i));
    library.pool = tree.print(n);
    CALLGRIND_START_INSTRUMENTATION;
    for (std::size_t i = r.count() - few; i < r.count(); i++) library.place(r.point(i), Records::location(i));
    part(title, "place, the last 64", few);
    CALLGRIND_STOP_INSTRUMENTATION;
    need(library.pool == filled.pool, "the pool is not the one that document 01 says");
}

void count_peer(std::unique_ptr<Peer> peer) {
    Filled filled = ::filled(2, 512);
    peer->fill(filled.records);
    Words answer(32 * 512 + 1);
    CALLGRIND_START_INSTRUMENTATION;
    asked(
        peer->name(), filled, [&](const Word *w, double &found, double &) { found += peer_list(peer.get(), w, answer.data()); },
        [&](const Word *p, double &) { peer_find(peer.get(), p); });
    CALLGRIND_STOP_INSTRUMENTATION;
}
} // namespace

int main() {
    for (int k = 1; k <= 4; k++) count("K = " + std::to_string(k) + ", N = 512", k, 512);
    for (int n : {128, 32}) count("K = 2, N = " + std::to_string(n), 2, n);
    count_peer(boost_placed());
    count_peer(boost_packed());
    count_peer(plain());
}
