// The timed tables: this library beside its peers for K = 2 and N = 512, then this library over K and over N.
#include "library.hpp"
#include <cstring>
#include <map>
#include <numeric>
#include <time.h>

namespace {
constexpr int rounds = 25, placing_rounds = 5;
constexpr std::size_t few = 64;

// The processor's time of this thread: what else runs on the machine does not count. Nothing here waits or starts a thread.
double now() {
    timespec t;
    clock_gettime(CLOCK_THREAD_CPUTIME_ID, &t);
    return t.tv_sec * 1e9 + t.tv_nsec;
}

// Rounds of placing and removing go on while they are fewer than `placing_rounds` and this much time is left.
constexpr double placing_time = 4e9;

// The best time of each thing measured, in nanoseconds a call.
struct Best {
    std::map<std::string, double> times;
    void note(const std::string &row, double ns) {
        auto [at, first] = times.try_emplace(row, ns);
        if (!first && ns < at->second) at->second = ns;
    }
    bool has(const std::string &row) const { return times.count(row); }
    double at(const std::string &row) const { return times.at(row); }
};

// One pool's worth of work: the records, in the order of placing and of removing, and the windows with what they hold.
struct Work {
    Filled filled;
    std::vector<Windows> kinds;
    std::vector<std::size_t> leaving;
    std::vector<std::vector<std::pair<Word, std::uint64_t>>> expected; // total, and sum of locations, by kind and window
    Words answer;

    Work(int k, int n) : filled(::filled(k, n)), kinds(all_windows(filled.records)), answer(32 * n + 1) {
        const Records &r = filled.records;
        leaving.resize(r.count());
        std::iota(leaving.begin(), leaving.end(), 0);
        Random random{7};
        for (std::size_t i = leaving.size(); i > 1; i--) std::swap(leaving[i - 1], leaving[random.below(i)]);
        for (const Windows &w : kinds) {
            expected.emplace_back();
            for (std::size_t i = 0; i < w.count(); i++) {
                std::pair<Word, std::uint64_t> sum{0, 0};
                for (std::size_t j = 0; j < r.count(); j++) {
                    bool in = true;
                    for (int d = 0; d < k; d++) in = in && w.window(i)[d] <= r.point(j)[d] && r.point(j)[d] <= w.window(i)[k + d];
                    if (in) sum.first++, sum.second += Records::location(j);
                }
                expected.back().push_back(sum);
            }
        }
    }
};

// Every window's total and locations are what the records say, and every point is found.
void agree(Peer &peer, Work &work) {
    auto wrong = [&](const std::string &what) { need(false, (std::string(peer.name()) + ": " + what).c_str()); };
    for (std::size_t kind = 0; kind < work.kinds.size(); kind++) {
        const Windows &w = work.kinds[kind];
        for (std::size_t i = 0; i < w.count(); i++) {
            Word total = peer.list(w.window(i), work.answer.data());
            auto sum = std::accumulate(work.answer.begin(), work.answer.begin() + total, std::uint64_t(0));
            if (work.expected[kind][i] != std::make_pair(total, sum)) wrong("another answer to a window " + w.name);
        }
    }
    const Windows &points = work.kinds.back();
    for (std::size_t i = 0; i < points.count(); i++)
        if (peer.find(points.window(i)) != work.expected.back()[i].second) wrong("another answer to a point");
}

void time_placing(Peer &peer, const Work &work, Best &best) {
    const Records &r = work.filled.records;
    std::size_t count = r.count();
    peer.clear();
    double start = now(), last = 0;
    for (std::size_t i = 0; i < count; i++) {
        if (i == count - few) last = now();
        peer.place(r.point(i), Records::location(i));
    }
    double end = now();
    best.note("place, all", (end - start) / count);
    best.note("place, last 64", (end - last) / few);
    bool good = true;
    double first = 0;
    start = now();
    for (std::size_t i = 0; i < count; i++) {
        if (i == few) first = now();
        good &= peer.remove(r.point(work.leaving[i]), Records::location(work.leaving[i]));
    }
    end = now();
    need(good, (std::string(peer.name()) + ": a record was not removed").c_str());
    best.note("remove, all", (end - start) / count);
    best.note("remove, first 64", (first - start) / few);
}

void time_asking(Peer &peer, Work &work, Best &best) {
    Word sum = 0;
    for (const Windows &w : work.kinds) {
        double start = now();
        for (std::size_t i = 0; i < w.count(); i++) sum += peer.list(w.window(i), work.answer.data());
        best.note("list " + w.name, (now() - start) / w.count());
    }
    const Windows &points = work.kinds.back();
    double start = now();
    for (std::size_t i = 0; i < points.count(); i++) sum += peer.find(points.window(i));
    best.note("find", (now() - start) / points.count());
    asm volatile("" : : "r"(sum));
}

void time_check(Library &library, Best &best) {
    constexpr int times = 32;
    Word sum = 0;
    double start = now();
    for (int i = 0; i < times; i++) sum += library.check();
    best.note("check", (now() - start) / times);
    need(sum == 0, "a filled pool was not sound");
}

void time_memcpy(const Words &from, Words &to, Best &best) {
    constexpr int times = 256;
    double start = now();
    for (int i = 0; i < times; i++) {
        std::memcpy(to.data(), from.data(), from.size() * sizeof(Word));
        asm volatile("" : : "r"(to.data()) : "memory");
    }
    best.note("memcpy", (now() - start) / times);
}

// All of this library's rows. The pool is full afterwards.
Best time_library(Library &library, Work &work) {
    Best best;
    for (double i = 0, start = now(); i < placing_rounds && now() - start < placing_time; i++) time_placing(library, work, best);
    library.fill(work.filled);
    agree(library, work);
    for (int i = 0; i < rounds; i++) {
        time_asking(library, work, best);
        time_check(library, best);
    }
    return best;
}

std::string number(double x) {
    char text[32];
    std::snprintf(text, sizeof text, x < 10 ? "%.1f" : "%.0f", x);
    std::string s = text;
    if (s.find('.') == std::string::npos)
        for (int at = int(s.size()) - 3; at > 0; at -= 3) s.insert(at, ",");
    return s;
}

std::string ratio(double x) {
    char text[32];
    std::snprintf(text, sizeof text, x < 10 ? "%.2f" : x < 100 ? "%.1f" : "%.0f", x);
    return text;
}

// The mean total and the mean pages read of each row that asks.
struct Means {
    std::string found, reads;
};
std::map<std::string, Means> means(Library &library, Work &work) {
    std::map<std::string, Means> all;
    auto note = [&](const std::string &row, double found, double reads) {
        char a[32], b[32];
        std::snprintf(a, sizeof a, "%.1f", found);
        std::snprintf(b, sizeof b, "%.1f", reads);
        all[row] = {a, b};
    };
    for (std::size_t kind = 0; kind < work.kinds.size(); kind++) {
        const Windows &w = work.kinds[kind];
        double found = 0, reads = 0;
        for (std::size_t i = 0; i < w.count(); i++) {
            found += library.list(w.window(i), work.answer.data());
            reads += library.reads;
        }
        note("list " + w.name, found / w.count(), reads / w.count());
    }
    library.find(work.kinds.back().window(0));
    note("find", 1, library.reads);
    return all;
}

std::vector<std::string> rows(const Work &work) {
    std::vector<std::string> all;
    for (const Windows &w : work.kinds) all.push_back("list " + w.name);
    for (const char *row : {"find", "check", "place, all", "place, last 64", "remove, all", "remove, first 64"}) all.push_back(row);
    return all;
}

void print_row(const std::vector<std::string> &cells) {
    for (const std::string &c : cells) std::printf("| %s ", c.c_str());
    std::printf("|\n");
}
void print_rule(std::size_t cells) {
    std::printf("|---");
    for (std::size_t i = 1; i < cells; i++) std::printf("|--:");
    std::printf("|\n");
}

void beside_peers() {
    Work work(2, 512);
    Library library(2, 512);
    std::vector<std::unique_ptr<Peer>> peers;
    for (auto make : {boost_placed, boost_packed, sqlite, spatialindex, scan, plain}) peers.push_back(make());
    std::vector<Best> best(peers.size());
    Best own, copy;

    // Rounds go through all peers in turn, so that what disturbs the machine disturbs all of them.
    for (double i = 0, start = now(); i < placing_rounds && now() - start < 4 * placing_time; i++) {
        for (std::size_t p = 0; p < peers.size(); p++)
            if (peers[p]->places()) time_placing(*peers[p], work, best[p]);
        time_placing(library, work, own);
    }
    for (auto &peer : peers) {
        peer->fill(work.filled.records);
        agree(*peer, work);
    }
    library.fill(work.filled);
    agree(library, work);
    Words target(library.pool.size());
    for (int i = 0; i < rounds; i++) {
        for (std::size_t p = 0; p < peers.size(); p++) time_asking(*peers[p], work, best[p]);
        time_asking(library, work, own);
        time_check(library, own);
        time_memcpy(library.pool, target, copy);
    }

    std::printf("K = 2, N = 512: %zu records, %u levels. Nanoseconds a call, the best of %d rounds (placing and removing: of at most %d);\n"
                "in brackets this library's time over the peer's. Totals and locations of all %zu windows are equal.\n\n",
                work.filled.records.count(), library.pool[3], rounds, placing_rounds, work.kinds.size() * windows_a_kind);
    auto mean = means(library, work);
    std::vector<std::string> head{"K = 2", "found", "pages read", "this library"};
    for (auto &peer : peers) head.push_back(peer->name());
    head.push_back("memcpy of the pool");
    print_row(head);
    print_rule(head.size());
    double copying = copy.at("memcpy");
    for (const std::string &row : rows(work)) {
        std::vector<std::string> cells{row, mean[row].found, mean[row].reads, number(own.at(row))};
        auto beside = [&](double peer) {
            cells.push_back(number(peer) + " (" + ratio(own.at(row) / peer) + ")");
        };
        for (std::size_t p = 0; p < peers.size(); p++)
            if (best[p].has(row)) beside(best[p].at(row));
            else cells.push_back("");
        beside(copying);
        print_row(cells);
    }
    std::printf("\n");
}

// This library alone, one column for each pool.
void alone(const char *title, const std::vector<std::pair<int, int>> &pools, bool by_k) {
    std::vector<std::string> head{title};
    std::vector<std::vector<std::string>> table;
    for (auto [k, n] : pools) {
        Work work(k, n);
        Library library(k, n);
        Best best = time_library(library, work);
        auto mean = means(library, work);
        head.push_back((by_k ? "K = " + std::to_string(k) : "N = " + std::to_string(n)));
        std::vector<std::string> names{"records", "levels"}, cells{number(work.filled.records.count()), std::to_string(library.pool[3])};
        auto simple = [](const std::string &row) { // the windows' names without the later axes
            return row.substr(0, row.find(" x "));
        };
        for (const std::string &row : rows(work)) {
            names.push_back(by_k ? simple(row) : row);
            std::string cell = number(best.at(row));
            if (mean.count(row)) cell += " (" + mean[row].found + " of " + mean[row].reads + " pages)";
            cells.push_back(cell);
        }
        if (table.empty()) table.push_back(names);
        table.push_back(cells);
    }
    print_row(head);
    print_rule(head.size());
    for (std::size_t row = 0; row < table[0].size(); row++) {
        std::vector<std::string> cells;
        for (const auto &column : table) cells.push_back(column[row]);
        print_row(cells);
    }
    std::printf("\n");
}
} // namespace

int main() {
    beside_peers();
    std::printf("This library alone, N = 512. Nanoseconds a call (records found, of pages read).\n\n");
    alone("N = 512", {{1, 512}, {2, 512}, {3, 512}, {4, 512}}, true);
    std::printf("This library alone, K = 2.\n\n");
    alone("K = 2", {{2, 32}, {2, 128}, {2, 512}}, false);
}
