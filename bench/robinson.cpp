// Robinson's experiments (CMU-CS-81-106, section 6) at 32 words a page, and again at his own page sizes, beside his figures.
// Pages and words are those of bench/tree.hpp; every pool of 32-word pages is compared with the
// library's, word for word.
#include "library.hpp"

namespace {
// His pages: of his R and P only 64, 128 and 256 words a page make sense of his storage utilisation.
struct Sizes {
    int words, regions, points;
};

struct Counted {
    std::vector<int> by_level;
    double by_words, by_points; // storage utilisation: words of entries over words of pages; records over room in point pages
    double written, read;       // pages a placing
};

// The tree after each of the sizes asked for; pages a placing are averaged from the start, or from the size before.
std::vector<Counted> grown(int k, const Sizes &page, const std::vector<std::size_t> &sizes, std::uint64_t seed, bool from_start) {
    std::vector<Counted> all;
    Records records = uniform(k, sizes.back(), seed);
    Tree tree(k, page.regions, page.points);
    double written = 0, read = 0;
    std::size_t since = 0;
    for (std::size_t i = 0; i < records.count(); i++) {
        tree.place(records.point(i), Records::location(i));
        written += tree.written.size();
        read += tree.read.size();
        if (i + 1 != sizes[all.size()]) continue;
        double placed = double(i + 1 - since);
        auto levels = tree.by_level();
        all.push_back({levels, double(tree.entry_words()) / (double(tree.used()) * page.words),
                       double(i + 1) / (double(levels.back()) * page.points), written / placed, read / placed});
        if (!from_start) written = read = 0, since = i + 1;
    }
    return all;
}

std::string levels_text(const std::vector<int> &levels) {
    std::string s;
    for (int n : levels) s += (s.empty() ? "" : ", ") + std::to_string(n);
    return s;
}

// The sizes of a growing pool: quarters of what a pool of 512 pages takes.
void our_pages() {
    std::printf("At 32 words a page, in a pool of 512 pages, up to the first 9. Three sets of uniform records for each K.\n\n"
                "| K | R, P | run | records | pages at each level | utilisation, by words | by records | pages written, read a placing |\n"
                "|--:|---|--:|--:|---|--:|--:|---|\n");
    for (int k = 1; k <= 4; k++)
        for (int run = 1; run <= 3; run++) {
            Filled full = filled(k, 512, run);
            std::size_t most = full.records.count();
            std::vector<std::size_t> sizes;
            if (run == 1) sizes = {most / 4, most / 2, most * 3 / 4};
            sizes.push_back(most);
            Sizes page{32, regions_a_page(k), points_a_page(k)};
            auto all = grown(k, page, sizes, run, true);
            for (std::size_t i = 0; i < all.size(); i++)
                std::printf("| %s | %s | %s | %zu | %s | %.2f | %.2f | %.2f, %.2f |\n", run == 1 && i == 0 ? std::to_string(k).c_str() : "",
                            run == 1 && i == 0 ? (std::to_string(page.regions) + ", " + std::to_string(page.points)).c_str() : "",
                            i == 0 ? std::to_string(run).c_str() : "", sizes[i], levels_text(all[i].by_level).c_str(), all[i].by_words,
                            all[i].by_points, all[i].written, all[i].read);
            Library library(k, 512);
            library.fill(full);
        }
    std::printf("\n");
}

struct His {
    int k;
    Sizes page;
    const char *levels[3];
    double use[3], written[3], read[3];
};
const His table_1[] = {
    {2, {64, 12, 21}, {"1, 11, 96, 756", "1, 11, 100, 783", "1, 12, 95, 773"}, {.62, .59, .60}, {1.18, 1.19, 1.28}, {3.85, 3.86, 3.85}},
    {2, {128, 25, 42}, {"1, 19, 360", "1, 22, 373", "1, 20, 361"}, {.66, .63, .65}, {1.13, 1.12, 1.12}, {2.93, 2.93, 2.93}},
    {2, {256, 51, 85}, {"1, 4, 164", "1, 5, 179", "1, 5, 177"}, {.72, .65, .66}, {1.04, 1.05, 1.05}, {2.72, 2.70, 2.72}},
    {3, {64, 9, 15}, {"1, 6, 30, 188, 1179", "1, 6, 33, 198, 1206", "1, 5, 32, 192, 1166"}, {.53, .51, .53}, {1.33, 1.34, 1.33}, {4.61, 4.71, 4.63}},
    {3, {128, 18, 31}, {"1, 4, 45, 576", "1, 4, 51, 564", "1, 3, 43, 557"}, {.54, .55, .56}, {1.16, 1.16, 1.16}, {3.53, 3.59, 3.58}},
    {3, {256, 36, 63}, {"1, 11, 275", "1, 11, 265", "1, 10, 242"}, {.57, .59, .65}, {1.07, 1.06, 1.06}, {2.83, 2.85, 2.85}},
};
struct His2 {
    int k;
    Sizes page;
    const char *levels[5];
    double use[5], written[5], read[5];
};
const His2 table_2[] = {
    {2, {128, 25, 42}, {"1, 2, 40, 714", "1, 4, 80, 1458", "1, 7, 122, 2187", "1, 9, 165, 2904", "1, 12, 209, 3662"},
     {.66, .65, .65, .65, .64}, {1.09, 1.09, 1.13, 1.18, 1.18}, {3.36, 4.00, 4.00, 4.00, 4.00}},
    {3, {256, 36, 63}, {"1, 20, 514", "1, 2, 45, 1060", "1, 2, 63, 1547", "1, 4, 89, 2084", "1, 4, 108, 2594"},
     {.61, .59, .61, .60, .60}, {1.15, 1.16, 1.15, 1.16, 1.15}, {2.92, 3.30, 4.01, 4.01, 4.00}},
};

void ten_thousand() {
    std::printf("10,000 records, as in his Table 1: his figures, then ours by the steps of document 01 with his R and P, and with those of\n"
                "32 words a page (more pages than a pool may have).\n\n"
                "| K | R, P | words a page | run | his pages at each level | utilisation | written, read | ours | utilisation | written, read |\n"
                "|--:|---|--:|--:|---|--:|---|---|--:|---|\n");
    auto ours = [](const Counted &c) {
        std::printf(" %s | %.2f | %.2f, %.2f |\n", levels_text(c.by_level).c_str(), c.by_words, c.written, c.read);
    };
    for (int k = 1; k <= 4; k++) {
        Sizes small{32, regions_a_page(k), points_a_page(k)};
        for (int run = 1; run <= 3; run++) {
            std::printf("| %d | %d, %d | 32 | %d | | | |", k, small.regions, small.points, run);
            ours(grown(k, small, {10000}, run, true)[0]);
        }
        for (const His &his : table_1)
            if (his.k == k)
                for (int run = 1; run <= 3; run++) {
                    std::printf("| %d | %d, %d | %d | %d | %s | %.2f | %.2f, %.2f |", k, his.page.regions, his.page.points, his.page.words, run,
                                his.levels[run - 1], his.use[run - 1], his.written[run - 1], his.read[run - 1]);
                    ours(grown(k, his.page, {10000}, run, true)[0]);
                }
    }
    std::printf("\n");
}

void hundred_thousand() {
    std::printf("100,000 records, as in his Table 2; pages a placing over the last 20,000.\n\n"
                "| K | R, P | records | his pages at each level | utilisation | written, read | ours | utilisation | written, read |\n"
                "|--:|---|--:|---|--:|---|---|--:|---|\n");
    std::vector<std::size_t> sizes{20000, 40000, 60000, 80000, 100000};
    for (const His2 &his : table_2) {
        auto all = grown(his.k, his.page, sizes, 1, false);
        for (std::size_t i = 0; i < sizes.size(); i++)
            std::printf("| %d | %d, %d | %zu | %s | %.2f | %.2f, %.2f | %s | %.2f | %.2f, %.2f |\n", his.k, his.page.regions, his.page.points,
                        sizes[i], his.levels[i], his.use[i], his.written[i], his.read[i], levels_text(all[i].by_level).c_str(), all[i].by_words,
                        all[i].written, all[i].read);
    }
    std::printf("\n");
}
} // namespace

int main() {
    our_pages();
    ten_thousand();
    hundred_thousand();
}
