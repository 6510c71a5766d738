// A session for the frame program: a full pool for K = 2 and N = 512, then as many frames as are asked for, half of them finds of
// records that are there, half lists of windows of .1 of each axis.
#include "tree.hpp"
#include <cstdio>
#include <cstdlib>

static void frame(unsigned first, const Word *words, std::size_t count) {
    std::printf("%02X", first);
    for (std::size_t i = 0; i < count; i++) std::printf("%08X", unsigned(words[i]));
    std::printf("\n");
}

int main(int, char **argv) {
    Filled filled = ::filled(2, 512);
    const Records &r = filled.records;
    Windows w = windows(".1 x .1", {.1, .1}, 11);
    std::printf("00020200\n");
    for (std::size_t i = 0; i < r.count(); i++) {
        Word words[] = {r.point(i)[0], r.point(i)[1], Records::location(i)};
        frame(1, words, 3);
    }
    for (long i = 0, frames = std::atol(argv[1]); i < frames; i++)
        if (i % 2 == 0) frame(3, r.point(i / 2 * 7919 % r.count()), 2);
        else frame(4, w.window(i / 2 % w.count()), 4);
}
