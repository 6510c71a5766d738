// SQLite's R*Tree for K = 2: a table of kind rtree_i32 in memory, its statements prepared once, one transaction for all. Its
// numbers are signed, so a key is moved down by 2 ^ 31, which keeps the order. The row's id is the location.
#include "peer.hpp"
#include <cstdio>
#include <cstdlib>
#include <sqlite3.h>

namespace {
struct Sqlite : Peer {
    sqlite3 *base = nullptr;
    sqlite3_stmt *insert = nullptr, *erase = nullptr, *select = nullptr;

    void need(int got, int wanted) {
        if (got == wanted) return;
        std::fprintf(stderr, "SQLite: %s\n", sqlite3_errmsg(base));
        std::exit(1);
    }
    void run(const char *text) { need(sqlite3_exec(base, text, nullptr, nullptr, nullptr), SQLITE_OK); }
    sqlite3_stmt *prepared(const char *text) {
        sqlite3_stmt *s = nullptr;
        need(sqlite3_prepare_v2(base, text, -1, &s, nullptr), SQLITE_OK);
        return s;
    }
    Sqlite() {
        need(sqlite3_open(":memory:", &base), SQLITE_OK);
        run("CREATE VIRTUAL TABLE r USING rtree_i32(id, low0, high0, low1, high1); BEGIN");
        insert = prepared("INSERT INTO r VALUES (?1, ?2, ?2, ?3, ?3)");
        erase = prepared("DELETE FROM r WHERE id = ?1");
        select = prepared("SELECT id FROM r WHERE high0 >= ?1 AND low0 <= ?2 AND high1 >= ?3 AND low1 <= ?4");
    }
    ~Sqlite() override {
        sqlite3_finalize(insert);
        sqlite3_finalize(erase);
        sqlite3_finalize(select);
        sqlite3_close(base);
    }
    const char *name() const override { return "SQLite"; }
    void clear() override { run("DELETE FROM r"); }
    static int key(Word w) { return int(w ^ 0x80000000u); }
    void place(const Word *p, Word location) override {
        sqlite3_bind_int64(insert, 1, location);
        sqlite3_bind_int(insert, 2, key(p[0]));
        sqlite3_bind_int(insert, 3, key(p[1]));
        need(sqlite3_step(insert), SQLITE_DONE);
        sqlite3_reset(insert);
    }
    bool remove(const Word *, Word location) override {
        sqlite3_bind_int64(erase, 1, location);
        need(sqlite3_step(erase), SQLITE_DONE);
        sqlite3_reset(erase);
        return sqlite3_changes(base) == 1;
    }
    Word list(const Word *w, Word *answer) override {
        sqlite3_bind_int(select, 1, key(w[0]));
        sqlite3_bind_int(select, 2, key(w[2]));
        sqlite3_bind_int(select, 3, key(w[1]));
        sqlite3_bind_int(select, 4, key(w[3]));
        Word *next = answer;
        int got;
        while ((got = sqlite3_step(select)) == SQLITE_ROW) *next++ = Word(sqlite3_column_int64(select, 0));
        need(got, SQLITE_DONE);
        sqlite3_reset(select);
        return Word(next - answer);
    }
    Word find(const Word *p) override {
        Word window[4] = {p[0], p[1], p[0], p[1]}, answer[1] = {0};
        list(window, answer);
        return answer[0];
    }
};
} // namespace

std::unique_ptr<Peer> sqlite() { return std::make_unique<Sqlite>(); }
