// What is compared: an index of records that is placed in, removed from and asked for windows.
#pragma once
#include "data.hpp"
#include <memory>

struct Peer {
    virtual ~Peer() = default;
    virtual const char *name() const = 0;
    // Empty, then these records. Where the peer can, one by one; where it cannot, in one go.
    virtual void fill(const Records &records) {
        clear();
        for (std::size_t i = 0; i < records.count(); i++) place(records.point(i), Records::location(i));
    }
    virtual bool places() const { return true; }
    virtual void clear() = 0;
    virtual void place(const Word *point, Word location) = 0;
    // Were there such a record, and only one?
    virtual bool remove(const Word *point, Word location) = 0;
    // The number of records in the window; their locations go to `answer`.
    virtual Word list(const Word *window, Word *answer) = 0;
    // The location of the record at this point.
    virtual Word find(const Word *point) = 0;
};

// All for K = 2.
std::unique_ptr<Peer> boost_placed();
std::unique_ptr<Peer> boost_packed();
std::unique_ptr<Peer> sqlite();
std::unique_ptr<Peer> spatialindex();
std::unique_ptr<Peer> scan();
std::unique_ptr<Peer> plain();
