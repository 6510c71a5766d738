/*
 * korytanka.h: a signal index in a pool of 32-bit words that the caller lends.
 *
 * The index is a K-D-B-tree (J. T. Robinson, CMU-CS-81-106). A record is a point of K keys, K from 1 to 4, and a
 * location, any 32-bit number. No two records have the same point. Records are placed, removed, found by their
 * point, and listed by a window, the edges counted. The whole index lies in the pool: nothing is allocated, nothing
 * is kept between calls, and a pool may be copied, stored and read back.
 *
 * An example: signals by retention time (milliseconds) and mass (mass-to-charge, in thousandths), on eight pages.
 *
 *   enum { WORDS = 8 * KORYTANKA_PAGE_WORDS };
 *   uint32_t pool[WORDS], work[WORDS], answer[16];
 *   const uint32_t signal[2] = {120000, 195088};
 *   const uint32_t window[4] = {119000, 195000, 121000, 195200}; // the lower ends, then the upper ends
 *
 *   korytanka_format(pool, WORDS, 2);
 *   korytanka_place(pool, WORDS, work, WORDS, signal, 2, 1000);
 *   korytanka_list(pool, WORDS, window, 4, answer, 16); // total 1, and answer[0] is 1000
 *
 * A pool's life
 *
 *   A pool is N pages of KORYTANKA_PAGE_WORDS words, N from 2 to 512. korytanka_format makes an empty index of it,
 *   whatever its words were. After that korytanka_place and korytanka_remove change it; korytanka_check,
 *   korytanka_find and korytanka_list only read it. To give the index up there is nothing to call.
 *
 *   Every call takes every input: any words, any lengths. Each call gives a number, KORYTANKA_DONE or a refusal,
 *   and the pool is unchanged after every refusal. A pool that something else has written to is refused by check,
 *   place and remove wherever it is not sound; find and list do not read the whole of it, and refuse the bad pages
 *   that they meet.
 *
 * What is left to the caller
 *
 *   1. Buffers that do not overlap. The buffers of one call share no word, unless both are const.
 *   2. True lengths. Behind each pointer are as many words as the length next to it says, aligned as uint32_t, that
 *      may be read and, behind a pointer that is not const, written. With a length of 0 the pointer may be null.
 *   3. Threads. While a call runs, nothing else writes a buffer that it was lent, and nothing else reads one that it
 *      may write. The library takes no locks and keeps nothing between calls. check, find and list only read the pool:
 *      any number of them may run on it at once, each list with an answer buffer of its own.
 *   4. Enough stack. The calls go down the tree by recursion, one step a level. A pool can be made, by hand, with as
 *      many as 511 levels, and an ordinary stack of 1 MB has room to spare for it; one that grew by placing has few.
 *
 * All else that this header says of a call is proved of it, for every input. Lengths count words, not bytes.
 *
 * Storing a pool
 *
 *   A pool holds no pointers. Its words are the machine's own, so a copy of its bytes is a pool only on machines of
 *   the same byte order. For any machine, store each word as four bytes, the lowest first (little-endian), and put the
 *   words together again when they are read. korytanka_check then tells whether they are a sound pool; words in the
 *   wrong byte order never are.
 *
 * After 9, no free page
 *
 *   The pool is as it was, and records whose page has room can still be placed. Removing makes room in the page of
 *   the record that went, but frees no page. For more room, format a longer pool and place the records in it again,
 *   from where you keep them: list gives locations, not keys. Past 512 pages, take several pools, each for a part of
 *   the keys.
 *
 * After 6, not sound
 *
 *   Something else has written to the pool, or it was not formatted, or not with this length. No call mends it: take
 *   a stored copy. The work buffer holds the pool as it stood before the last place that was lent it and gave 0 or 9;
 *   that pool was sound. check is no checksum: a location that was changed, or a key that still lies in its page's
 *   region, leaves a sound pool of other records. Where that matters, keep a checksum with the stored words.
 *
 * How much fits
 *
 *   Measured, not proved: the records in a pool of 512 pages when place first gave 9, the least and the most of 20
 *   sets of records. Other sets fall a little outside. rust/second/examples/capacity.rs does the measuring.
 *
 *     K   all keys at random   first key rising   all keys rising
 *     1     4,193 to 4,360          2,870              2,870
 *     2     1,947 to 2,264     1,089 to 1,305            759
 *     3     1,295 to 1,658       951 to 1,318            215
 *     4     1,014 to 1,074       799 to 889              134
 *
 *   "Rising" is about the order of placing. Records that are known beforehand are best placed in random order: of
 *   those in the last column some 4,270, 1,710, 1,500 and 1,030 fit then.
 */
#ifndef KORYTANKA_H
#define KORYTANKA_H

#include <stddef.h>
#include <stdint.h>

#ifdef __cplusplus
extern "C" {
#endif

/* ---- Version --------------------------------------------------------------------------------------------------- */

/*
 * MAJOR rises with a change that can break a program or a stored pool: a name goes, a call answers another way to what
 * it took before, the words of a pool mean something else. MINOR rises where something is added: a call, a name, or an
 * answer where there was a refusal. A new refusal number raises MINOR if it is given only by a new call or where a call
 * refused before, and MAJOR otherwise. A stored pool is read by every later version of the same MAJOR.
 */
#define KORYTANKA_VERSION_MAJOR 1
#define KORYTANKA_VERSION_MINOR 0

/* ---- Sizes ---------------------------------------------------------------------------------------------------- */

/* The words of a page. */
#define KORYTANKA_PAGE_WORDS 32

/* The least and the most pages of a pool, and the words of the largest. The first page is the header. */
#define KORYTANKA_LEAST_PAGES 2
#define KORYTANKA_MOST_PAGES 512
#define KORYTANKA_MOST_WORDS 16384

/* The most domains, that is, keys of a point. */
#define KORYTANKA_MOST_DOMAINS 4

/* A key is 0 to KORYTANKA_MOST_KEY. KORYTANKA_INFINITY is no key. */
#define KORYTANKA_MOST_KEY UINT32_C(4294967294)
#define KORYTANKA_INFINITY UINT32_C(4294967295)

/* ---- Numbers --------------------------------------------------------------------------------------------------- */

/* What each call gives: KORYTANKA_DONE, or why it was refused. */

/* Done: the call did what is asked. */
#define KORYTANKA_DONE 0

/* The pool is not 32 x N words, N from 2 to 512. */
#define KORYTANKA_REFUSED_POOL_LENGTH 1

/* K is not 1 to 4. */
#define KORYTANKA_REFUSED_DOMAINS 2

/* A point is not K words, a window is not 2 K words, or the work buffer is not as long as the pool. */
#define KORYTANKA_REFUSED_BUFFER_LENGTH 3

/* A key or an end of a window is KORYTANKA_INFINITY. */
#define KORYTANKA_REFUSED_INFINITE_KEY 4

/* A lower end of a window is above its upper end. */
#define KORYTANKA_REFUSED_WINDOW_ORDER 5

/* The header is not good, the pool is not sound, or a walk met a bad page. */
#define KORYTANKA_REFUSED_UNSOUND 6

/* The point is already there. */
#define KORYTANKA_REFUSED_PRESENT 7

/* The point is not there. */
#define KORYTANKA_REFUSED_ABSENT 8

/* Placing would need a page, and none is free. */
#define KORYTANKA_REFUSED_NO_FREE_PAGE 9

/* ---- What calls return ----------------------------------------------------------------------------------------- */

/* In each of these the fields behind `number` are 0 unless `number` is KORYTANKA_DONE. */

typedef struct korytanka_removed {
    uint32_t number;
    uint32_t location; /* the location of the record that was removed */
} korytanka_removed;

typedef struct korytanka_found {
    uint32_t number;
    uint32_t location; /* the record's location */
    uint32_t reads;    /* the pages read, the header not counted */
} korytanka_found;

typedef struct korytanka_listed {
    uint32_t number;
    uint32_t total; /* the records found, those that the answer buffer had no slot for among them */
    uint32_t reads; /* the pages read, the header not counted */
} korytanka_listed;

/* ---- Calls ----------------------------------------------------------------------------------------------------- */

/*
 * Each call lists the numbers that it can give, in the order in which they are tested: the first that fits is given.
 * K is word 0 of the pool.
 */

/*
 * Makes the pool an empty index of k domains.
 *
 *   1  KORYTANKA_REFUSED_POOL_LENGTH  words is not 32 x N, N from 2 to 512
 *   2  KORYTANKA_REFUSED_DOMAINS      k is not 1 to 4
 *   0  KORYTANKA_DONE
 *
 * pool: after 0, word 0 is k, word 1 is N, and all others are 0. After a refusal unchanged.
 */
uint32_t korytanka_format(uint32_t *pool, size_t words, uint32_t k);

/*
 * Tells whether the pool is sound: it is a tree as docs/FORMAT.md describes it, every word of it. After 0, find and
 * list never give 6 on this pool, and list finds every record in a window.
 *
 *   1  KORYTANKA_REFUSED_POOL_LENGTH  words is not 32 x N, N from 2 to 512
 *   6  KORYTANKA_REFUSED_UNSOUND      the header is not good, or the pool is not sound
 *   0  KORYTANKA_DONE
 *
 * pool: only read.
 */
uint32_t korytanka_check(const uint32_t *pool, size_t words);

/*
 * Places a record: a point of K keys, and its location.
 *
 *   1  KORYTANKA_REFUSED_POOL_LENGTH    words is not 32 x N, N from 2 to 512
 *   6  KORYTANKA_REFUSED_UNSOUND        the header is not good
 *   3  KORYTANKA_REFUSED_BUFFER_LENGTH  point_words is not K, or work_words is not words
 *   4  KORYTANKA_REFUSED_INFINITE_KEY   a key is KORYTANKA_INFINITY
 *   6  KORYTANKA_REFUSED_UNSOUND        the pool is not sound
 *   7  KORYTANKA_REFUSED_PRESENT        the point is already there
 *   9  KORYTANKA_REFUSED_NO_FREE_PAGE   a page would be needed, and none is free
 *   0  KORYTANKA_DONE
 *
 * pool:  after 0, with the record. After a refusal unchanged.
 * work:  after 0 and after 9, the pool as it stood before the call. After any other refusal unchanged. What it holds
 *        before the call does not matter, and a later call may be lent the same one.
 * point: only read.
 */
uint32_t korytanka_place(uint32_t *pool, size_t words, uint32_t *work, size_t work_words, const uint32_t *point,
                         size_t point_words, uint32_t location);

/*
 * Removes the record of a point, and returns its location. Its page keeps the order of the others; no page becomes
 * free by it.
 *
 *   1  KORYTANKA_REFUSED_POOL_LENGTH    words is not 32 x N, N from 2 to 512
 *   6  KORYTANKA_REFUSED_UNSOUND        the header is not good
 *   3  KORYTANKA_REFUSED_BUFFER_LENGTH  point_words is not K
 *   4  KORYTANKA_REFUSED_INFINITE_KEY   a key is KORYTANKA_INFINITY
 *   6  KORYTANKA_REFUSED_UNSOUND        the pool is not sound
 *   8  KORYTANKA_REFUSED_ABSENT         the point is not there
 *   0  KORYTANKA_DONE
 *
 * pool:  after 0, without the record. After a refusal unchanged.
 * point: only read.
 */
korytanka_removed korytanka_remove(uint32_t *pool, size_t words, const uint32_t *point, size_t point_words);

/*
 * Finds the record of a point: returns its location and the pages read, on a sound pool one for each level.
 *
 *   1  KORYTANKA_REFUSED_POOL_LENGTH    words is not 32 x N, N from 2 to 512
 *   6  KORYTANKA_REFUSED_UNSOUND        the header is not good
 *   3  KORYTANKA_REFUSED_BUFFER_LENGTH  point_words is not K
 *   4  KORYTANKA_REFUSED_INFINITE_KEY   a key is KORYTANKA_INFINITY
 *   6  KORYTANKA_REFUSED_UNSOUND        the walk met a bad page
 *   8  KORYTANKA_REFUSED_ABSENT         the point is not there
 *   0  KORYTANKA_DONE
 *
 * pool:  only read.
 * point: only read.
 */
korytanka_found korytanka_find(const uint32_t *pool, size_t words, const uint32_t *point, size_t point_words);

/*
 * Lists the records whose point lies in a window: K lower ends, then K upper ends, and in each domain
 * lower <= key <= upper. Returns how many there are and the pages read, on a sound pool exactly those whose region
 * shares a point with the window.
 *
 *   1  KORYTANKA_REFUSED_POOL_LENGTH    words is not 32 x N, N from 2 to 512
 *   6  KORYTANKA_REFUSED_UNSOUND        the header is not good
 *   3  KORYTANKA_REFUSED_BUFFER_LENGTH  window_words is not 2 K
 *   4  KORYTANKA_REFUSED_INFINITE_KEY   an end is KORYTANKA_INFINITY
 *   5  KORYTANKA_REFUSED_WINDOW_ORDER   a lower end is above its upper end
 *   6  KORYTANKA_REFUSED_UNSOUND        the walk met a bad page, or would read more than N - 1 pages
 *   0  KORYTANKA_DONE
 *
 * pool:   only read.
 * window: only read.
 * answer: after 0, the locations of the first records found, in the order of the walk, as many as there are slots;
 *         the slots after the last one found are unchanged. After the second 6 every slot is 0. After any other
 *         refusal, the first 6 too, unchanged. With 0 slots the call only counts.
 */
korytanka_listed korytanka_list(const uint32_t *pool, size_t words, const uint32_t *window, size_t window_words,
                                uint32_t *answer, size_t slots);

#ifdef __cplusplus
}
#endif

#endif
