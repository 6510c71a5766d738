//! A signal index in a pool of 32-bit words that the caller lends: a K-D-B-tree (J. T. Robinson, CMU-CS-81-106).
//!
//! A record is a point of K keys, K from 1 to 4, and a location, any 32-bit number. No two records have the same point.
//! Records are [placed](place), [removed](remove), [found](find) by their point, and [listed](list) by a window, the edges
//! counted. The whole index lies in the pool: nothing is kept between calls, and a pool may be copied, stored and read
//! back.
//!
//! The calls themselves are written in Rattle and proved, for every input: what each one gives, and every word of every
//! buffer afterwards. This crate lends them slices. What C leaves to its caller, buffers that do not overlap, true lengths
//! and threads, the borrow checker sees to here, so every function is safe. Enough stack is still the caller's: the calls
//! go down the tree by recursion, one step a level, and for 511 levels, which only a pool made by hand has, 1 MB will do.
//!
//! The functions are lent a pool and allocate nothing. A [`Pool`] owns its words and the work buffer, and its methods
//! are the same calls. [`raw`] has them as C has them, with numbers. include/korytanka.h says how many records fit in a
//! pool, and what to do when it is full or not sound.
//!
//! ```
//! # fn main() -> Result<(), korytanka::Refusal> {
//! // Signals by retention time (milliseconds) and mass (mass-to-charge, in thousandths), on eight pages.
//! let mut pool = [0; 8 * korytanka::PAGE_WORDS];
//! let mut work = [0; 8 * korytanka::PAGE_WORDS];
//! korytanka::format(&mut pool, 2)?;
//! korytanka::place(&mut pool, &mut work, &[120_000, 195_088], 1000)?;
//! korytanka::place(&mut pool, &mut work, &[95_400, 181_072], 1001)?;
//!
//! // From 110 to 120 seconds, masses from 195.0 to 195.2. The edges count.
//! let mut answer = [0; 4];
//! let listed = korytanka::list(&pool, &[110_000, 195_000, 120_000, 195_200], &mut answer)?;
//! assert_eq!(listed.locations, [1000]);
//! assert_eq!((listed.total, listed.reads), (1, 1));
//!
//! assert_eq!(korytanka::remove(&mut pool, &[120_000, 195_088])?, 1000);
//! assert_eq!(korytanka::find(&pool, &[120_000, 195_088]), Err(korytanka::Refusal::Absent));
//! # Ok(())
//! # }
//! ```
//!
//! A signal on the edge between two pages is listed, whichever side the window comes from:
//!
//! ```
//! # fn main() -> Result<(), korytanka::Refusal> {
//! // Fifteen retention times. The fifteenth cuts the page at 80 seconds: [0, 80 s) and [80 s, ∞).
//! let mut pool = korytanka::Pool::new(1, 8)?;
//! for second in (10..=150).step_by(10) {
//!     pool.place(&[1000 * second], second)?;
//! }
//! let mut answer = [0; 4];
//! let edge = pool.list(&[80_000, 80_000], &mut answer)?;
//! assert_eq!((edge.locations, edge.reads), (&[80][..], 2));
//! let both = pool.list(&[70_000, 80_000], &mut answer)?;
//! assert_eq!((both.locations, both.reads), (&[70, 80][..], 3));
//! # Ok(())
//! # }
//! ```
//!
//! Any number of threads may read one pool at once, each with an answer buffer of its own; `&` and `&mut` see to it.
//!
//! Two buffers of one call that overlap do not compile:
//!
//! ```compile_fail,E0499
//! let mut pool = [0; 64];
//! korytanka::place(&mut pool, &mut pool, &[1], 2);
//! ```
//!
//! ```compile_fail,E0502
//! let mut pool = [0; 64];
//! korytanka::list(&pool, &[0, 9], &mut pool[32..]);
//! ```

#![deny(missing_docs)]

pub mod raw;

use std::error::Error;
use std::fmt;

/// The words of a page.
pub const PAGE_WORDS: usize = 32;
/// The least pages of a pool. The first page is the header.
pub const LEAST_PAGES: usize = 2;
/// The most pages of a pool.
pub const MOST_PAGES: usize = 512;
/// The words of the longest pool.
pub const MOST_WORDS: usize = MOST_PAGES * PAGE_WORDS;
/// The most domains, that is, keys of a point.
pub const MOST_DOMAINS: usize = 4;
/// The highest key.
pub const MOST_KEY: u32 = u32::MAX - 1;
/// The word that stands for ∞, and is no key.
pub const INFINITY: u32 = u32::MAX;

/// Why a call was refused. The pool is unchanged after every refusal.
///
/// The calls test in the order 1, 2, 6 for the header, 3, 4, 5, 6 for the pool or the walk, 7, 8, 9, and give the first
/// that fits.
#[derive(Clone, Copy, Debug, PartialEq, Eq, Hash)]
#[repr(u32)]
#[non_exhaustive]
pub enum Refusal {
    /// 1: the pool is not 32 × N words, N from 2 to 512.
    PoolLength = 1,
    /// 2: K is not 1 to 4.
    Domains = 2,
    /// 3: a point is not K words, a window is not 2K words, or the work buffer is not as long as the pool.
    BufferLength = 3,
    /// 4: a key or an end of a window is [`INFINITY`].
    InfiniteKey = 4,
    /// 5: a lower end of a window is above its upper end.
    WindowOrder = 5,
    /// 6: the header is not good, the pool is not sound, or a walk met a bad page. No call mends it: take a stored
    /// copy.
    Unsound = 6,
    /// 7: the point is already there.
    Present = 7,
    /// 8: the point is not there.
    Absent = 8,
    /// 9: placing would need a page, and none is free. Removing frees none: for more room, place the records in a pool
    /// of more pages.
    NoFreePage = 9,
}

impl Refusal {
    /// All refusals, in the order of their numbers.
    pub const ALL: &'static [Refusal] = &[
        Refusal::PoolLength,
        Refusal::Domains,
        Refusal::BufferLength,
        Refusal::InfiniteKey,
        Refusal::WindowOrder,
        Refusal::Unsound,
        Refusal::Present,
        Refusal::Absent,
        Refusal::NoFreePage,
    ];

    /// The refusal's number, 1 to 9.
    ///
    /// ```
    /// assert_eq!(korytanka::format(&mut [0; 63], 1).unwrap_err().number(), 1);
    /// ```
    pub fn number(self) -> u32 {
        self as u32
    }
}

/// The value where the number is 0, and otherwise the refusal of that number.
fn answered<T>(number: u32, value: T) -> Result<T, Refusal> {
    match number {
        0 => Ok(value),
        1..=9 => Err(Refusal::ALL[number as usize - 1]),
        _ => unreachable!("the library gives no number above 9"),
    }
}

impl fmt::Display for Refusal {
    fn fmt(&self, f: &mut fmt::Formatter<'_>) -> fmt::Result {
        f.write_str(match self {
            Refusal::PoolLength => "the pool is not 32 x N words, N from 2 to 512",
            Refusal::Domains => "K is not 1 to 4",
            Refusal::BufferLength => {
                "the point is not K words, the window not 2K, or work not as long as the pool"
            }
            Refusal::InfiniteKey => "a key or an end of a window is 4294967295",
            Refusal::WindowOrder => "a lower end of the window is above its upper end",
            Refusal::Unsound => "the pool is not sound",
            Refusal::Present => "the point is already there",
            Refusal::Absent => "the point is not there",
            Refusal::NoFreePage => "no page is free",
        })
    }
}

impl Error for Refusal {}

/// What [`find`] returns.
#[derive(Clone, Copy, Debug, PartialEq, Eq, Hash)]
pub struct Found {
    /// The record's location.
    pub location: u32,
    /// The pages read, the header not counted.
    pub reads: u32,
}

/// What [`list`] returns.
#[derive(Clone, Copy, Debug, PartialEq, Eq, Hash)]
pub struct Listed<'a> {
    /// The filled part of the answer buffer: the locations of the first records found.
    pub locations: &'a [u32],
    /// The records found, those that the answer buffer had no slot for among them.
    pub total: u32,
    /// The pages read, the header not counted.
    pub reads: u32,
}

/// Makes the pool an empty index of `k` domains, whatever its words were.
///
/// Refusals: [`PoolLength`](Refusal::PoolLength), [`Domains`](Refusal::Domains).
///
/// ```
/// let mut pool = [7; 64];
/// korytanka::format(&mut pool, 3).unwrap();
/// assert_eq!(pool[..3], [3, 2, 0]);
/// ```
pub fn format(pool: &mut [u32], k: u32) -> Result<(), Refusal> {
    answered(raw::format(pool, k), ())
}

/// Tells whether the pool is sound: it is a tree as docs/FORMAT.md describes it, every word of it.
///
/// Refusals: [`PoolLength`](Refusal::PoolLength), [`Unsound`](Refusal::Unsound).
///
/// ```
/// use korytanka::Refusal;
/// let mut pool = [0; 64];
/// assert_eq!(korytanka::check(&pool), Err(Refusal::Unsound));
/// korytanka::format(&mut pool, 1).unwrap();
/// assert_eq!(korytanka::check(&pool), Ok(()));
/// ```
pub fn check(pool: &[u32]) -> Result<(), Refusal> {
    answered(raw::check(pool), ())
}

/// Places a record: a point of K keys, and its location.
///
/// After `Ok` and after [`NoFreePage`](Refusal::NoFreePage) the work buffer, which is as long as the pool, holds the pool
/// as it stood before the call; after any other refusal it is unchanged.
///
/// Refusals: [`PoolLength`](Refusal::PoolLength), [`BufferLength`](Refusal::BufferLength),
/// [`InfiniteKey`](Refusal::InfiniteKey), [`Unsound`](Refusal::Unsound), [`Present`](Refusal::Present),
/// [`NoFreePage`](Refusal::NoFreePage).
///
/// ```
/// use korytanka::Refusal;
/// let (mut pool, mut work) = ([0; 64], [0; 64]);
/// korytanka::format(&mut pool, 1).unwrap();
/// let before = pool;
/// assert_eq!(korytanka::place(&mut pool, &mut work, &[5], 70), Ok(()));
/// assert_eq!(work, before);
/// assert_eq!(korytanka::place(&mut pool, &mut work, &[5], 71), Err(Refusal::Present));
/// ```
pub fn place(
    pool: &mut [u32],
    work: &mut [u32],
    point: &[u32],
    location: u32,
) -> Result<(), Refusal> {
    answered(raw::place(pool, work, point, location), ())
}

/// Removes the record of a point, and returns its location.
///
/// Refusals: [`PoolLength`](Refusal::PoolLength), [`BufferLength`](Refusal::BufferLength),
/// [`InfiniteKey`](Refusal::InfiniteKey), [`Unsound`](Refusal::Unsound), [`Absent`](Refusal::Absent).
///
/// ```
/// use korytanka::Refusal;
/// let (mut pool, mut work) = ([0; 64], [0; 64]);
/// korytanka::format(&mut pool, 1).unwrap();
/// korytanka::place(&mut pool, &mut work, &[5], 70).unwrap();
/// assert_eq!(korytanka::remove(&mut pool, &[5]), Ok(70));
/// assert_eq!(korytanka::remove(&mut pool, &[5]), Err(Refusal::Absent));
/// ```
pub fn remove(pool: &mut [u32], point: &[u32]) -> Result<u32, Refusal> {
    let removed = raw::remove(pool, point);
    answered(removed.number, removed.location)
}

/// Finds the record of a point: its location, and the pages read, on a sound pool one for each level.
///
/// Refusals: [`PoolLength`](Refusal::PoolLength), [`BufferLength`](Refusal::BufferLength),
/// [`InfiniteKey`](Refusal::InfiniteKey), [`Unsound`](Refusal::Unsound), [`Absent`](Refusal::Absent).
///
/// ```
/// use korytanka::{Found, Refusal};
/// let (mut pool, mut work) = ([0; 64], [0; 64]);
/// korytanka::format(&mut pool, 1).unwrap();
/// korytanka::place(&mut pool, &mut work, &[5], 70).unwrap();
/// assert_eq!(korytanka::find(&pool, &[5]), Ok(Found { location: 70, reads: 1 }));
/// assert_eq!(korytanka::find(&pool, &[5, 6]), Err(Refusal::BufferLength));
/// ```
pub fn find(pool: &[u32], point: &[u32]) -> Result<Found, Refusal> {
    let raw::Found {
        number,
        location,
        reads,
    } = raw::find(pool, point);
    answered(number, Found { location, reads })
}

/// Lists the records whose point lies in a window: K lower ends, then K upper ends, lower ≤ key ≤ upper in each domain.
///
/// After `Ok` the answer buffer has the locations of the first records found, in the order of the walk, as many as it has
/// slots; the slots after the last one found are unchanged. If the walk met a bad page, or would read more than N − 1
/// pages, every slot is 0. After any other refusal the buffer is unchanged.
///
/// Refusals: [`PoolLength`](Refusal::PoolLength), [`BufferLength`](Refusal::BufferLength),
/// [`InfiniteKey`](Refusal::InfiniteKey), [`WindowOrder`](Refusal::WindowOrder), [`Unsound`](Refusal::Unsound).
///
/// ```
/// use korytanka::{Listed, Refusal};
/// let (mut pool, mut work) = ([0; 64], [0; 64]);
/// korytanka::format(&mut pool, 1).unwrap();
/// for key in [30, 10, 20] {
///     korytanka::place(&mut pool, &mut work, &[key], key + 1).unwrap();
/// }
/// let mut answer = [0; 1];
/// let listed = korytanka::list(&pool, &[20, 30], &mut answer);
/// assert_eq!(listed, Ok(Listed { locations: &[31], total: 2, reads: 1 }));
/// assert_eq!(korytanka::list(&pool, &[30, 20], &mut answer), Err(Refusal::WindowOrder));
/// ```
pub fn list<'a>(
    pool: &[u32],
    window: &[u32],
    answer: &'a mut [u32],
) -> Result<Listed<'a>, Refusal> {
    let raw::Listed {
        number,
        total,
        reads,
    } = raw::list(pool, window, answer);
    let filled = answer.len().min(total as usize);
    let listed = Listed {
        locations: &answer[..filled],
        total,
        reads,
    };
    answered(number, listed)
}

/// A pool that owns its words and its work buffer: the calls without the buffers.
///
/// It is sound from the start, and nothing but its own calls writes its words, so it stays sound.
///
/// ```
/// # fn main() -> Result<(), korytanka::Refusal> {
/// use korytanka::Pool;
/// // Signals by retention time and mass, on 64 pages.
/// let mut pool = Pool::new(2, 64)?;
/// pool.place(&[120_000, 195_088], 1000)?;
/// assert_eq!(pool.find(&[120_000, 195_088])?.location, 1000);
///
/// // Stored as bytes, the lowest of each word first, so that any machine can read them.
/// let stored: Vec<u8> = pool.words().iter().flat_map(|word| word.to_le_bytes()).collect();
/// let words = stored.chunks_exact(4).map(|b| u32::from_le_bytes([b[0], b[1], b[2], b[3]]));
/// let mut again = Pool::from_words(words.collect())?;
/// assert_eq!(again.remove(&[120_000, 195_088])?, 1000);
/// # Ok(())
/// # }
/// ```
#[derive(Clone)]
pub struct Pool {
    words: Vec<u32>,
    work: Vec<u32>,
}

impl Pool {
    /// An empty index of `k` domains on so many pages. See [`format()`].
    pub fn new(k: u32, pages: usize) -> Result<Pool, Refusal> {
        // The library refuses one page too many; more need not be allocated for that.
        let mut words = vec![0; PAGE_WORDS * pages.min(MOST_PAGES + 1)];
        format(&mut words, k)?;
        let work = words.clone();
        Ok(Pool { words, work })
    }

    /// A pool of words that were stored; refused unless they are sound, and given back then. See [`check`].
    ///
    /// ```
    /// let refused = korytanka::Pool::from_words(vec![7; 64]).unwrap_err();
    /// assert_eq!(refused.refusal, korytanka::Refusal::Unsound);
    /// assert_eq!(refused.words, [7; 64]);
    /// ```
    pub fn from_words(words: Vec<u32>) -> Result<Pool, RefusedWords> {
        if let Err(refusal) = check(&words) {
            return Err(RefusedWords { refusal, words });
        }
        let work = words.clone();
        Ok(Pool { words, work })
    }

    /// The domains, K.
    pub fn domains(&self) -> u32 {
        self.words[0]
    }

    /// The pages, N, the header counted.
    pub fn pages(&self) -> usize {
        self.words.len() / PAGE_WORDS
    }

    /// The records that are in the pool.
    pub fn records(&self) -> u32 {
        self.words[4]
    }

    /// The words, to store or to look at.
    pub fn words(&self) -> &[u32] {
        &self.words
    }

    /// The words, the pool given up.
    pub fn into_words(self) -> Vec<u32> {
        self.words
    }

    /// See [`check`]. It is refused only if something else has got at the memory.
    pub fn check(&self) -> Result<(), Refusal> {
        check(&self.words)
    }

    /// See [`place`].
    pub fn place(&mut self, point: &[u32], location: u32) -> Result<(), Refusal> {
        place(&mut self.words, &mut self.work, point, location)
    }

    /// See [`remove`].
    pub fn remove(&mut self, point: &[u32]) -> Result<u32, Refusal> {
        remove(&mut self.words, point)
    }

    /// See [`find`].
    pub fn find(&self, point: &[u32]) -> Result<Found, Refusal> {
        find(&self.words, point)
    }

    /// See [`list`].
    pub fn list<'a>(&self, window: &[u32], answer: &'a mut [u32]) -> Result<Listed<'a>, Refusal> {
        list(&self.words, window, answer)
    }
}

impl fmt::Debug for Pool {
    fn fmt(&self, f: &mut fmt::Formatter<'_>) -> fmt::Result {
        f.debug_struct("Pool")
            .field("domains", &self.domains())
            .field("pages", &self.pages())
            .field("records", &self.records())
            .finish_non_exhaustive()
    }
}

/// What [`Pool::from_words`] gives when it refuses: why, and the words. `?` makes a [`Refusal`] of it.
#[derive(Clone, PartialEq, Eq)]
#[non_exhaustive]
pub struct RefusedWords {
    /// Why the words are no pool.
    pub refusal: Refusal,
    /// The words, unchanged.
    pub words: Vec<u32>,
}

impl fmt::Debug for RefusedWords {
    fn fmt(&self, f: &mut fmt::Formatter<'_>) -> fmt::Result {
        f.debug_struct("RefusedWords")
            .field("refusal", &self.refusal)
            .finish_non_exhaustive()
    }
}

impl fmt::Display for RefusedWords {
    fn fmt(&self, f: &mut fmt::Formatter<'_>) -> fmt::Result {
        self.refusal.fmt(f)
    }
}

impl Error for RefusedWords {}

impl From<RefusedWords> for Refusal {
    fn from(refused: RefusedWords) -> Refusal {
        refused.refusal
    }
}

#[cfg(test)]
mod tests {
    use super::*;

    #[test]
    fn numbers_and_names_agree() {
        for &refusal in Refusal::ALL {
            assert_eq!(answered(refusal.number(), ()), Err(refusal));
        }
        assert_eq!(answered(0, 3), Ok(3));
    }
}
