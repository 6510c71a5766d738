//! What the tests share: a small random generator, and short names.
#![allow(dead_code)]

/// Splitmix64: the same numbers in every run.
pub struct Random(pub u64);

impl Random {
    pub fn next(&mut self) -> u64 {
        self.0 = self.0.wrapping_add(0x9E37_79B9_7F4A_7C15);
        let mut z = self.0;
        z = (z ^ (z >> 30)).wrapping_mul(0xBF58_476D_1CE4_E5B9);
        z = (z ^ (z >> 27)).wrapping_mul(0x94D0_49BB_1331_11EB);
        z ^ (z >> 31)
    }

    /// A number below the bound.
    pub fn below(&mut self, bound: u64) -> u64 {
        self.next() % bound
    }

    pub fn word(&mut self) -> u32 {
        self.next() as u32
    }
}

/// The highest key.
pub const TOP: u32 = u32::MAX - 1;
pub const INF: u32 = u32::MAX;

/// A formatted pool of N pages.
pub fn fresh(k: u32, n: usize) -> Vec<u32> {
    let mut pool = vec![0xA5A5_A5A5; 32 * n];
    assert_eq!(second::format(&mut pool, k), Ok(()));
    pool
}

/// Places with a work buffer of the right length, and gives the number.
pub fn place(pool: &mut [u32], point: &[u32], location: u32) -> u32 {
    let mut work = vec![0; pool.len()];
    second::number(&second::place(pool, &mut work, point, location))
}

/// Total, reads and all locations of a list that has to be done.
pub fn list_all(pool: &[u32], window: &[u32]) -> (u32, u32, Vec<u32>) {
    let mut answer = vec![0; 16384];
    let listed = second::list(pool, window, &mut answer).unwrap();
    answer.truncate(listed.total as usize);
    (listed.total, listed.reads, answer)
}

/// The words of a page.
pub fn page(pool: &[u32], number: usize) -> &[u32] {
    &pool[32 * number..32 * number + 32]
}

/// A page as it starts, the rest zero.
pub fn page_of(start: &[u32]) -> Vec<u32> {
    let mut words = start.to_vec();
    words.resize(32, 0);
    words
}
