//! The layout of a pool in words: what stands where, and nothing about what it means.

use crate::answers::Refusal;

/// Words a page.
pub const PAGE: usize = 32;
/// The word that stands for infinity.
pub const INFINITY: u32 = u32::MAX;
/// The first word of the first entry of a page.
pub const ENTRIES: usize = 4;

/// The kinds of a page.
pub const FREE: u32 = 0;
pub const REGION_PAGE: u32 = 1;
pub const POINT_PAGE: u32 = 2;

/// R, the regions a page takes: the table of the paper.
pub fn regions_a_page(k: usize) -> usize {
    [9, 5, 4, 3][k - 1]
}

/// P, the points a page takes: the table of the paper.
pub fn points_a_page(k: usize) -> usize {
    [14, 9, 7, 5][k - 1]
}

/// N, when the words are whole pages and 2 to 512 of them.
pub fn pages(words: &[u32]) -> Option<usize> {
    let whole = words.len().is_multiple_of(PAGE);
    let n = words.len() / PAGE;
    (whole && (2..=512).contains(&n)).then_some(n)
}

/// A good header.
#[derive(Clone, Copy, Debug, PartialEq, Eq)]
pub struct Header {
    pub k: usize,
    pub n: usize,
    /// The root's page number, 0 for none.
    pub root: u32,
    pub levels: u32,
    /// Word 4. It is no part of what makes a header good.
    pub records: u32,
}

/// The header of any words: refusal 1 for the length, refusal 6 for a header that is not good.
pub fn header(words: &[u32]) -> Result<Header, Refusal> {
    let n = pages(words).ok_or(Refusal::PoolLength)?;
    let (k, root, levels) = (words[0], words[2], words[3]);
    let good = (1..=4).contains(&k)
        && words[1] as usize == n
        && (root as usize) < n
        && (levels as usize) < n
        && (root == 0) == (levels == 0)
        && words[5..PAGE].iter().all(|&w| w == 0);
    if !good {
        return Err(Refusal::BadPool);
    }
    Ok(Header {
        k: k as usize,
        n,
        root,
        levels,
        records: words[4],
    })
}

/// The words of one page. The number has to be below N.
pub fn page(words: &[u32], number: u32) -> &[u32] {
    let start = number as usize * PAGE;
    &words[start..start + PAGE]
}
