//! Soundness, judged by brute force, and the reading of a sound pool into a tree.
//!
//! Two steps: first a tree is grown out of the words, every page taken at most once, so rings and shared
//! pages end at once; then the finished tree is judged region by region.

use crate::answers::Refusal;
use crate::opened::{open, Opened};
use crate::tree::{Entry, Node, PointPage, Pool, Region, RegionPage};
use crate::words::{header, page, Header, INFINITY, PAGE};

/// The tree that the words hold: refusal 1 or 6 if there is none, the pool if it is sound.
pub fn read(words: &[u32]) -> Result<Pool, Refusal> {
    let head = header(words)?;
    let mut reached = vec![false; head.n];
    reached[0] = true;

    let root = match head.root {
        0 => None,
        number => {
            let root = grow(words, &head, number, 1, &mut reached).ok_or(Refusal::BadPool)?;
            Some(Box::new(root))
        }
    };
    let pool = Pool {
        k: head.k,
        n: head.n,
        root,
    };

    let rest_free = (0..head.n)
        .filter(|&p| !reached[p])
        .all(|p| words[p * PAGE..(p + 1) * PAGE].iter().all(|&w| w == 0));
    let counted = pool.records().len() == head.records as usize;
    let judged = match &pool.root {
        None => true,
        Some(root) => judge(root, &Region::whole(head.k)),
    };
    if rest_free && counted && judged {
        Ok(pool)
    } else {
        Err(Refusal::BadPool)
    }
}

/// Grows the node of one page with all below it. None for a page that is bad, that was reached before, or
/// whose layout is not that of the paper.
fn grow(
    words: &[u32],
    head: &Header,
    number: u32,
    level: u32,
    reached: &mut [bool],
) -> Option<Node> {
    // The kind wanted at each level is what makes every path as long as the header says.
    let opened = open(words, head, number, level == head.levels)?;
    if std::mem::replace(&mut reached[number as usize], true) {
        return None;
    }
    let raw = page(words, number);
    let domain = raw[2] as usize;
    let tail_zero = raw[opened.used_words(head.k)..].iter().all(|&w| w == 0);
    if domain >= head.k || raw[3] != 0 || !tail_zero {
        return None;
    }
    match opened {
        Opened::Points(records) => Some(Node::Points(PointPage {
            number,
            domain,
            records,
        })),
        Opened::Regions(raw_entries) => {
            let mut entries = Vec::new();
            for (region, child) in raw_entries {
                let child = grow(words, head, child, level + 1, reached)?;
                entries.push(Entry::new(region, child));
            }
            Some(Node::Regions(RegionPage {
                number,
                domain,
                entries,
            }))
        }
    }
}

/// Does the node, and all below it, keep to its own region?
fn judge(node: &Node, own: &Region) -> bool {
    match node {
        Node::Points(page) => {
            let records = &page.records;
            let inside = records
                .iter()
                .all(|r| own.holds(&r.keys) && r.keys.iter().all(|&key| key != INFINITY));
            let differ = (0..records.len())
                .all(|i| (0..i).all(|j| records[i].keys.as_slice() != records[j].keys.as_slice()));
            inside && differ
        }
        Node::Regions(page) => {
            let parts: Vec<&Region> = page.entries.iter().map(|e| &e.region).collect();
            tiles(own, &parts)
                && page
                    .entries
                    .iter()
                    .all(|entry| judge(&entry.child, &entry.region))
        }
    }
}

/// Are the parts not empty, disjoint, and together exactly the region?
///
/// All distinct ends in each domain make a grid. No end lies inside a cell of it, so a cell is wholly in a
/// part or wholly outside it, and its lowest corner speaks for it. Outside the grid there is nothing.
pub fn tiles(own: &Region, parts: &[&Region]) -> bool {
    if own.is_empty() || parts.iter().any(|part| part.is_empty()) {
        return false;
    }
    let k = own.lower.len();
    let mut corners: Vec<Vec<u32>> = vec![Vec::new()];
    for d in 0..k {
        let mut ends = vec![own.lower[d], own.upper[d]];
        for part in parts {
            ends.push(part.lower[d]);
            ends.push(part.upper[d]);
        }
        ends.sort_unstable();
        ends.dedup();
        // The highest end starts no cell.
        ends.pop();
        let mut longer = Vec::new();
        for corner in &corners {
            for &end in &ends {
                let mut next = corner.clone();
                next.push(end);
                longer.push(next);
            }
        }
        corners = longer;
    }
    corners.iter().all(|corner| {
        let covered = parts.iter().filter(|part| part.holds(corner)).count();
        covered == usize::from(own.holds(corner))
    })
}
