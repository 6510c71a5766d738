//! Placing and removing in the tree, step by step.

use crate::tree::{Entry, Node, PointPage, Pool, Record, Region, RegionPage};
use crate::words::{points_a_page, regions_a_page};
use std::collections::VecDeque;

/// Why a page was claimed.
#[derive(Clone, Copy, Debug, PartialEq, Eq)]
pub enum Reason {
    /// The first point page of a pool without a root.
    First,
    /// The right page of a page that was full.
    Chosen,
    /// The right page of a page below a region page that was split.
    Forced,
    /// A new root.
    Root,
}

/// The pages claimed by one placing, in the order of claiming.
pub type Claims = Vec<(u32, Reason)>;

/// A page was to be claimed and none was free.
#[derive(Clone, Copy, Debug, PartialEq, Eq)]
pub struct NoneFree;

/// What became of a node in which a record was placed.
enum Placed {
    Whole(Node),
    Halves {
        domain: usize,
        cut: u32,
        left: Node,
        right: Node,
    },
}

/// The free pages still left, lowest first, and the claims made. Nothing is freed while placing, so the
/// lowest free page is always the next.
struct Pages {
    k: usize,
    free: VecDeque<u32>,
    claims: Claims,
}

impl Pool {
    /// Is there a record with these keys? Every record is looked at.
    pub fn has(&self, keys: &[u32]) -> bool {
        self.records().iter().any(|r| r.keys == keys)
    }

    /// Places a record whose point is not there yet. The pool given is used up, so a caller that wants it
    /// back after `NoneFree` keeps a copy.
    pub fn place(self, record: Record) -> Result<(Pool, Claims), NoneFree> {
        let Pool { k, n, .. } = self;
        let mut pages = Pages {
            k,
            free: self.free_pages().into(),
            claims: Vec::new(),
        };
        let root = match self.root {
            None => Node::Points(PointPage {
                number: pages.claim(Reason::First)?,
                domain: 0,
                records: vec![record],
            }),
            Some(root) => match pages.put(*root, record)? {
                Placed::Whole(root) => root,
                Placed::Halves {
                    domain,
                    cut,
                    left,
                    right,
                } => {
                    let (left_region, right_region) = Region::whole(k).split(domain, cut);
                    Node::Regions(RegionPage {
                        number: pages.claim(Reason::Root)?,
                        domain: 0,
                        entries: vec![
                            Entry::new(left_region, left),
                            Entry::new(right_region, right),
                        ],
                    })
                }
            },
        };
        let pool = Pool {
            k,
            n,
            root: Some(Box::new(root)),
        };
        Ok((pool, pages.claims))
    }

    /// Takes the record with these keys out of its page and gives its location. Order and pages stay.
    pub fn remove(&mut self, keys: &[u32]) -> Option<u32> {
        fn take(node: &mut Node, keys: &[u32]) -> Option<u32> {
            match node {
                Node::Points(page) => {
                    let at = page.records.iter().position(|r| r.keys == keys)?;
                    Some(page.records.remove(at).location)
                }
                Node::Regions(page) => page
                    .entries
                    .iter_mut()
                    .find_map(|entry| take(&mut entry.child, keys)),
            }
        }
        take(self.root.as_mut()?, keys)
    }
}

impl Pages {
    fn claim(&mut self, reason: Reason) -> Result<u32, NoneFree> {
        let number = self.free.pop_front().ok_or(NoneFree)?;
        self.claims.push((number, reason));
        Ok(number)
    }

    /// I2 to I5: puts the record where it belongs below this node, then splits the node if it is overfull.
    fn put(&mut self, node: Node, record: Record) -> Result<Placed, NoneFree> {
        let (node, overfull) = match node {
            Node::Points(mut page) => {
                page.records.push(record);
                let overfull = page.records.len() > points_a_page(self.k);
                (Node::Points(page), overfull)
            }
            Node::Regions(mut page) => {
                let at = page
                    .entries
                    .iter()
                    .position(|entry| entry.region.holds(&record.keys))
                    .expect("the regions of a sound page leave no point out");
                let Entry { region, child } = page.entries.remove(at);
                match self.put(*child, record)? {
                    Placed::Whole(child) => page.entries.insert(at, Entry::new(region, child)),
                    Placed::Halves {
                        domain,
                        cut,
                        left,
                        right,
                    } => {
                        // The left entry takes the old place, the right one goes last.
                        let (left_region, right_region) = region.split(domain, cut);
                        page.entries.insert(at, Entry::new(left_region, left));
                        page.entries.push(Entry::new(right_region, right));
                    }
                }
                let overfull = page.entries.len() > regions_a_page(self.k);
                (Node::Regions(page), overfull)
            }
        };
        if !overfull {
            return Ok(Placed::Whole(node));
        }
        let (domain, cut) = choose_cut(&node, self.k);
        let (left, right) = self.split(node, domain, cut, Reason::Chosen)?;
        Ok(Placed::Halves {
            domain,
            cut,
            left,
            right,
        })
    }

    /// S1 to S3: splits one page along a cut. The left page keeps the number, the right page is claimed
    /// first of all, then the crossing entries are split one after the other, each to its end.
    fn split(
        &mut self,
        node: Node,
        domain: usize,
        cut: u32,
        reason: Reason,
    ) -> Result<(Node, Node), NoneFree> {
        let right_number = self.claim(reason)?;
        let next_domain = |old: usize| match reason {
            Reason::Chosen => (domain + 1) % self.k,
            _ => old,
        };
        match node {
            Node::Points(page) => {
                let both = next_domain(page.domain);
                let (left, right) = page
                    .records
                    .into_iter()
                    .partition(|record| record.keys[domain] < cut);
                Ok((
                    Node::Points(PointPage {
                        number: page.number,
                        domain: both,
                        records: left,
                    }),
                    Node::Points(PointPage {
                        number: right_number,
                        domain: both,
                        records: right,
                    }),
                ))
            }
            Node::Regions(page) => {
                let both = next_domain(page.domain);
                let (mut left, mut right) = (Vec::new(), Vec::new());
                for entry in page.entries {
                    if entry.region.upper[domain] <= cut {
                        left.push(entry);
                    } else if entry.region.lower[domain] >= cut {
                        right.push(entry);
                    } else {
                        let (left_region, right_region) = entry.region.split(domain, cut);
                        let (left_child, right_child) =
                            self.split(*entry.child, domain, cut, Reason::Forced)?;
                        left.push(Entry::new(left_region, left_child));
                        right.push(Entry::new(right_region, right_child));
                    }
                }
                Ok((
                    Node::Regions(RegionPage {
                        number: page.number,
                        domain: both,
                        entries: left,
                    }),
                    Node::Regions(RegionPage {
                        number: right_number,
                        domain: both,
                        entries: right,
                    }),
                ))
            }
        }
    }
}

/// The domain and the cut of an overfull page: the first domain, from its splitting domain on and around,
/// that offers a cut. Points that differ, and disjoint regions, always offer one in some domain.
fn choose_cut(node: &Node, k: usize) -> (usize, u32) {
    let (start, values): (usize, Vec<&[u32]>) = match node {
        Node::Points(page) => (
            page.domain,
            page.records.iter().map(|r| r.keys.as_slice()).collect(),
        ),
        Node::Regions(page) => (
            page.domain,
            page.entries
                .iter()
                .map(|e| e.region.lower.as_slice())
                .collect(),
        ),
    };
    (0..k)
        .map(|step| (start + step) % k)
        .find_map(|domain| {
            let mut sorted: Vec<u32> = values.iter().map(|value| value[domain]).collect();
            sorted.sort_unstable();
            let middle = sorted[sorted.len() / 2];
            let cut = if middle > sorted[0] {
                Some(middle)
            } else {
                sorted.iter().copied().find(|&value| value > sorted[0])
            };
            cut.map(|cut| (domain, cut))
        })
        .expect("some domain of a sound overfull page offers a cut")
}
