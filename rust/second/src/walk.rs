//! Find and list over any words, as far as the header is good.
//!
//! Both give, beside their answer, the list of the page numbers read, in order, a bad page included if it
//! has a number from 1 to N - 1.

use crate::answers::{Found, Listed, Refusal};
use crate::opened::{open, Opened};
use crate::words::Header;

/// The walk of find: at each level the first entry that holds the point, and no way back.
pub fn find(words: &[u32], head: &Header, point: &[u32]) -> (Result<Found, Refusal>, Vec<u32>) {
    let mut read = Vec::new();
    let mut number = head.root;
    for level in 1..=head.levels {
        if number != 0 && (number as usize) < head.n {
            read.push(number);
        }
        match open(words, head, number, level == head.levels) {
            None => return (Err(Refusal::BadPool), read),
            Some(Opened::Regions(entries)) => {
                match entries.iter().find(|(region, _)| region.holds(point)) {
                    None => return (Err(Refusal::BadPool), read),
                    Some((_, child)) => number = *child,
                }
            }
            Some(Opened::Points(records)) => {
                let answer = match records.iter().find(|record| record.keys == point) {
                    None => Err(Refusal::NotThere),
                    Some(record) => Ok(Found {
                        location: record.location,
                        reads: read.len() as u32,
                    }),
                };
                return (answer, read);
            }
        }
    }
    // No root, no level: nothing is there and nothing was read.
    (Err(Refusal::NotThere), read)
}

/// What a list walk has gathered so far.
struct Walk<'a> {
    words: &'a [u32],
    head: &'a Header,
    window: &'a [u32],
    read: Vec<u32>,
    locations: Vec<u32>,
}

impl Walk<'_> {
    /// Q2 and Q3 for one page. An error ends the whole walk.
    fn visit(&mut self, number: u32, level: u32) -> Result<(), Refusal> {
        // Before page read number N the walk stops.
        if self.read.len() + 1 >= self.head.n {
            return Err(Refusal::BadPool);
        }
        if number != 0 && (number as usize) < self.head.n {
            self.read.push(number);
        }
        let last_level = level == self.head.levels;
        match open(self.words, self.head, number, last_level).ok_or(Refusal::BadPool)? {
            Opened::Points(records) => {
                let k = self.head.k;
                for record in records {
                    let inside = (0..k)
                        .all(|d| (self.window[d]..=self.window[k + d]).contains(&record.keys[d]));
                    if inside {
                        self.locations.push(record.location);
                    }
                }
            }
            Opened::Regions(entries) => {
                for (region, child) in entries {
                    if region.meets(self.window) {
                        self.visit(child, level + 1)?;
                    }
                }
            }
        }
        Ok(())
    }
}

/// The walk of list: the answer, all locations in walk order as far as it came, and the pages read.
pub fn list(
    words: &[u32],
    head: &Header,
    window: &[u32],
) -> (Result<Listed, Refusal>, Vec<u32>, Vec<u32>) {
    let mut walk = Walk {
        words,
        head,
        window,
        read: Vec::new(),
        locations: Vec::new(),
    };
    let end = match head.root {
        0 => Ok(()),
        root => walk.visit(root, 1),
    };
    let listed = Listed {
        total: walk.locations.len() as u32,
        reads: walk.read.len() as u32,
    };
    (end.map(|()| listed), walk.locations, walk.read)
}
