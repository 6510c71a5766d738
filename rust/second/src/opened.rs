//! One page, opened: its records, or its regions with the numbers of their children.

use crate::tree::{Record, Region};
use crate::words::{page, points_a_page, regions_a_page, Header, ENTRIES, POINT_PAGE, REGION_PAGE};

/// What stands in a page in use, children still by their number.
#[derive(Clone, Debug, PartialEq, Eq)]
pub enum Opened {
    Points(Vec<Record>),
    Regions(Vec<(Region, u32)>),
}

impl Opened {
    /// The words from the page's start to the end of the last entry.
    pub fn used_words(&self, k: usize) -> usize {
        match self {
            Opened::Points(records) => ENTRIES + records.len() * (k + 1),
            Opened::Regions(entries) => ENTRIES + entries.len() * (2 * k + 1),
        }
    }
}

/// Opens a page as a point page at the last level and as a region page above it.
/// None if the page is bad in the sense of find and list: its number, its kind or its count.
pub fn open(words: &[u32], head: &Header, number: u32, last_level: bool) -> Option<Opened> {
    if number == 0 || number as usize >= head.n {
        return None;
    }
    let k = head.k;
    let page = page(words, number);
    let (kind, count) = (page[0], page[1] as usize);
    if last_level {
        if kind != POINT_PAGE || count > points_a_page(k) {
            return None;
        }
        let entries = page[ENTRIES..].chunks(k + 1).take(count);
        let records = entries.map(|entry| Record {
            keys: entry[..k].to_vec(),
            location: entry[k],
        });
        Some(Opened::Points(records.collect()))
    } else {
        if kind != REGION_PAGE || count > regions_a_page(k) || count == 0 {
            return None;
        }
        let entries = page[ENTRIES..].chunks(2 * k + 1).take(count);
        let regions = entries.map(|entry| {
            let region = Region {
                lower: entry[..k].to_vec(),
                upper: entry[k..2 * k].to_vec(),
            };
            (region, entry[2 * k])
        });
        Some(Opened::Regions(regions.collect()))
    }
}
