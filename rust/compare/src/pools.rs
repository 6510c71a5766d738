//! Pools to start from: built by placing, arranged at random, chains, and ladders of shared pages.

use crate::random::{Keys, Random, Shape, INFINITY};
use second::words::{points_a_page, regions_a_page};
use second::{Entry, Node, PointPage, Pool, Record, Region, RegionPage};
use std::collections::HashSet;

/// A pool that records were placed in one after the other, and some were removed from again, by the second
/// program's tree, which is quicker than its calls. It takes at most so many records, fewer if it runs full.
pub fn built(random: &mut Random, keys: &mut Keys, k: usize, n: usize, records: usize) -> Pool {
    let mut pool = Pool::new(k, 4 * n + 64);
    let mut seen = HashSet::new();
    let mut used = 0;
    for _ in 0..records {
        let point = keys.point(random);
        if !seen.insert(point.clone()) {
            continue;
        }
        // Near the end a copy is kept, for a placing that would take too many pages.
        let kept = (used + 20 > n).then(|| pool.clone());
        let record = Record {
            keys: point,
            location: random.word(),
        };
        let (next, claims) = pool.place(record).expect("there is room");
        pool = next;
        used += claims.len();
        if used > n - 1 {
            pool = kept.unwrap_or_else(|| Pool::new(k, n));
            break;
        }
    }
    pool.n = n;
    if random.once_in(3) {
        let share = random.from(1, 9);
        let points: Vec<Vec<u32>> = pool.records().iter().map(|r| r.keys.clone()).collect();
        for point in points {
            if random.below(10) < share {
                pool.remove(&point);
            }
        }
    }
    pool
}

/// Gives every page another number, and shuffles entries, records and splitting domains: still sound, but
/// free pages lie between used ones and no order is that of placing.
pub fn rearranged(random: &mut Random, mut pool: Pool) -> Pool {
    let mut numbers: Vec<u32> = (1..pool.n as u32).collect();
    random.shuffle(&mut numbers);
    fn visit(random: &mut Random, node: &mut Node, k: usize, numbers: &mut Vec<u32>) {
        let number = numbers.pop().expect("a page for each node");
        match node {
            Node::Points(page) => {
                page.number = number;
                page.domain = random.below(k);
                random.shuffle(&mut page.records);
            }
            Node::Regions(page) => {
                page.number = number;
                page.domain = random.below(k);
                random.shuffle(&mut page.entries);
                for entry in &mut page.entries {
                    visit(random, &mut entry.child, k, numbers);
                }
            }
        }
    }
    if let Some(root) = &mut pool.root {
        visit(random, root, pool.k, &mut numbers);
    }
    pool
}

/// How an arranged pool is made.
struct Arranging {
    k: usize,
    pages: usize,
    /// Region pages and point pages are as full as they can be.
    full: bool,
    /// Region pages of five regions that no straight cut makes, where K is 2.
    pinwheels: bool,
    /// Where keys lie: below this in each domain, but for the last region.
    width: u32,
}

/// A sound pool of regions cut at random, not by placing: with pinwheels, single entries and empty pages.
pub fn arranged(random: &mut Random, k: usize, n: usize, pinwheels: bool) -> Pool {
    loop {
        let mut arranging = Arranging {
            k,
            pages: n - 1,
            full: random.once_in(2),
            pinwheels: pinwheels && k == 2,
            width: *random.pick(&[12, 60, 1000, INFINITY]),
        };
        let most = if n < 12 { 2 } else { 4 };
        let levels = if pinwheels {
            random.from(2, most)
        } else {
            random.from(1, most)
        };
        let root = arranging.node(random, &Region::whole(k), levels, true);
        if let Some(root) = root {
            let pool = Pool {
                k,
                n,
                root: Some(Box::new(root)),
            };
            return rearranged(random, pool);
        }
        if n < 7 {
            return chain(random, k, n, n - 1);
        }
    }
}

impl Arranging {
    /// A node of so many levels for a region; none if the pages do not suffice.
    fn node(
        &mut self,
        random: &mut Random,
        own: &Region,
        levels: usize,
        root: bool,
    ) -> Option<Node> {
        self.pages = self.pages.checked_sub(1)?;
        if levels == 1 {
            return Some(Node::Points(PointPage {
                number: 0,
                domain: 0,
                records: self.records(random, own),
            }));
        }
        let parts = if self.pinwheels && (root || random.once_in(3)) {
            pinwheel(random, own, self.width)
        } else {
            None
        };
        let parts = parts.unwrap_or_else(|| {
            let most = regions_a_page(self.k);
            let wanted = if self.full {
                most
            } else {
                random.from(1, most)
            };
            straight(random, own, wanted, self.width)
        });
        let mut entries = Vec::new();
        for part in parts {
            let child = self.node(random, &part, levels - 1, false)?;
            entries.push(Entry::new(part, child));
        }
        Some(Node::Regions(RegionPage {
            number: 0,
            domain: 0,
            entries,
        }))
    }

    fn records(&self, random: &mut Random, own: &Region) -> Vec<Record> {
        let most = points_a_page(self.k);
        let wanted = if self.full && !random.once_in(6) {
            most
        } else {
            random.below(most + 1)
        };
        let mut seen = HashSet::new();
        let mut records = Vec::new();
        for _ in 0..wanted {
            let keys = point_in(random, own, self.width);
            if seen.insert(keys.clone()) {
                records.push(Record {
                    keys,
                    location: random.word(),
                });
            }
        }
        records
    }
}

/// A number from lower to upper - 1, mostly near keys that others take too.
fn between(random: &mut Random, lower: u32, upper: u32, width: u32) -> u32 {
    let upper = if upper > width && lower < width {
        width
    } else {
        upper
    };
    match random.below(8) {
        0 => lower,
        1 => upper - 1,
        _ => lower + random.word_below(upper - lower),
    }
}

/// A point of a region.
pub fn point_in(random: &mut Random, own: &Region, width: u32) -> Vec<u32> {
    let sides = own.lower.iter().zip(&own.upper);
    sides
        .map(|(&lower, &upper)| between(random, lower, upper, width))
        .collect()
}

/// A cut through the region in a domain, if it is wide enough there.
fn cut_in(random: &mut Random, own: &Region, domain: usize, width: u32) -> Option<u32> {
    let (lower, upper) = (own.lower[domain], own.upper[domain]);
    (upper - lower > 1).then(|| between(random, lower + 1, upper, width))
}

/// Parts of a region by straight cuts, at most so many.
fn straight(random: &mut Random, own: &Region, wanted: usize, width: u32) -> Vec<Region> {
    let mut parts = vec![own.clone()];
    for _ in 0..8 * wanted {
        if parts.len() == wanted {
            break;
        }
        let at = random.below(parts.len());
        let domain = random.below(own.lower.len());
        if let Some(cut) = cut_in(random, &parts[at], domain, width) {
            let (left, right) = parts[at].split(domain, cut);
            parts[at] = left;
            parts.push(right);
        }
    }
    parts
}

/// Five regions in a whirl, which no straight cut takes apart; none if the region is too narrow.
fn pinwheel(random: &mut Random, own: &Region, width: u32) -> Option<Vec<Region>> {
    let mut ends = Vec::new();
    for d in 0..2 {
        let a = cut_in(random, own, d, width)?;
        let b = cut_in(random, own, d, width)?;
        if a == b {
            return None;
        }
        ends.push([own.lower[d], a.min(b), a.max(b), own.upper[d]]);
    }
    let [x, y] = [ends[0], ends[1]];
    let mirrored = random.once_in(2);
    let region = |x0: usize, y0: usize, x1: usize, y1: usize| {
        // The mirror of the whirl changes the two ends of the first domain.
        let (x0, x1) = if mirrored { (3 - x1, 3 - x0) } else { (x0, x1) };
        Region {
            lower: vec![x[x0], y[y0]],
            upper: vec![x[x1], y[y1]],
        }
    };
    Some(vec![
        region(0, 0, 2, 1),
        region(2, 0, 3, 2),
        region(1, 2, 3, 3),
        region(0, 1, 1, 3),
        region(1, 1, 2, 2),
    ])
}

/// A chain: region pages with one entry each above one point page, so many levels in all.
pub fn chain(random: &mut Random, k: usize, n: usize, levels: usize) -> Pool {
    let whole = Region::whole(k);
    let arranging = Arranging {
        k,
        pages: 0,
        full: random.once_in(2),
        pinwheels: false,
        width: *random.pick(&[12, 1000, INFINITY]),
    };
    let mut node = Node::Points(PointPage {
        number: levels as u32,
        domain: 0,
        records: arranging.records(random, &whole),
    });
    for number in (1..levels as u32).rev() {
        node = Node::Regions(RegionPage {
            number,
            domain: random.below(k),
            entries: vec![Entry::new(whole.clone(), node)],
        });
    }
    let pool = Pool {
        k,
        n,
        root: Some(Box::new(node)),
    };
    if random.once_in(2) {
        rearranged(random, pool)
    } else {
        pool
    }
}

/// A ladder: all entries of a page name the one page below, so that list reads pages again and again. The pool
/// is as long as the bound is near the number of reads, if that is possible.
pub fn ladder(random: &mut Random, k: usize) -> Vec<u32> {
    let levels = random.from(2, 6);
    let counts: Vec<usize> = (1..levels)
        .map(|_| random.from(1, regions_a_page(k)))
        .collect();
    let mut reads = 1;
    let mut here = 1;
    for count in &counts {
        here *= count;
        reads += here;
    }
    // The bound is N - 1 reads: one less, just as many, one more, or anything.
    let n = match random.below(6) {
        0 => reads,
        1 | 2 => reads + 1,
        3 => reads + 2,
        _ => random.from(levels + 1, 60),
    };
    let n = n.clamp(levels + 1, 512);
    let mut numbers: Vec<u32> = (1..n as u32).collect();
    if random.once_in(2) {
        random.shuffle(&mut numbers);
    }
    let mut words = vec![0; 32 * n];
    words[..4].copy_from_slice(&[k as u32, n as u32, numbers[0], levels as u32]);
    for (level, &count) in counts.iter().enumerate() {
        let mut page = vec![1, count as u32, 0, 0];
        for _ in 0..count {
            page.extend(vec![0; k]);
            page.extend(vec![INFINITY; k]);
            page.push(numbers[level + 1]);
        }
        let start = 32 * numbers[level] as usize;
        words[start..start + page.len()].copy_from_slice(&page);
    }
    let mut page = vec![2, random.below(3) as u32, 0, 0];
    for _ in 0..page[1] {
        page.extend((0..k).map(|_| random.word_below(9)));
        page.push(random.word());
    }
    let start = 32 * numbers[levels - 1] as usize;
    words[start..start + page.len()].copy_from_slice(&page);
    words[4] = page[1];
    words
}

/// A source of points for a pool that is not built by placing.
pub fn any_keys(random: &mut Random, k: usize) -> Keys {
    let shape = *random.pick(&[Shape::Uniform, Shape::Tied, Shape::Ends, Shape::Lines]);
    Keys::new(random, k, shape)
}
