//! How many records fit: the records in a pool when place first finds no free page, for each K and each order of placing,
//! the least, the median and the most of 20 sets of records. The table in include/korytanka.h has its numbers from here.
//! `cargo run --release --offline -p second --example capacity`, and behind it `-- 64` for 64 pages instead of 512.

use second::{Pool, Record};
use std::collections::HashSet;

/// All keys at random; the first key rising, the others at random; all keys rising; such records in random order;
/// all keys within 1000 of one of 20 centres.
const ORDERS: [&str; 5] = ["random", "first", "all", "shuffled", "clustered"];

/// Splitmix64.
struct Draw(u64);

impl Draw {
    fn below(&mut self, bound: u64) -> u64 {
        self.0 = self.0.wrapping_add(0x9E37_79B9_7F4A_7C15);
        let mut z = self.0;
        z = (z ^ (z >> 30)).wrapping_mul(0xBF58_476D_1CE4_E5B9);
        z = (z ^ (z >> 27)).wrapping_mul(0x94D0_49BB_1331_11EB);
        (z ^ (z >> 31)) % bound
    }

    fn key(&mut self) -> u32 {
        self.below(u64::from(u32::MAX)) as u32
    }
}

/// The records that one set places before the first refusal 9.
fn fill(k: usize, pages: usize, set: u64, order: &str) -> usize {
    let mut draw = Draw(1000 * set + 17);
    let mut line: Vec<u32> = (0..5000).map(|i| 1000 * i).collect();
    if order == "shuffled" {
        for last in (1..line.len()).rev() {
            line.swap(last, draw.below(last as u64 + 1) as usize);
        }
    }
    let centres: Vec<u32> = (0..20 * k).map(|_| draw.key() / 2).collect();
    let (mut pool, mut seen, mut rising) = (Pool::new(k, pages), HashSet::new(), 0);
    for along in line.iter().cycle() {
        rising += 1 + draw.below(2000) as u32;
        let centre = draw.below(20) as usize;
        let key = |d: usize| match order {
            "first" if d == 0 => rising,
            "random" | "first" => draw.key(),
            "all" => rising + d as u32,
            "shuffled" => along + d as u32,
            _ => centres[centre * k + d] + draw.below(1000) as u32,
        };
        let keys: Vec<u32> = (0..k).map(key).collect();
        if seen.insert(keys.clone()) {
            match pool.place(Record { keys, location: 0 }) {
                Ok((placed, _)) => pool = placed,
                Err(_) => break,
            }
        }
    }
    seen.len() - 1
}

fn main() {
    let given = std::env::args().nth(1);
    let pages = given.map_or(512, |n| n.parse().expect("a number of pages"));
    println!(
        "records on {pages} pages when place first finds none free; least, median, most of 20"
    );
    for order in ORDERS {
        for k in 1..=4 {
            let mut n: Vec<usize> = (1..=20).map(|set| fill(k, pages, set, order)).collect();
            n.sort_unstable();
            println!(
                "{order}, K {k}: {}, {}, {}",
                n[0],
                (n[9] + n[10]) / 2,
                n[19]
            );
        }
    }
}
