//! What a run has met, and what it has to have met.

use crate::kinds::{histories, AFTER_9, HISTORY, KINDS};
use crate::step::CALLS;
use std::collections::BTreeSet;

/// The kinds of spoilt pools in the table of counts.
#[derive(Clone, Default)]
pub struct SpoiltCount {
    pub pools: u64,
    pub unsound: u64,
    /// Unsound, and find or list still answers 0 or 8.
    pub answering: u64,
}

/// What is counted, how many were met, how many have to be.
type Wanted = (String, u64, u64);

fn wanted(what: &str, met: u64, least: u64) -> Wanted {
    (what.to_string(), met, least)
}

#[derive(Clone, Default)]
pub struct Counts {
    /// By call and number.
    pub answers: [[u64; 10]; 6],
    /// Calls within sequences; the others are on spoilt and long pools and in histories.
    pub in_sequences: u64,
    pub sequences: u64,
    /// The pairs of K and N that sequences ran on.
    pub sizes: BTreeSet<(usize, usize)>,
    pub most_levels: u32,
    pub spoilt: [SpoiltCount; KINDS.len()],
    /// Spoilt pools of up to 40 pages, up to 128, and more.
    pub spoilt_sizes: [u64; 3],
    /// Spoilt pools of 511 levels by their header.
    pub longest: u64,
    /// Spoilt pools on which list stops at its bound.
    pub bound: u64,
    /// Placings that answer 9 with no page free, and with one, two or more free, so after as many claims.
    pub none_free: [u64; 4],
    /// Case 11: placings whose forced split left an empty point page, which was then read.
    pub empty_read: u64,
    /// Whole histories on 512 pages, the calls in them, those that went on after their first 9, and the records that
    /// were placed in these afterwards: in all, and in the one with the fewest.
    pub histories: u64,
    pub in_histories: u64,
    pub went_on: u64,
    pub placed_later: u64,
    pub least_placed_later: Option<u64>,
    /// Pools of more than 16,384 words; the calls on such, and those of them that answer 1.
    pub long_pools: u64,
    pub long: [u64; 6],
    pub long_refused: u64,
    pub sessions: u64,
    pub lines: u64,
    pub malformed: u64,
}

impl Counts {
    pub fn add(&mut self, other: &Counts) {
        for (row, from) in self.answers.iter_mut().zip(&other.answers) {
            for (count, from) in row.iter_mut().zip(from) {
                *count += from;
            }
        }
        for (kind, from) in self.spoilt.iter_mut().zip(&other.spoilt) {
            kind.pools += from.pools;
            kind.unsound += from.unsound;
            kind.answering += from.answering;
        }
        for (count, from) in self.none_free.iter_mut().zip(&other.none_free) {
            *count += from;
        }
        for (count, from) in self.spoilt_sizes.iter_mut().zip(&other.spoilt_sizes) {
            *count += from;
        }
        self.longest += other.longest;
        self.sizes.extend(&other.sizes);
        self.most_levels = self.most_levels.max(other.most_levels);
        self.in_sequences += other.in_sequences;
        self.sequences += other.sequences;
        self.bound += other.bound;
        self.empty_read += other.empty_read;
        for (count, from) in self.long.iter_mut().zip(&other.long) {
            *count += from;
        }
        self.long_pools += other.long_pools;
        self.long_refused += other.long_refused;
        self.histories += other.histories;
        self.in_histories += other.in_histories;
        self.went_on += other.went_on;
        self.placed_later += other.placed_later;
        let least = [self.least_placed_later, other.least_placed_later];
        self.least_placed_later = least.into_iter().flatten().min();
        self.sessions += other.sessions;
        self.lines += other.lines;
        self.malformed += other.malformed;
    }

    pub fn calls(&self) -> u64 {
        self.answers.iter().flatten().sum()
    }

    /// Refusals of the calls that return more than a number.
    fn bare(&self) -> u64 {
        let rows = self.answers[3..].iter();
        rows.map(|row| row[1..].iter().sum::<u64>()).sum()
    }

    fn spoilt_sum(&self) -> SpoiltCount {
        let mut sum = SpoiltCount::default();
        for kind in &self.spoilt {
            sum.pools += kind.pools;
            sum.unsound += kind.unsound;
            sum.answering += kind.answering;
        }
        sum
    }

    /// The wanted counts that are always printed.
    fn wanted(&self, frames: bool) -> Vec<Wanted> {
        let mut wanted = vec![wanted("calls", self.calls(), 1_000_000)];
        wanted.extend(self.wanted_of_spoilt());
        wanted.extend(self.wanted_of_sequences());
        wanted.extend(self.wanted_of_long());
        wanted.extend(self.wanted_of_histories());
        if frames {
            wanted.extend(self.wanted_of_frames());
        }
        wanted
    }

    fn wanted_of_spoilt(&self) -> [Wanted; 4] {
        let spoilt = self.spoilt_sum();
        let answering = "unsound pools on which find or list still answers 0 or 8";
        [
            wanted("spoilt pools", spoilt.pools, 100_000),
            wanted(answering, spoilt.answering, spoilt.pools.div_ceil(3)),
            wanted("spoilt pools that reach list's bound", self.bound, 1000),
            wanted("spoilt pools of 511 levels", self.longest, 100),
        ]
    }

    fn wanted_of_sequences(&self) -> [Wanted; 4] {
        let claimed = self.none_free[1..].iter().sum();
        let case_11 = "case 11: forced splits that left an empty point page, which was read";
        let sizes = self.sizes.len() as u64;
        let bare = "refusals of remove, find and list, the fields behind the number compared";
        [
            wanted("placings that answer 9 after a claim", claimed, 1000),
            wanted(case_11, self.empty_read, 100),
            wanted("pairs of K and N with sequences", sizes, 4 * 511),
            wanted(bare, self.bare(), 100_000),
        ]
    }

    fn wanted_of_long(&self) -> [Wanted; 2] {
        let least = self.long.into_iter().min().unwrap_or(0);
        [
            wanted("pools of more than 16,384 words", self.long_pools, 500),
            wanted("calls of each kind on such pools, at least", least, 500),
        ]
    }

    fn wanted_of_histories(&self) -> [Wanted; 5] {
        let all = histories().len() as u64;
        let calls = HISTORY * self.histories;
        let went_on =
            format!("whole histories that went on for {AFTER_9} calls after their first 9");
        let later = "records placed in them after their first 9";
        let least = self.least_placed_later.unwrap_or(0);
        [
            wanted("whole histories on 512 pages", self.histories, all),
            wanted("calls in whole histories", self.in_histories, calls),
            wanted(&went_on, self.went_on, self.histories),
            wanted(later, self.placed_later, 100 * self.histories),
            wanted("the same in each of them, at least", least, 1),
        ]
    }

    fn wanted_of_frames(&self) -> [Wanted; 3] {
        [
            wanted("sessions of frames", self.sessions, 100),
            wanted("frames", self.lines, 20_000),
            wanted("malformed lines", self.malformed, 2000),
        ]
    }

    /// The wanted counts of the tables: every number of every call, every kind of spoilt pool.
    fn wanted_in_tables(&self) -> Vec<Wanted> {
        let mut wanted = Vec::new();
        for (call, numbers) in [
            &[0, 1, 2][..],
            &[0, 1, 6],
            &[0, 1, 3, 4, 6, 7, 9],
            &[0, 1, 3, 4, 6, 8],
            &[0, 1, 3, 4, 6, 8],
            &[0, 1, 3, 4, 5, 6],
        ]
        .into_iter()
        .enumerate()
        {
            for &number in numbers {
                let met = self.answers[call][number];
                wanted.push((format!("{} answers {number}", CALLS[call]), met, 100));
            }
        }
        for (kind, name) in KINDS.iter().enumerate() {
            wanted.push((format!("spoilt: {name}"), self.spoilt[kind].pools, 100));
        }
        wanted
    }

    /// Prints everything; says whether every wanted count was reached.
    pub fn report(&self, frames: bool) -> bool {
        println!("answers        0        1        2        3        4        5        6        7        8        9");
        for (name, row) in CALLS.iter().zip(&self.answers) {
            let row: String = row.iter().map(|count| format!("{count:9}")).collect();
            println!("{name:7}{row}");
        }
        println!("spoilt pools: all, unsound, unsound with find or list still answering");
        for (name, kind) in KINDS.iter().zip(&self.spoilt) {
            println!(
                "  {name:36}{:8}{:8}{:8}",
                kind.pools, kind.unsound, kind.answering
            );
        }
        println!(
            "spoilt pools of up to 40 pages: {}, up to 128: {}, more: {}",
            self.spoilt_sizes[0], self.spoilt_sizes[1], self.spoilt_sizes[2]
        );
        println!(
            "sequences: {}, calls in them: {}, most levels: {}",
            self.sequences, self.in_sequences, self.most_levels
        );
        println!(
            "calls on pools of more than 16,384 words: {}, of these refused with 1: {}",
            self.long.iter().sum::<u64>(),
            self.long_refused
        );
        println!(
            "answers 9 after no claim: {}, one: {}, two: {}, more: {}",
            self.none_free[0], self.none_free[1], self.none_free[2], self.none_free[3]
        );
        let mut reached = true;
        for (what, met, wanted) in self.wanted(frames) {
            let good = met >= wanted;
            reached &= good;
            let sign = if good { "reached" } else { "NOT REACHED" };
            println!("{what}: {met}, wanted {wanted}, {sign}");
        }
        for (what, met, wanted) in self.wanted_in_tables() {
            if met < wanted {
                reached = false;
                println!("{what}: {met}, wanted {wanted}, NOT REACHED");
            }
        }
        reached
    }
}
