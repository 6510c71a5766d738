//! Spoilt pools: a pool is made, spoilt in one way or another, and every call is tried on it.

use crate::kinds::KINDS;
use crate::pools;
use crate::random::{Keys, Random, INFINITY, SHAPES, TOP};
use crate::run::{pages_of_kind, reaches_bound, Outcome, Run};
use crate::sequences::{spoil_arguments, wrong_length};
use crate::step::{Step, Work};
use second::words::{points_a_page, regions_a_page, PAGE};

/// The pool that a job spoils again and again.
pub struct Base {
    pub k: usize,
    pub n: usize,
    pub words: Vec<u32>,
    pub points: Vec<Vec<u32>>,
}

fn base_of(pool: second::Pool) -> Base {
    Base {
        k: pool.k,
        n: pool.n,
        words: pool.print(),
        points: pool.records().iter().map(|r| r.keys.clone()).collect(),
    }
}

/// A sound pool with a root.
fn base(random: &mut Random, k: usize, n: usize) -> Base {
    let pool = match random.below(4) {
        0 => pools::arranged(random, k, n, random.clone().once_in(3)),
        which => {
            let shape = *random.pick(&SHAPES);
            let mut keys = Keys::new(random, k, shape);
            let records = random.from(1, 2 + n * points_a_page(k));
            let pool = pools::built(random, &mut keys, k, n, records);
            if which == 1 {
                pools::rearranged(random, pool)
            } else {
                pool
            }
        }
    };
    base_of(pool)
}

/// One job: a pool for each number from 0 on, the kinds one after the other.
pub fn spoilt(run: &mut Run, random: Random, k: usize, n: usize, pools: usize) -> Outcome {
    let mut random = random;
    let base = base(&mut random, k, n);
    let first = random.below(KINDS.len());
    for number in 0..pools {
        let kind = (first + number) % KINDS.len();
        one(run, &mut random, &base, kind)?;
    }
    Ok(())
}

/// One spoilt pool of a kind, and all calls on it.
fn one(run: &mut Run, random: &mut Random, base: &Base, kind: usize) -> Outcome {
    let made = make(random, base, kind);
    run.begin(&made.words);
    let asked = ask(run, random, &made)?;
    let count = &mut run.counts.spoilt[kind];
    count.pools += 1;
    count.unsound += u64::from(asked.unsound);
    count.answering += u64::from(asked.unsound && asked.answered);
    run.counts.bound += u64::from(asked.bound);
    run.counts.longest += u64::from(made.words[3] == 511);
    let size = match made.n {
        0..=40 => 0,
        41..=128 => 1,
        _ => 2,
    };
    run.counts.spoilt_sizes[size] += 1;
    Ok(())
}

/// The spoilt pool.
fn make(random: &mut Random, base: &Base, kind: usize) -> Base {
    let (k, n) = (base.k, base.n);
    let mut words = base.words.clone();
    let points = base.points.clone();
    match KINDS[kind] {
        "pinwheels" | "pinwheels with one end moved" => {
            // Five regions stand in one page only where K is 2.
            let n = n.max(8);
            let wheel = base_of(pools::arranged(random, 2, n, true));
            let mut words = wheel.words;
            if kind == 8 {
                move_end(random, &mut words, 2, random.clone().once_in(2));
            }
            return Base {
                k: 2,
                n,
                words,
                points: wheel.points,
            };
        }
        "chains" | "chains spoilt" => {
            // The longest chain there is, among others.
            let longest = random.once_in(20);
            let n = if longest { 512 } else { n };
            let levels = match random.below(3) {
                _ if longest => 511,
                0 => n - 1,
                1 => random.from(1, n - 1),
                _ => (n - 1).max(2) - 1,
            };
            let chain = base_of(pools::chain(random, k, n, levels));
            let mut words = chain.words;
            if kind == 13 {
                spoil_chain(random, &mut words, k, n);
            }
            return Base {
                k,
                n,
                words,
                points: chain.points,
            };
        }
        "ladders of shared pages" => {
            words = pools::ladder(random, k);
            let n = words.len() / PAGE;
            if random.once_in(4) {
                // One page of the ladder is bad, or names another.
                change_used_word(random, &mut words);
            }
            return Base {
                k,
                n,
                words,
                points: vec![vec![3; k]],
            };
        }
        "random words" => {
            let bound = *random.pick(&[2, 3, 5, 12, INFINITY]);
            words.iter_mut().for_each(|w| *w = random.word_below(bound));
            if !random.once_in(4) {
                good_header(random, &mut words, k);
            }
        }
        "wild pages" => wild(random, &mut words, k, n),
        "several at once" => {
            for _ in 0..random.from(2, 4) {
                let kind = random.below(KINDS.len());
                spoil(random, &mut words, k, n, kind);
            }
        }
        _ => spoil(random, &mut words, k, n, kind),
    }
    Base {
        k,
        n,
        words,
        points,
    }
}

/// Spoils the words of a pool in the way of the kind; kinds that make pools of their own do nothing here.
fn spoil(random: &mut Random, words: &mut [u32], k: usize, n: usize, kind: usize) {
    match KINDS[kind] {
        "words changed" => {
            for _ in 0..random.from(1, 3) {
                let at = random.below(words.len());
                words[at] = other_word(random, words, at, n);
            }
        }
        "words of used pages changed" => {
            for _ in 0..random.from(1, 2) {
                change_used_word(random, words);
            }
        }
        "children swapped" => {
            let children = children(words, k);
            if !children.is_empty() {
                let (a, b) = (*random.pick(&children), *random.pick(&children));
                words.swap(a, b);
            }
        }
        "rings" => ring(random, words, k, n),
        "shared pages" => {
            let children = children(words, k);
            if !children.is_empty() {
                let (a, b) = (*random.pick(&children), *random.pick(&children));
                words[a] = words[b];
                if random.once_in(3) {
                    // The page no longer named becomes free.
                    let named: Vec<u32> = children.iter().map(|&at| words[at]).collect();
                    for number in 1..n {
                        let root = words[2] as usize == number;
                        if !root && !named.contains(&(number as u32)) {
                            words[PAGE * number..PAGE * (number + 1)].fill(0);
                        }
                    }
                }
            }
        }
        "gaps" => move_end(random, words, k, true),
        "overlaps" => move_end(random, words, k, false),
        "false counts" => false_count(random, words, k, n),
        "bad headers" => bad_header(random, words, n),
        "levels and roots" => match random.below(3) {
            0 => words[2] = random.below(n) as u32,
            1 => words[3] = random.below(n) as u32,
            _ => {
                words[3] = words[3]
                    .wrapping_add(1)
                    .wrapping_sub(random.below(3) as u32)
            }
        },
        "kinds and free pages" => {
            let page = PAGE * random.from(1, n - 1);
            match random.below(5) {
                0 => words[page] = random.below(4) as u32,
                1 => words[page] ^= 3,
                2 => words[page..page + PAGE].fill(0),
                3 => {
                    // A page that was perhaps free becomes one in use, which nobody names.
                    words[page..page + PAGE].fill(0);
                    words[page] = 2;
                }
                _ => words[page + random.below(PAGE)] |= 1,
            }
        }
        "points astray, equal or infinite" => {
            let full = pages_of_kind(words, 2);
            let full: Vec<usize> = full
                .into_iter()
                .filter(|&page| words[PAGE * page + 1] > 0)
                .collect();
            if full.is_empty() {
                return;
            }
            let page = PAGE * *random.pick(&full);
            let count = (words[page + 1] as usize).clamp(1, points_a_page(k));
            let entry = page + 4 + random.below(count) * (k + 1);
            let other = page + 4 + random.below(count) * (k + 1);
            let d = random.below(k);
            match random.below(5) {
                0 => words[entry + d] = random.key(),
                1 => words[entry + d] = INFINITY,
                2 => words[entry + d] = words[entry + d].wrapping_add(1),
                3 => words[entry + d] = words[entry + d].wrapping_sub(1),
                _ => words.copy_within(other..other + k, entry),
            }
        }
        "domains, word 3, words behind" => {
            let used = used_pages(words);
            if used.is_empty() {
                return;
            }
            let page = *random.pick(&used);
            let width = if words[PAGE * page] == 1 {
                2 * k + 1
            } else {
                k + 1
            };
            let behind = 4 + words[PAGE * page + 1] as usize * width;
            let word = match random.below(3) {
                0 => 2,
                1 => 3,
                _ => behind.min(PAGE - 1) + random.below(PAGE - behind.min(PAGE - 1)),
            };
            words[PAGE * page + word] = random.below(k + 3) as u32;
        }
        _ => change_used_word(random, words),
    }
}

fn used_pages(words: &[u32]) -> Vec<usize> {
    let mut used = pages_of_kind(words, 1);
    used.extend(pages_of_kind(words, 2));
    used
}

/// A word that may stand in another's place.
fn other_word(random: &mut Random, words: &[u32], at: usize, n: usize) -> u32 {
    match random.below(6) {
        0 => random.below(n + 1) as u32,
        1 => words[random.below(words.len())],
        2 => INFINITY - random.below(2) as u32,
        3 => words[at] ^ (1 << random.below(32)),
        _ => words[at]
            .wrapping_add(random.below(3) as u32)
            .wrapping_sub(1),
    }
}

fn change_used_word(random: &mut Random, words: &mut [u32]) {
    let n = words.len() / PAGE;
    let used = used_pages(words);
    if used.is_empty() {
        return;
    }
    let at = PAGE * *random.pick(&used) + random.below(PAGE);
    words[at] = other_word(random, words, at, n);
}

/// Where the entries of region pages stand.
fn entries(words: &[u32], k: usize) -> Vec<usize> {
    let mut found = Vec::new();
    for page in pages_of_kind(words, 1) {
        let count = (words[PAGE * page + 1] as usize).min(regions_a_page(k));
        found.extend((0..count).map(|entry| PAGE * page + 4 + entry * (2 * k + 1)));
    }
    found
}

/// Where the child numbers of region pages stand.
fn children(words: &[u32], k: usize) -> Vec<usize> {
    let entries = entries(words, k);
    entries.into_iter().map(|entry| entry + 2 * k).collect()
}

/// Moves one end of one region: inwards for a gap, outwards for an overlap.
fn move_end(random: &mut Random, words: &mut [u32], k: usize, inwards: bool) {
    let entries = entries(words, k);
    if entries.is_empty() {
        return;
    }
    let entry = *random.pick(&entries);
    let d = random.below(k);
    let (lower, upper) = (words[entry + d], words[entry + k + d]);
    let by = *random.pick(&[1, 1, 2, 10, 100_000]);
    // Mostly to the end of another region, so that the ends still meet elsewhere.
    let other = words[*random.pick(&entries) + random.below(2) * k + d];
    match (random.once_in(2), inwards) {
        _ if random.once_in(3) => {
            let end = random.below(2) * k;
            words[entry + end + d] = other;
        }
        (true, true) => words[entry + d] = lower.saturating_add(by),
        (true, false) => words[entry + d] = lower.saturating_sub(by),
        (false, true) => words[entry + k + d] = upper.saturating_sub(by),
        (false, false) => words[entry + k + d] = upper.saturating_add(by),
    }
}

/// A page names itself or one above it. Levels may become so many that the walk goes round.
fn ring(random: &mut Random, words: &mut [u32], k: usize, n: usize) {
    let regions = pages_of_kind(words, 1);
    if regions.is_empty() {
        // A root that names itself.
        let (number, count) = (1, random.from(1, regions_a_page(k)));
        words[2] = number;
        words[3] = random.from(1, n - 1) as u32;
        words[32..64].fill(0);
        words[32] = 1;
        words[33] = count as u32;
        for entry in 0..count {
            let at = 36 + entry * (2 * k + 1);
            words[at + k..at + 2 * k].fill(INFINITY);
            words[at + 2 * k] = number;
        }
        return;
    }
    let children = children(words, k);
    for _ in 0..random.from(1, 3) {
        if !children.is_empty() {
            words[*random.pick(&children)] = *random.pick(&regions) as u32;
        }
    }
    match random.below(3) {
        0 => words[3] = random.from(1, n - 1) as u32,
        1 => words[3] = n as u32 - 1,
        _ => {}
    }
}

fn false_count(random: &mut Random, words: &mut [u32], k: usize, n: usize) {
    let used = used_pages(words);
    if used.is_empty() || random.once_in(4) {
        words[4] = match random.below(4) {
            0 => 0,
            1 => random.word(),
            2 => words[4].wrapping_add(1),
            _ => words[4].wrapping_sub(1),
        };
        return;
    }
    let page = PAGE * *random.pick(&used);
    words[page + 1] = match random.below(7) {
        0 => 0,
        1 => regions_a_page(k) as u32,
        2 => points_a_page(k) as u32,
        3 => points_a_page(k).max(regions_a_page(k)) as u32 + 1,
        4 => words[page + 1].wrapping_sub(1),
        5 => random.below(n + 9) as u32,
        _ => words[page + 1] + 1,
    };
    if random.once_in(3) {
        // The sum is made right again.
        let points = pages_of_kind(words, 2);
        words[4] = points
            .iter()
            .fold(0, |sum: u32, p| sum.wrapping_add(words[PAGE * p + 1]));
    }
}

fn bad_header(random: &mut Random, words: &mut [u32], n: usize) {
    match random.below(8) {
        0 => words[0] = *random.pick(&[0, 5, 6, 256, 65537, INFINITY]),
        1 => words[0] = random.from(1, 4) as u32,
        2 => words[1] = random.below(514) as u32,
        3 => words[2] = n as u32 + random.below(3) as u32,
        4 => words[3] = n as u32 + random.below(3) as u32 - random.below(2) as u32,
        5 => words[2 + random.below(2)] = 0,
        6 => words[2 + random.below(2)] = *random.pick(&[1 << 16, 1 << 27, 1 << 31, INFINITY]),
        _ => words[5 + random.below(27)] = *random.pick(&[1, 2, INFINITY]),
    }
}

/// A header that is good, over any pages.
fn good_header(random: &mut Random, words: &mut [u32], k: usize) {
    let n = words.len() / PAGE;
    words[..PAGE].fill(0);
    words[0] = k as u32;
    words[1] = n as u32;
    if !random.once_in(12) {
        words[2] = random.from(1, n - 1) as u32;
        words[3] = random.from(1, 5.min(n - 1)) as u32;
    }
    words[4] = random.below(30) as u32;
}

/// Pages that look right with wild contents: wide regions and real children, so that walks go deep.
fn wild(random: &mut Random, words: &mut [u32], k: usize, n: usize) {
    good_header(random, words, k);
    let levels = words[3].max(1) as usize;
    for number in 1..n {
        let page = &mut words[PAGE * number..PAGE * (number + 1)];
        page.fill(0);
        if random.once_in(8) {
            continue;
        }
        // Low numbers are mostly region pages.
        let region = number * levels < n * (levels - 1) || random.once_in(8);
        let (kind, most, width) = if region {
            (1, regions_a_page(k), 2 * k + 1)
        } else {
            (2, points_a_page(k), k + 1)
        };
        let count = if random.once_in(30) {
            most + 1
        } else {
            random.from(1, most)
        };
        page[0] = kind;
        page[1] = count as u32;
        page[2] = random.below(k) as u32;
        for entry in 0..count.min(most) {
            let at = 4 + entry * width;
            for d in 0..k {
                page[at + d] = random.word_below(20);
                if region {
                    page[at + k + d] = match random.below(3) {
                        0 => random.word_below(40),
                        _ => INFINITY,
                    };
                }
            }
            page[at + width - 1] = if region {
                // Mostly a page of the next level.
                let next = number + n.div_ceil(levels);
                match random.below(12) {
                    0 => random.below(n + 2) as u32,
                    _ if next < n => random.from(next - 1, (next + 2).min(n - 1)) as u32,
                    _ => n as u32 - 1,
                }
            } else {
                random.word()
            };
        }
    }
    if words[2] != 0 {
        words[2] = random.from(1, 1 + n / 8).min(n - 1) as u32;
    }
}

fn spoil_chain(random: &mut Random, words: &mut [u32], k: usize, n: usize) {
    match random.below(6) {
        0 => ring(random, words, k, n),
        1 => move_end(random, words, k, random.clone().once_in(2)),
        2 => {
            words[3] = words[3]
                .wrapping_add(1)
                .wrapping_sub(random.below(3) as u32)
        }
        3 => false_count(random, words, k, n),
        4 => {
            let children = children(words, k);
            if !children.is_empty() {
                words[*random.pick(&children)] = random.below(n + 1) as u32;
            }
        }
        _ => change_used_word(random, words),
    }
}

/// What the calls on a spoilt pool have shown.
#[derive(Default)]
struct Asked {
    sound: bool,
    unsound: bool,
    /// Find or list answered 0 or 8.
    answered: bool,
    /// List stopped at its bound.
    bound: bool,
}

impl Asked {
    fn take(&mut self, run: &mut Run, k: usize, step: Step) -> Outcome {
        let call = step.call();
        let window = match &step {
            Step::List { window, .. } => window.clone(),
            _ => Vec::new(),
        };
        let answer = run.step(step)?;
        match (call, answer.number) {
            (Some(1), 6) => self.unsound = true,
            (Some(1), 0) => self.sound = true,
            (Some(4 | 5), 0 | 8) => self.answered = true,
            (Some(5), 6) if !self.bound && window.len() == 2 * k => {
                self.bound = reaches_bound(run.pool(), &window);
            }
            _ => {}
        }
        Ok(())
    }
}

fn place(random: &mut Random, base: &Base) -> Step {
    Step::Place {
        point: some_point(random, base),
        location: random.word(),
        work: Work::Same,
        junk: random.word(),
    }
}

/// A point to ask for: one that is there, a corner of a region, or any.
fn some_point(random: &mut Random, base: &Base) -> Vec<u32> {
    let k = base.k;
    let entries = entries(&base.words, k);
    let point: Vec<u32> = match random.below(8) {
        0..=3 if !base.points.is_empty() => random.pick(&base.points).clone(),
        4 | 5 if !entries.is_empty() => {
            let entry = *random.pick(&entries);
            let corner = |random: &mut Random, d: usize| {
                let (lower, upper) = (base.words[entry + d], base.words[entry + k + d]);
                match random.below(5) {
                    0 => lower.wrapping_sub(1),
                    1 => upper,
                    2 => upper.wrapping_sub(1),
                    _ => lower,
                }
            };
            (0..k).map(|d| corner(random, d)).collect()
        }
        6 => (0..k).map(|_| random.word_below(12)).collect(),
        _ => (0..k).map(|_| random.key()).collect(),
    };
    point.into_iter().map(|key| key.min(TOP)).collect()
}

/// All calls on the pool that was begun.
fn ask(run: &mut Run, random: &mut Random, base: &Base) -> Result<Asked, Box<crate::run::Failure>> {
    let k = base.k;
    let lent = base.words.len();
    let mut steps = vec![Step::Check];
    for _ in 0..2 {
        steps.push(Step::Find(some_point(random, base)));
        let (a, b) = (some_point(random, base), some_point(random, base));
        let mut window: Vec<u32> = (0..k).map(|d| a[d].min(b[d])).collect();
        window.extend((0..k).map(|d| a[d].max(b[d])));
        match random.below(4) {
            0 => {
                window = vec![0; k];
                window.resize(2 * k, TOP);
            }
            1 => {
                window = a.clone();
                window.extend(&a);
            }
            _ => {}
        }
        let slots = *random.pick(&[0, 1, 3, 14, 70]);
        steps.push(Step::List {
            window,
            slots,
            junk: random.word(),
        });
    }
    steps.push(place(random, base));
    steps.push(Step::Remove(some_point(random, base)));
    let more = random.once_in(2);
    random.shuffle(&mut steps);
    if random.once_in(6) {
        let at = random.below(steps.len());
        steps[at] = spoil_arguments(random, steps[at].clone(), lent);
    }
    let mut asked = Asked::default();
    for step in steps {
        asked.take(run, k, step)?;
    }
    // What turned out sound takes some more records.
    if asked.sound && more {
        for _ in 0..random.from(1, 6) {
            let step = place(random, base);
            asked.take(run, k, step)?;
        }
        asked.take(run, k, Step::Sound)?;
    }
    if random.once_in(40) {
        let words = wrong_length(random, lent);
        run.step(Step::Lend(words))?;
        run.step(Step::Check)?;
        run.step(Step::Find(some_point(random, base)))?;
    }
    Ok(asked)
}
