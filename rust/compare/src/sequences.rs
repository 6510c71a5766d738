//! Long random sequences of calls, refused calls of every kind among them, and whole histories of one pool.

use crate::index::Answer;
use crate::kinds::{AFTER_9, HISTORY};
use crate::pools;
use crate::random::{Keys, Random, Shape, INFINITY, TOP};
use crate::run::{empty_pages, region_of, Outcome, Run};
use crate::step::{Step, Work};

/// Where a sequence starts.
#[derive(Clone, Copy, Debug, PartialEq, Eq)]
pub enum Start {
    /// Words of all kinds, then a format.
    Formatted,
    /// A pool with so many records, if it takes them.
    Built(usize),
    /// The same with other page numbers and another order.
    Rearranged(usize),
    /// A pool that was not built by placing.
    Arranged,
}

#[derive(Clone, Copy, Debug)]
pub struct Plan {
    pub k: usize,
    pub n: usize,
    pub shape: Shape,
    pub start: Start,
    pub calls: usize,
}

/// What the next calls mostly are: shares of place, remove, find, list, check and refused calls.
const PHASES: [[usize; 6]; 5] = [
    [75, 4, 6, 8, 2, 5],
    [75, 4, 6, 8, 2, 5],
    [36, 36, 9, 11, 2, 6],
    [6, 70, 8, 9, 2, 5],
    [12, 4, 34, 38, 2, 10],
];

/// The shares of a history's calls before its first 9: it grows.
const GROWING: [usize; 6] = [76, 5, 7, 8, 1, 3];

struct Sequence<'r, 'a> {
    run: &'r mut Run<'a>,
    random: Random,
    keys: Keys,
    k: usize,
    n: usize,
    /// May it be formatted again?
    again: bool,
    /// Points that are there, and some that were removed.
    live: Vec<Vec<u32>>,
    gone: Vec<Vec<u32>>,
    empty: Vec<u32>,
}

/// Case 11 by placing alone: nine points on a line and nine on a line across it. The last one splits the root, whose
/// cut goes through a page with no point on one side.
const CASE_11: [[u32; 2]; 18] = [
    [7, 0],
    [7, 5],
    [7, 20],
    [7, 14],
    [7, 26],
    [7, 3],
    [7, 9],
    [7, 21],
    [7, 13],
    [20, 1],
    [18, 1],
    [6, 1],
    [14, 1],
    [10, 1],
    [7, 1],
    [13, 1],
    [12, 1],
    [11, 1],
];

/// Case 11: the points above, then every page is read, the empty one too.
pub fn case_11(run: &mut Run, random: Random) -> Outcome {
    let mut sequence = Sequence::new(run, random, 2, 16, Shape::Uniform);
    sequence.start(Start::Formatted)?;
    let before = sequence.run.counts.empty_read;
    for point in CASE_11 {
        sequence.place_point(point.to_vec())?;
    }
    let pool = sequence.run.pool();
    let used = pool.chunks(32).skip(1).filter(|page| page[0] != 0).count();
    let empty = empty_pages(pool).len();
    let listed = sequence.run.step(Step::List {
        window: vec![0, 0, TOP, TOP],
        slots: 20,
        junk: 1,
    })?;
    let all = [CASE_11.len() as u32, used as u32];
    let read = sequence.run.counts.empty_read - before;
    if empty != 1 || read != 1 || listed.values != all {
        return Err(sequence
            .run
            .fail("case 11: both agree, but not with the paper"));
    }
    Ok(())
}

/// Runs one sequence.
pub fn sequence(run: &mut Run, random: Random, plan: Plan) -> Outcome {
    let mut sequence = Sequence::new(run, random, plan.k, plan.n, plan.shape);
    let before = sequence.run.counts.calls();
    sequence.start(plan.start)?;
    let mut phase = PHASES[0];
    let mut left = 0;
    while sequence.run.counts.calls() - before < plan.calls as u64 {
        if left == 0 {
            phase = *sequence.random.pick(&PHASES);
            left = sequence.random.from(15, 40 + plan.calls / 8);
        }
        left -= 1;
        sequence.call(&phase)?;
    }
    sequence.run.step(Step::Sound)?;
    let counts = &mut sequence.run.counts;
    counts.sequences += 1;
    counts.in_sequences += counts.calls() - before;
    counts.sizes.insert((plan.k, plan.n));
    Ok(())
}

/// A whole history: one format of 512 pages, calls of all kinds until no page is free, and on from there.
pub fn history(run: &mut Run, random: Random, k: usize, shape: Shape) -> Outcome {
    let mut sequence = Sequence::new(run, random, k, 512, shape);
    sequence.again = false;
    // Clusters this wide have points enough to fill the pool, with one domain, too.
    sequence.keys.spread = 4000;
    let before = sequence.run.counts.calls();
    let (mut calls, mut full, mut placed) = (0, None, 0);
    let (mut phase, mut left) = (GROWING, 0);
    sequence.start(Start::Formatted)?;
    while calls < HISTORY || full.is_some_and(|at| calls - at < AFTER_9) || full.is_none() {
        if full.is_some() && left == 0 {
            phase = *sequence.random.pick(&PHASES);
            left = sequence.random.from(100, 300);
        }
        left = left.max(1) - 1;
        sequence.call(&phase)?;
        let counts = &sequence.run.counts;
        calls = counts.calls() - before;
        if full.is_none() && counts.answers[2][9] > 0 {
            (full, placed) = (Some(calls), counts.answers[2][0]);
        }
        if full.is_none() && calls > 4 * HISTORY {
            break;
        }
    }
    sequence.run.step(Step::Sound)?;
    let counts = &mut sequence.run.counts;
    counts.histories += 1;
    counts.in_histories += calls + 1;
    if full.is_some() {
        counts.went_on += 1;
        counts.placed_later += counts.answers[2][0] - placed;
        counts.least_placed_later = Some(counts.answers[2][0] - placed);
    }
    Ok(())
}

impl<'r, 'a> Sequence<'r, 'a> {
    fn new(
        run: &'r mut Run<'a>,
        random: Random,
        k: usize,
        n: usize,
        shape: Shape,
    ) -> Sequence<'r, 'a> {
        let mut random = random;
        let keys = Keys::new(&mut random, k, shape);
        Sequence {
            run,
            random,
            keys,
            k,
            n,
            again: true,
            live: Vec::new(),
            gone: Vec::new(),
            empty: Vec::new(),
        }
    }

    fn start(&mut self, start: Start) -> Outcome {
        let random = &mut self.random;
        let pool = match start {
            Start::Formatted => {
                self.run.begin(&[]);
                self.run.step(Step::Lend(32 * self.n))?;
                let junk = random.word();
                self.run.step(Step::Junk(junk))?;
                if random.once_in(4) {
                    // Before the format the words are no pool at all.
                    let point = self.keys.point(random);
                    self.run.step(Step::Check)?;
                    self.run.step(Step::Find(point.clone()))?;
                    self.run.step(Step::Remove(point))?;
                }
                self.run.step(Step::Format(self.k as u32))?;
                return Ok(());
            }
            Start::Built(records) => pools::built(random, &mut self.keys, self.k, self.n, records),
            Start::Rearranged(records) => {
                let pool = pools::built(random, &mut self.keys, self.k, self.n, records);
                pools::rearranged(random, pool)
            }
            Start::Arranged => pools::arranged(random, self.k, self.n, random.clone().once_in(2)),
        };
        self.live = pool.records().iter().map(|r| r.keys.clone()).collect();
        self.run.begin(&pool.print());
        self.run.step(Step::Sound)?;
        self.empty = empty_pages(self.run.pool());
        Ok(())
    }

    fn call(&mut self, phase: &[usize; 6]) -> Outcome {
        let mut drawn = self.random.below(phase.iter().sum());
        let mut kind = 0;
        while drawn >= phase[kind] {
            drawn -= phase[kind];
            kind += 1;
        }
        match kind {
            0 => self.place(),
            1 => self.remove(),
            2 => {
                let point = self.some_point();
                self.run.step(Step::Find(point)).map(|_| ())
            }
            3 => self.list(),
            4 => {
                // Once in a while the pool is formatted anew, perhaps for another K.
                if self.again && self.random.once_in(12) && self.live.len() < 8 {
                    return self.format_again();
                }
                self.run.step(Step::Sound).map(|_| ())
            }
            _ => self.refused(),
        }
    }

    /// A point that is there, was there, is nearly one that is there, or is any.
    fn some_point(&mut self) -> Vec<u32> {
        let random = &mut self.random;
        match random.below(10) {
            0..=4 if !self.live.is_empty() => random.pick(&self.live).clone(),
            5 if !self.gone.is_empty() => random.pick(&self.gone).clone(),
            6 | 7 if !self.live.is_empty() => {
                let mut point = random.pick(&self.live).clone();
                let d = random.below(point.len());
                point[d] = match random.below(2) {
                    0 => point[d].saturating_sub(1),
                    _ => (point[d] + 1).min(TOP),
                };
                point
            }
            _ => self.keys.point(random),
        }
    }

    fn place(&mut self) -> Outcome {
        let point = match self.random.below(12) {
            0 => self.some_point(),
            1 | 2 if !self.gone.is_empty() => {
                let at = self.random.below(self.gone.len());
                self.gone.swap_remove(at)
            }
            _ => self.keys.point(&mut self.random),
        };
        self.place_point(point)
    }

    fn place_point(&mut self, point: Vec<u32>) -> Outcome {
        let step = Step::Place {
            point: point.clone(),
            location: self.random.word(),
            work: Work::Same,
            junk: self.random.word(),
        };
        if self.run.step(step)?.number == 0 {
            self.live.push(point);
            let pool = self.run.pool();
            let levels = pool[3];
            let empty = empty_pages(pool);
            self.run.counts.most_levels = self.run.counts.most_levels.max(levels);
            let fresh: Vec<u32> = empty
                .iter()
                .copied()
                .filter(|number| !self.empty.contains(number))
                .collect();
            self.empty = empty;
            return self.read_empty(&fresh);
        }
        Ok(())
    }

    /// Case 11: point pages that a placing left empty, which only a forced split does. A window of one point within
    /// such a page's region reads the pages of one path, the empty one counted.
    fn read_empty(&mut self, fresh: &[u32]) -> Outcome {
        for &number in fresh {
            let pool = self.run.pool();
            let levels = pool[3];
            let Some(region) = region_of(pool, self.k, number) else {
                continue;
            };
            let (lower, upper) = region.split_at(self.k);
            let sides = lower.iter().zip(upper);
            let point: Vec<u32> = sides
                .map(|(&lower, &upper)| match self.random.below(3) {
                    0 => lower,
                    1 => upper - 1,
                    _ => lower + self.random.word_below(upper - lower),
                })
                .collect();
            let mut window = point.clone();
            window.extend(&point);
            let listed = self.run.step(Step::List {
                window: window.clone(),
                slots: 3,
                junk: 5,
            })?;
            let (_, read) = second::calls::list_walk(self.run.pool(), &window, &mut []);
            let wanted = Answer {
                number: 0,
                values: [0, levels],
            };
            let found = self.run.step(Step::Find(point))?;
            if listed != wanted || read.last() != Some(&number) || found.number != 8 {
                return Err(self
                    .run
                    .fail("case 11: both agree, but the empty page is not read"));
            }
            self.run.counts.empty_read += 1;
        }
        Ok(())
    }

    fn remove(&mut self) -> Outcome {
        let (point, at) = if self.live.is_empty() || self.random.once_in(10) {
            (self.some_point(), None)
        } else {
            let at = self.random.below(self.live.len());
            (self.live[at].clone(), Some(at))
        };
        let answer = self.run.step(Step::Remove(point.clone()))?;
        if answer.number == 0 {
            let at = at.or_else(|| self.live.iter().position(|live| *live == point));
            if let Some(at) = at {
                self.live.swap_remove(at);
            }
            if self.gone.len() < 200 {
                self.gone.push(point);
            }
            self.empty = empty_pages(self.run.pool());
        }
        Ok(())
    }

    /// A window that is accepted.
    fn window(&mut self) -> Vec<u32> {
        let a = self.some_point();
        let b = match self.random.below(4) {
            0 => a.clone(),
            _ => self.some_point(),
        };
        let mut window = vec![0; 2 * self.k];
        let kind = self.random.below(10);
        for d in 0..self.k {
            let (low, high) = (a[d].min(b[d]), a[d].max(b[d]));
            let (low, high) = match kind {
                // The whole space, or the whole of a domain.
                0 => (0, TOP),
                1 if self.random.once_in(2) => (0, TOP),
                // One step short of, or past, the ends of others.
                2 => (low.saturating_sub(1), high.max(1) - 1),
                3 => (low, (high + 1).min(TOP)),
                4 => (a[d], a[d]),
                5 => (a[d].saturating_sub(1), a[d]),
                _ => (low, high),
            };
            window[d] = low.min(high);
            window[self.k + d] = high;
        }
        window
    }

    fn list(&mut self) -> Outcome {
        let window = self.window();
        let slots = match self.random.below(4) {
            0 => 0,
            1 => self.random.from(1, 4),
            2 => self.random.from(5, 64),
            _ => self.live.len() + self.random.below(20),
        };
        let junk = self.random.word();
        let step = Step::List {
            window: window.clone(),
            slots,
            junk,
        };
        let answer = self.run.step(step)?;
        let total = answer.values[0] as usize;
        if answer.number == 0 && self.random.once_in(3) {
            // Just as many slots as it takes, one less or one more.
            let slots = match self.random.below(3) {
                0 => total,
                1 => total.saturating_sub(1),
                _ => total + 1,
            };
            self.run.step(Step::List {
                window,
                slots,
                junk: self.random.word(),
            })?;
        }
        Ok(())
    }

    fn format_again(&mut self) -> Outcome {
        let k = self.random.from(1, 4);
        self.run.step(Step::Format(k as u32))?;
        self.k = k;
        let shape = *self.random.pick(&crate::random::SHAPES);
        self.keys = Keys::new(&mut self.random, k, shape);
        self.live.clear();
        self.gone.clear();
        self.empty.clear();
        Ok(())
    }

    /// A call that is refused, for one reason or for several at once.
    fn refused(&mut self) -> Outcome {
        let call = self.random.below(6);
        let point = self.some_point();
        let window = self.window();
        let lent = self.run.lent();
        let step = match call {
            0 => {
                let k = *self.random.pick(&[0, 5, 6, 255, 256 + 1, INFINITY]);
                if self.random.once_in(3) {
                    let words = wrong_length(&mut self.random, lent);
                    let good = words.is_multiple_of(32) && (64..=16384).contains(&words);
                    let k = if self.random.once_in(2) && !good {
                        self.k as u32
                    } else {
                        k
                    };
                    return self.with_length(words, Step::Format(k));
                }
                return self.run.step(Step::Format(k)).map(|_| ());
            }
            1 => Step::Check,
            2 => Step::Place {
                point,
                location: self.random.word(),
                work: Work::Same,
                junk: self.random.word(),
            },
            3 => Step::Remove(point),
            4 => Step::Find(point),
            _ => Step::List {
                window,
                slots: self.random.below(6),
                junk: self.random.word(),
            },
        };
        let step = spoil_arguments(&mut self.random, step, lent);
        if step.call() == Some(1) || self.random.once_in(4) {
            let words = wrong_length(&mut self.random, lent);
            return self.with_length(words, step);
        }
        // Not every fault refuses: a shortened window may be all right by chance, then it is a call as any other.
        let placed = match &step {
            Step::Place { point, .. } => Some(point.clone()),
            _ => None,
        };
        let removed = match &step {
            Step::Remove(point) => Some(point.clone()),
            _ => None,
        };
        let answer = self.run.step(step)?;
        if answer.number == 0 {
            if let Some(point) = placed {
                self.live.push(point);
            }
            if let Some(point) = removed {
                self.live.retain(|live| *live != point);
            }
            self.empty = empty_pages(self.run.pool());
        }
        Ok(())
    }

    /// One call with a pool of another length.
    fn with_length(&mut self, words: usize, step: Step) -> Outcome {
        let lent = self.run.lent();
        self.run.step(Step::Lend(words))?;
        self.run.step(step)?;
        self.run.step(Step::Lend(lent))?;
        Ok(())
    }
}

/// A length that is not the pool's.
pub fn wrong_length(random: &mut Random, lent: usize) -> usize {
    let words = match random.below(13) {
        0 => 0,
        1 => 1,
        2 => 31,
        3 => 32,
        4 => 33,
        5 => 63,
        6 => 65,
        7 => lent - 1,
        8 => lent + 1,
        9 => lent - 32,
        10 => lent + 32,
        11 if random.once_in(8) => 16416,
        12 if random.once_in(8) => 16385,
        _ => random.below(lent),
    };
    if words == lent {
        lent + 31
    } else {
        words
    }
}

/// Makes one or several of a call's arguments wrong.
pub fn spoil_arguments(random: &mut Random, step: Step, lent: usize) -> Step {
    let faults = random.from(1, 7);
    let wrong_point = |random: &mut Random, point: &mut Vec<u32>| {
        if faults & 1 != 0 {
            let length = match random.below(8) {
                0 => 0,
                1 => 33,
                2 => point.len() + 1,
                3 => point.len().saturating_sub(1),
                _ => random.below(10),
            };
            let fill = *random.pick(&[0, 7, TOP, INFINITY]);
            point.resize(length, fill);
        }
        if faults & 2 != 0 && !point.is_empty() {
            let d = random.below(point.len());
            point[d] = INFINITY;
        }
    };
    match step {
        Step::Place {
            mut point,
            location,
            mut work,
            junk,
        } => {
            wrong_point(random, &mut point);
            if faults & 4 != 0 {
                work = Work::Words(match random.below(6) {
                    0 => 0,
                    1 => 1,
                    2 => lent.saturating_sub(1),
                    3 => lent + 1,
                    4 => lent.saturating_sub(32),
                    _ => lent + 32,
                });
            }
            Step::Place {
                point,
                location,
                work,
                junk,
            }
        }
        Step::Remove(mut point) => {
            wrong_point(random, &mut point);
            Step::Remove(point)
        }
        Step::Find(mut point) => {
            wrong_point(random, &mut point);
            Step::Find(point)
        }
        Step::List {
            mut window,
            slots,
            junk,
        } => {
            wrong_point(random, &mut window);
            if faults & 4 != 0 && window.len() > 1 {
                // A lower end above its upper end.
                let k = window.len() / 2;
                let d = random.below(k);
                window[k + d] = random.word_below(100);
                window[d] = window[k + d] + 1 + random.word_below(3);
            }
            Step::List {
                window,
                slots,
                junk,
            }
        }
        step => step,
    }
}
