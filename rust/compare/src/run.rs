//! One job: steps go to both programs, are written down, and are counted.

use crate::counts::Counts;
use crate::index::{Answer, Index};
use crate::pair::Pair;
use crate::step::{words_steps, Step};
use second::words::{header, page, Header, PAGE};

/// The words of the longest pool.
pub const MOST_WORDS: usize = 512 * PAGE;

/// A sequence that fails, and what it shows.
#[derive(Debug)]
pub struct Failure {
    pub steps: Vec<Step>,
    pub what: String,
}

pub type Outcome = Result<(), Box<Failure>>;

/// Sees every step before it is taken.
pub trait Watch {
    /// A new sequence begins.
    fn begin(&self);
    fn step(&self, step: &Step);
}

pub struct Run<'a> {
    pub pair: Pair<'a>,
    pub counts: Counts,
    start: Vec<u32>,
    steps: Vec<Step>,
    watch: Option<&'a dyn Watch>,
}

impl<'a> Run<'a> {
    pub fn new(right: &'a dyn Index, other: &'a dyn Index) -> Run<'a> {
        Run {
            pair: Pair::new(right, other),
            counts: Counts::default(),
            start: Vec::new(),
            steps: Vec::new(),
            watch: None,
        }
    }

    /// Every step is shown to the watcher before it is taken.
    pub fn watched(mut self, watch: &'a dyn Watch) -> Run<'a> {
        self.watch = Some(watch);
        self
    }

    /// Starts again, with a pool of these words lent, or none.
    pub fn begin(&mut self, words: &[u32]) {
        self.steps.clear();
        self.start.clear();
        self.start.extend_from_slice(words);
        if words.is_empty() {
            self.pair.clear();
        } else {
            self.pair.load(words);
        }
        if let Some(watch) = self.watch {
            watch.begin();
            for step in words_steps(words) {
                watch.step(&step);
            }
        }
    }

    /// Takes one step; a step that is no call answers 0.
    pub fn step(&mut self, step: Step) -> Result<Answer, Box<Failure>> {
        if let Some(watch) = self.watch {
            watch.step(&step);
        }
        self.steps.push(step);
        let step = &self.steps[self.steps.len() - 1];
        match self.pair.step(step) {
            Err(what) => Err(self.fail(&what)),
            Ok(None) => Ok(Answer::default()),
            Ok(Some(answer)) => {
                let call = step.call().unwrap_or(0);
                self.counts.answers[call][answer.number.min(9) as usize] += 1;
                if self.pair.pool().len() > MOST_WORDS {
                    self.counts.long[call] += 1;
                    self.counts.long_refused += u64::from(answer.number == 1);
                }
                if call == 2 && answer.number == 9 {
                    let free = free_pages(self.pair.pool());
                    self.counts.none_free[free.min(3)] += 1;
                }
                Ok(answer)
            }
        }
    }

    /// The steps so far as a failure.
    pub fn fail(&mut self, what: &str) -> Box<Failure> {
        let mut steps = words_steps(&self.start);
        steps.append(&mut self.steps);
        let what = what.to_string();
        Box::new(Failure { steps, what })
    }

    pub fn pool(&self) -> &[u32] {
        self.pair.pool()
    }

    pub fn lent(&self) -> usize {
        self.pair.pool().len()
    }
}

/// Does a sequence of calls fail? If so, at which step, and what it shows.
pub fn fails(right: &dyn Index, other: &dyn Index, steps: &[Step]) -> Option<(usize, String)> {
    let mut pair = Pair::new(right, other);
    let mut taken = steps.iter().enumerate();
    taken.find_map(|(at, step)| pair.step(step).err().map(|what| (at, what)))
}

/// The free pages of a sound pool: how many.
fn free_pages(pool: &[u32]) -> usize {
    pool.chunks(PAGE)
        .skip(1)
        .filter(|page| page[0] == 0)
        .count()
}

/// The point pages with no point.
pub fn empty_pages(pool: &[u32]) -> Vec<u32> {
    let pages = (1..).zip(pool.chunks(PAGE).skip(1));
    let empty = pages.filter(|(_, page)| page[0] == 2 && page[1] == 0);
    empty.map(|(number, _)| number).collect()
}

/// The region in the entry that names a page, as K lower ends and K upper ends.
pub fn region_of(pool: &[u32], k: usize, number: u32) -> Option<&[u32]> {
    let regions = pool.chunks(PAGE).skip(1).filter(|page| page[0] == 1);
    let mut entries = regions.flat_map(|page| page[4..].chunks(2 * k + 1).take(page[1] as usize));
    entries
        .find(|entry| entry.last() == Some(&number))
        .map(|entry| &entry[..2 * k])
}

/// Does list stop at its bound in this pool? The same walk in a pool one page longer goes on to a further page.
pub fn reaches_bound(pool: &[u32], window: &[u32]) -> bool {
    let Ok(head) = header(pool) else {
        return false;
    };
    let (_, _, read) = second::walk::list(pool, &head, window);
    if read.len() + 1 != head.n {
        return false;
    }
    let mut longer = pool.to_vec();
    longer.resize(pool.len() + PAGE, 0);
    let roomy = Header {
        n: head.n + 1,
        ..head
    };
    let (_, _, further) = second::walk::list(&longer, &roomy, window);
    further.len() > read.len() && (further[read.len()] as usize) < head.n
}

/// The numbers of the pages of a kind.
pub fn pages_of_kind(pool: &[u32], kind: u32) -> Vec<usize> {
    let numbers = 1..pool.len() / PAGE;
    numbers
        .filter(|&number| page(pool, number as u32)[0] == kind)
        .collect()
}
