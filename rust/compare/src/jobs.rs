//! The jobs of a round, and the threads that do them.

use crate::counts::Counts;
use crate::cut::cut;
use crate::frames::{self, Program};
use crate::index::Index;
use crate::kinds::histories;
use crate::long::long;
use crate::random::{Random, Shape, SHAPES};
use crate::run::{self, Failure, Outcome, Run, Watch};
use crate::sequences::{case_11, history, sequence, Plan, Start};
use crate::spoilt::spoilt;
use crate::step::Step;
use std::sync::atomic::{AtomicBool, AtomicUsize, Ordering};
use std::sync::Mutex;
use std::thread;
use std::time::{Duration, Instant};

/// One job: what it does depends on nothing but the seed, the round and its number.
#[derive(Clone, Copy, Debug)]
pub enum Job {
    Case11,
    Sequence(Plan),
    Spoilt {
        k: usize,
        n: usize,
        pools: usize,
    },
    /// A whole history on 512 pages.
    History {
        k: usize,
        shape: Shape,
    },
    /// Pools longer than any that is taken.
    Long {
        k: usize,
    },
    /// Sessions of about so many lines.
    Frames {
        sessions: usize,
        lines: usize,
    },
}

/// The jobs of one round. Each has its own number, and all kinds are mixed.
pub fn round(seed: u64, round: u64) -> Vec<Job> {
    let mut random = Random::of(seed, round, u64::MAX);
    let mut jobs = vec![Job::Case11];
    every_size(&mut random, &mut jobs);
    small_pools(&mut random, &mut jobs);
    larger_pools(&mut random, &mut jobs);
    spoilt_pools(&mut random, &mut jobs);
    sessions(&mut jobs);
    jobs.extend((1..=4).map(|k| Job::Long { k }));
    random.shuffle(&mut jobs);
    // The longest jobs: early, so that no thread is left with one at the end, but behind short ones, whose failures are
    // cut down sooner.
    let early = jobs.len() / 8;
    let all = histories().into_iter();
    jobs.splice(
        early..early,
        all.map(|(k, shape)| Job::History { k, shape }),
    );
    jobs
}

/// Sequences for every K and every N.
fn every_size(random: &mut Random, jobs: &mut Vec<Job>) {
    for k in 1..=4 {
        for n in 2..=512 {
            let shape = *random.pick(&SHAPES);
            // Every fourth starts with a pool that is there already; large ones are costly when they are full.
            let records = random.from(1, 1 + n.min(120) * 8);
            let start = match random.below(12) {
                0 => Start::Built(records),
                1 => Start::Rearranged(records),
                2 if n < 200 => Start::Arranged,
                _ => Start::Formatted,
            };
            jobs.push(Job::Sequence(Plan {
                k,
                n,
                shape,
                start,
                calls: 300,
            }));
        }
    }
}

/// Small pools that run full, are emptied and filled again.
fn small_pools(random: &mut Random, jobs: &mut Vec<Job>) {
    for k in 1..=4 {
        for shape in SHAPES {
            for _ in 0..9 {
                let n = random.from(2, 40);
                let start = match random.below(6) {
                    0 => Start::Rearranged(20 * n),
                    1 => Start::Arranged,
                    _ => Start::Formatted,
                };
                jobs.push(Job::Sequence(Plan {
                    k,
                    n,
                    shape,
                    start,
                    calls: 1500,
                }));
            }
        }
    }
}

/// Larger ones, from nothing and nearly full.
fn larger_pools(random: &mut Random, jobs: &mut Vec<Job>) {
    for k in 1..=4 {
        for shape in SHAPES {
            jobs.push(Job::Sequence(Plan {
                k,
                n: random.from(60, 160),
                shape,
                start: Start::Formatted,
                calls: 1200,
            }));
            let n = match random.below(3) {
                0 => 512,
                _ => random.from(160, 512),
            };
            jobs.push(Job::Sequence(Plan {
                k,
                n,
                shape,
                start: match random.below(3) {
                    0 => Start::Rearranged(16 * n),
                    _ => Start::Built(16 * n),
                },
                calls: 250,
            }));
        }
    }
}

/// Spoilt pools: mostly small, some of every size.
fn spoilt_pools(random: &mut Random, jobs: &mut Vec<Job>) {
    for number in 0..2100 {
        let n = match number % 30 {
            0 => random.from(129, 512),
            1..=4 => random.from(41, 128),
            5..=9 => random.from(2, 6),
            _ => random.from(7, 40),
        };
        let n = if number % 120 == 0 { 512 } else { n };
        jobs.push(Job::Spoilt {
            k: 1 + number % 4,
            n,
            pools: 50,
        });
    }
}

/// Sessions of frames: short ones, longer ones, and two of many lines.
fn sessions(jobs: &mut Vec<Job>) {
    for number in 0..60 {
        let (sessions, lines) = match number {
            0..=19 => (20, 6),
            20..=57 => (5, 400),
            _ => (1, 12_000),
        };
        jobs.push(Job::Frames { sessions, lines });
    }
}

/// What is compared: the second program, the other one, and the other frame program if there is one.
#[derive(Clone, Copy)]
pub struct Compared<'a> {
    pub right: &'a dyn Index,
    pub other: &'a dyn Index,
    pub program: Option<&'a Program>,
}

/// Does one job. The watcher, if there is one, sees every step before it is taken.
pub fn work(
    compared: Compared,
    job: Job,
    random: Random,
    watch: Option<&dyn Watch>,
) -> Result<Counts, Box<Failure>> {
    let mut run = Run::new(compared.right, compared.other);
    if let Some(watch) = watch {
        run = run.watched(watch);
    }
    match job {
        Job::Case11 => case_11(&mut run, random)?,
        Job::Sequence(plan) => sequence(&mut run, random, plan)?,
        Job::History { k, shape } => history(&mut run, random, k, shape)?,
        Job::Long { k } => long(&mut run, random, k)?,
        Job::Spoilt { k, n, pools } => spoilt(&mut run, random, k, n, pools)?,
        Job::Frames { sessions, lines } => {
            if let Some(program) = compared.program {
                some_sessions(&mut run.counts, random, program, sessions, lines)?;
            }
        }
    }
    Ok(run.counts)
}

fn some_sessions(
    counts: &mut Counts,
    random: Random,
    program: &Program,
    sessions: usize,
    lines: usize,
) -> Outcome {
    let mut random = random;
    for _ in 0..sessions {
        let session = frames::session(&mut random, lines);
        let piece = *random.pick(&[1, 7, 64, 1000, 4096, 1 << 20]);
        let piece = if lines > 1000 { piece.max(64) } else { piece };
        frames::compare(program, &session.bytes(), piece)
            .map_err(|what| frames::failure(&session, what))?;
        counts.sessions += 1;
        counts.lines += session.lines;
        counts.malformed += session.malformed;
    }
    Ok(())
}

/// What a failing sequence shows, without the particulars: two of the same kind are probably of the same fault.
fn kind_of(steps: &[Step], what: &str) -> (Option<usize>, String) {
    let call = steps.last().and_then(Step::call);
    let name = match what.split_once([':', '(', '[']) {
        Some(("number", _)) => what,
        Some((name, _)) => name,
        None => what,
    };
    let name = name.split(|c: char| c.is_ascii_digit()).next();
    let name = if what.starts_with("number") {
        what
    } else {
        name.unwrap_or("")
    };
    (call, name.to_string())
}

/// A small job by its number: pools of few pages, or short sessions of frames. The first is case 11, which few pages
/// seldom bring about; every fourth has somewhat more pages, so that whole subtrees are split.
pub fn small(
    compared: Compared,
    seed: u64,
    number: u64,
    frames: bool,
) -> Result<Counts, Box<Failure>> {
    let mut random = Random::of(seed, u64::MAX, number);
    let most = if number % 8 < 2 { 24 } else { 9 };
    let (k, n) = (random.from(1, 4), random.from(2, most));
    let job = if frames {
        Job::Frames {
            sessions: 4,
            lines: 12,
        }
    } else if number == 0 {
        Job::Case11
    } else if number.is_multiple_of(2) {
        Job::Sequence(Plan {
            k,
            n,
            shape: *random.pick(&SHAPES),
            start: Start::Formatted,
            calls: 100,
        })
    } else {
        Job::Spoilt { k, n, pools: 21 }
    };
    work(compared, job, random, None)
}

/// Looks for a shorter sequence that shows the same: small pools and short sessions, each failure cut down.
pub fn shorter(
    compared: Compared,
    seed: u64,
    found: (Vec<Step>, String),
    time: Duration,
) -> (Vec<Step>, String) {
    let until = Instant::now() + time;
    let mut shortest = found;
    let kind = kind_of(&shortest.0, &shortest.1);
    for number in 0.. {
        if Instant::now() >= until || shortest.0.len() < 4 {
            break;
        }
        let Err(failure) = small(compared, seed, number, kind.0.is_none()) else {
            continue;
        };
        if let Some(cut) = cut_down(compared, &failure.steps, time / 4) {
            if cut.0.len() < shortest.0.len() && kind_of(&cut.0, &cut.1) == kind {
                shortest = cut;
            }
        }
    }
    shortest
}

/// The cutting of a failing sequence, whichever part it is of.
pub fn cut_down(compared: Compared, steps: &[Step], time: Duration) -> Option<(Vec<Step>, String)> {
    let is_session = steps.iter().any(|step| matches!(step, Step::Input(_)));
    match compared.program {
        Some(program) if is_session => {
            cut(&|steps| frames::fails(program, steps), steps.to_vec(), time)
        }
        _ => cut(
            &|steps| run::fails(compared.right, compared.other, steps),
            steps.to_vec(),
            time,
        ),
    }
}

/// A failure and the round and number of its job.
pub struct Found {
    pub round: u64,
    pub job: usize,
    pub failure: Box<Failure>,
}

/// Does the jobs of one round with so many threads, until one fails or the time is over. `begun` is told each job's
/// thread and number before it is done.
pub fn do_round(
    compared: Compared,
    seed: u64,
    number: u64,
    threads: usize,
    until: Option<Instant>,
    begun: &(dyn Fn(usize, usize) + Sync),
) -> (Counts, Option<Found>) {
    let jobs = round(seed, number);
    let next = AtomicUsize::new(0);
    let stop = AtomicBool::new(false);
    let sum = Mutex::new((Counts::default(), None::<Found>));
    thread::scope(|scope| {
        for thread in 0..threads {
            let (jobs, next, stop, sum) = (&jobs, &next, &stop, &sum);
            let worker = move || loop {
                let at = next.fetch_add(1, Ordering::Relaxed);
                let late = until.is_some_and(|until| Instant::now() >= until);
                if at >= jobs.len() || late || stop.load(Ordering::Relaxed) {
                    return;
                }
                begun(thread, at);
                let random = Random::of(seed, number, at as u64);
                let done = work(compared, jobs[at], random, None);
                let mut sum = sum.lock().unwrap_or_else(|poisoned| poisoned.into_inner());
                match done {
                    Ok(counts) => sum.0.add(&counts),
                    Err(failure) => {
                        stop.store(true, Ordering::Relaxed);
                        // Of several failures that of the lowest job is told.
                        if sum.1.as_ref().is_none_or(|found| at < found.job) {
                            sum.1 = Some(Found {
                                round: number,
                                job: at,
                                failure,
                            });
                        }
                    }
                }
            };
            thread::Builder::new()
                .stack_size(8 << 20)
                .spawn_scoped(scope, worker)
                .expect("a thread can be started");
        }
    });
    sum.into_inner()
        .unwrap_or_else(|poisoned| poisoned.into_inner())
}
