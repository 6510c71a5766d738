//! Compares the proved index with the second program, which was written from the paper alone.
//!
//! Both get the same calls over buffers of their own. After each call the number, the returned numbers, every word of
//! the pool, of the work buffer and of the answer buffer, the words around them, and the point or window have to be
//! the same on both sides. The returned numbers are the library's fields as C gets them, so that they are compared
//! after a refusal, too. There are five parts:
//!
//! - Sequences: long runs of calls on pools of every K and every N, with keys of many shapes, and with refused calls
//!   of every kind among them. Pools run full, are emptied and filled again.
//! - Histories: one format of 512 pages and thousands of calls from there, past the first 9.
//! - Spoilt pools: pools whose words were changed in some way, from one word to all, and every call on each.
//! - Long pools: every call on pools of more than 16,384 words.
//! - Frames: sessions of lines, malformed ones too, for the frame program (`--program`) and the second program's.
//!
//! A round has a fixed plan of jobs; what they do depends on the seed alone, however many threads there are. At the
//! end the counts are printed. The exit status is 0 only if everything agreed and every wanted count was reached.
//!
//! If something differs, the sequence is cut down: calls are left out and pages are emptied while it still fails.
//! What is left is printed, with the seed, as text that `--replay` takes; the whole output saved to a file will do,
//! too. The work is done in a child process, so that even a death is cut down to the calls that bring it about.
//!
//! ```text
//! compare                           one round with the seed of the test
//! compare --seed 7 --seconds 3600   rounds with seed 7 until an hour has gone by, at least one
//! compare --program PATH            the frame program to compare with the second one
//! compare --library PATH            this program, compiled for x86-64, which serves the library's calls (`--serve`);
//!                                   without it the library is in this process, on x86-64 alone
//! compare --threads 4               as many threads as the machine has processors, if not given
//! compare --replay FILE             a sequence once more; says what differs
//! compare --itself                  the second program against itself, which tests this one
//! compare --fault NAME              an index broken on purpose; `--faults` tries all of them, and fails
//!                                   if one is not seen
//! ```
//!
//! Where the machine is not x86-64, the variable RUN_X86_64 has the words that start an x86-64 program, as
//! `qemu-x86_64 -L /usr/x86_64-linux-gnu`.

use compare::faults::{broken, broken_frames, FAULTS, FRAME_FAULTS};
use compare::frames::{self, Program};
use compare::index::{Index, Second};
use compare::jobs::{cut_down, do_round, round, shorter, work, Compared, Found};
use compare::random::Random;
use compare::run;
use compare::served::{serve, Served};
use compare::step::{parse_all, Step, FIRST, LAST};
use compare::supervise::{begun_file, supervise, Trace};
use std::io::{Read, Write};
use std::path::{Path, PathBuf};
use std::process::ExitCode;
use std::time::{Duration, Instant};

/// The seed of the test.
const SEED: u64 = 1981;
/// How long a sequence is cut down.
const CUTTING: Duration = Duration::from_secs(90);

#[derive(Clone, Default)]
struct Options {
    seed: Option<u64>,
    seconds: Option<u64>,
    threads: Option<usize>,
    program: Option<PathBuf>,
    library: Option<PathBuf>,
    serve: bool,
    replay: Option<PathBuf>,
    itself: bool,
    fault: Option<String>,
    faults: bool,
    /// The process that works, told by the one that was started.
    inner: Option<PathBuf>,
    only: Option<(u64, usize)>,
    trace: Option<PathBuf>,
    frames_with: Option<String>,
}

fn options(words: &[String]) -> Result<Options, String> {
    let mut options = Options::default();
    let mut words = words.iter();
    while let Some(word) = words.next() {
        let mut next = || words.next().ok_or(format!("{word} needs a word behind it"));
        let number = |text: &String| {
            text.parse::<u64>()
                .map_err(|_| format!("no number: {text}"))
        };
        match word.as_str() {
            "--seed" => options.seed = Some(number(next()?)?),
            "--seconds" => options.seconds = Some(number(next()?)?),
            "--threads" => options.threads = Some(number(next()?)?.max(1) as usize),
            "--program" => options.program = Some(PathBuf::from(next()?)),
            "--library" => options.library = Some(PathBuf::from(next()?)),
            "--serve" => options.serve = true,
            "--replay" => options.replay = Some(PathBuf::from(next()?)),
            "--itself" => options.itself = true,
            "--fault" => options.fault = Some(next()?.clone()),
            "--faults" => options.faults = true,
            "--inner" => options.inner = Some(PathBuf::from(next()?)),
            "--only" => {
                let (round, job) = next()?.split_once(':').ok_or("--only ROUND:JOB")?;
                options.only = Some((
                    number(&round.to_string())?,
                    number(&job.to_string())? as usize,
                ));
            }
            "--trace" => options.trace = Some(PathBuf::from(next()?)),
            "--frames-with" => options.frames_with = Some(next()?.clone()),
            _ => {
                return Err(format!(
                    "unknown: {word}; the comment of main.rs says what there is"
                ))
            }
        }
    }
    Ok(options)
}

/// The index that is compared with the second program.
fn other(options: &Options) -> Result<Box<dyn Index>, String> {
    match &options.fault {
        Some(name) if name.starts_with("frames-") => Ok(Box::new(Second)),
        Some(name) => match broken(name) {
            Some(broken) => Ok(Box::new(broken)),
            None => Err(format!("no such fault: {name}")),
        },
        None if options.itself => Ok(Box::new(Second)),
        None => proved(options),
    }
}

/// The proved library: in this process, or served by another.
fn proved(options: &Options) -> Result<Box<dyn Index>, String> {
    if let Some(path) = &options.library {
        let words = vec![String::from("--serve")];
        return Ok(Box::new(Served(Program::x86_64(path.clone(), words))));
    }
    #[cfg(target_arch = "x86_64")]
    return Ok(Box::new(compare::index::Proved));
    #[cfg(not(target_arch = "x86_64"))]
    Err(String::from("the library is x86-64: --library is needed"))
}

/// The frame program that is compared with the second one.
fn program(options: &Options) -> Result<Option<Program>, String> {
    let broken = options
        .fault
        .as_ref()
        .filter(|name| name.starts_with("frames-"));
    if let Some(name) = broken {
        let words = vec![String::from("--frames-with"), name.clone()];
        let program = Program::itself(words).map_err(|error| error.to_string())?;
        return Ok(Some(program));
    }
    let given = options.program.clone();
    Ok(given.map(|path| Program::x86_64(path, Vec::new())))
}

fn main() -> ExitCode {
    // Panics of either program are caught and told as failures; nothing else is to be said about them.
    std::panic::set_hook(Box::new(|panic| {
        if !compare::pair::calling() {
            eprintln!("{panic}");
        }
    }));
    let words: Vec<String> = std::env::args().skip(1).collect();
    match options(&words).and_then(|options| start(&words, &options)) {
        Ok(code) => ExitCode::from(code),
        Err(what) => {
            eprintln!("{what}");
            ExitCode::from(2)
        }
    }
}

fn start(words: &[String], options: &Options) -> Result<u8, String> {
    if let Some(name) = &options.frames_with {
        let mut input = Vec::new();
        let read = std::io::stdin().lock().read_to_end(&mut input);
        read.map_err(|error| error.to_string())?;
        let written = std::io::stdout().write_all(&broken_frames(name, &input));
        return written.map(|()| 0).map_err(|error| error.to_string());
    }
    if options.faults {
        return all_faults(options);
    }
    let other = other(options)?;
    if options.serve {
        let served = serve(other.as_ref());
        return served.map(|()| 0).map_err(|error| error.to_string());
    }
    let program = program(options)?;
    if options.inner.is_none() {
        if let Some(path) = &options.replay {
            // Without a child the death of a replayed sequence is there to be seen.
            return replay(path, other.as_ref(), program.as_ref());
        }
        let report = |what: &str, steps: &[Step]| told(options, None, what, steps);
        let code = supervise(words, &report).map_err(|error| error.to_string())?;
        return Ok(u8::try_from(code).unwrap_or(1));
    }
    let compared = Compared {
        right: &Second,
        other: other.as_ref(),
        program: program.as_ref(),
    };
    if let Some(path) = &options.replay {
        return replay(path, other.as_ref(), program.as_ref());
    }
    if let Some(only) = options.only {
        return one_job(options, compared, only);
    }
    rounds(options, compared)
}

/// Rounds until the time is over, at least one.
fn rounds(options: &Options, compared: Compared) -> Result<u8, String> {
    let begin = Instant::now();
    let seed = options.seed.unwrap_or(SEED);
    let until = options
        .seconds
        .map(|seconds| begin + Duration::from_secs(seconds));
    let processors = std::thread::available_parallelism().map_or(1, |number| number.get());
    let threads = options.threads.unwrap_or(processors);
    let folder = options.inner.clone().unwrap_or_default();
    if compared.program.is_none() {
        println!("no frame program is given (--program): sessions of frames are skipped");
    }
    let mut counts = compare::counts::Counts::default();
    for number in 0.. {
        // The first round is always whole: it reaches the counts.
        let until = until.filter(|_| number > 0);
        let begun = |thread: usize, job: usize| {
            // What cannot be written is missing after a death, no more.
            let _ = std::fs::write(begun_file(&folder, thread), format!("{number}:{job}"));
        };
        let (more, found) = do_round(compared, seed, number, threads, until, &begun);
        counts.add(&more);
        if let Some(found) = found {
            failed(options, compared, found);
            return Ok(1);
        }
        let late = options
            .seconds
            .is_none_or(|seconds| begin.elapsed() >= Duration::from_secs(seconds));
        if late {
            println!("seed {seed}, rounds begun: {}", number + 1);
            break;
        }
        let seconds = begin.elapsed().as_secs();
        println!(
            "round {number} agrees; {} calls, {seconds} s",
            counts.calls()
        );
    }
    let reached = counts.report(compared.program.is_some());
    println!(
        "{:.1} s with {threads} threads",
        begin.elapsed().as_secs_f64()
    );
    if reached {
        println!("everything agreed, every count was reached");
        Ok(0)
    } else {
        println!("everything agreed, but a count was NOT REACHED");
        Ok(1)
    }
}

/// Cuts a failure down and prints it.
fn failed(options: &Options, compared: Compared, found: Found) {
    let Found {
        round,
        job,
        failure,
    } = found;
    println!(
        "DIFFERENT in round {round}, job {job}, after {} steps: {}",
        failure.steps.len(),
        failure.what
    );
    match cut_down(compared, &failure.steps, CUTTING) {
        Some(cut) => {
            println!("cut down to {} steps: {}", cut.0.len(), cut.1);
            let seed = options.seed.unwrap_or(SEED);
            let (steps, what) = shorter(compared, seed, cut, CUTTING / 6);
            told(options, Some((round, job)), &what, &steps);
        }
        None => {
            println!("the sequence does not show it by itself; uncut:");
            told(options, Some((round, job)), &failure.what, &failure.steps);
        }
    }
}

/// Prints a sequence that fails.
fn told(options: &Options, at: Option<(u64, usize)>, what: &str, steps: &[Step]) {
    let seed = options.seed.unwrap_or(SEED);
    match at {
        Some((round, job)) => println!("seed {seed}, round {round}, job {job}"),
        None => println!("seed {seed}"),
    }
    println!("{} steps are left, the last one shows: {what}", steps.len());
    println!("{FIRST}");
    for step in steps {
        println!("{step}");
    }
    println!("{LAST}");
}

/// One job of one round, step by step into a file.
fn one_job(options: &Options, compared: Compared, only: (u64, usize)) -> Result<u8, String> {
    let seed = options.seed.unwrap_or(SEED);
    let (number, at) = only;
    let jobs = round(seed, number);
    let job = *jobs.get(at).ok_or("no such job")?;
    let trace = Trace::new(options.trace.clone().unwrap_or_default());
    let random = Random::of(seed, number, at as u64);
    let done = std::thread::scope(|scope| {
        let builder = std::thread::Builder::new().stack_size(8 << 20);
        let worker = builder.spawn_scoped(scope, || {
            let trace = trace;
            work(compared, job, random, Some(&trace))
        });
        worker.map(|worker| worker.join())
    });
    match done {
        Ok(Ok(Ok(_))) => Ok(0),
        _ => Ok(1),
    }
}

/// A sequence once more.
fn replay(path: &Path, other: &dyn Index, program: Option<&Program>) -> Result<u8, String> {
    let text = std::fs::read_to_string(path).map_err(|error| error.to_string())?;
    let steps = parse_all(&text)?;
    let is_session = steps.iter().any(|step| matches!(step, Step::Input(_)));
    let failed = if is_session {
        let program = program.ok_or("a session of frames needs --program")?;
        frames::fails(program, &steps)
    } else {
        run::fails(&Second, other, &steps)
    };
    match failed {
        None => {
            println!("{} steps: no difference", steps.len());
            Ok(0)
        }
        Some((at, what)) => {
            println!("step {}, {}: {what}", at + 1, steps[at]);
            Ok(1)
        }
    }
}

/// Every broken index and frame program: is it seen, and how far is it cut down?
fn all_faults(options: &Options) -> Result<u8, String> {
    let seed = options.seed.unwrap_or(SEED);
    let mut unseen = 0;
    for (name, fault) in FAULTS.iter().chain(&FRAME_FAULTS) {
        let mut options = options.clone();
        options.faults = false;
        options.fault = Some(name.to_string());
        if *name == "aborts" {
            let words = ["--fault", name, "--seed", &seed.to_string()].map(String::from);
            let left = std::cell::Cell::new(None);
            supervise(&words, &|what, steps| {
                left.set(Some((what.to_string(), steps.len())));
            })
            .map_err(|error| error.to_string())?;
            match left.take() {
                Some((what, steps)) => println!("{name:20} {fault}: seen, {steps} steps, {what}"),
                None => {
                    println!("{name:20} {fault}: NOT SEEN");
                    unseen += 1;
                }
            }
            continue;
        }
        let other = other(&options)?;
        let program = program(&options)?;
        let compared = Compared {
            right: &Second,
            other: other.as_ref(),
            program: program.as_ref(),
        };
        let (_, found) = do_round(compared, seed, 0, 2, None, &|_, _| {});
        let Some(found) = found else {
            println!("{name:20} {fault}: NOT SEEN");
            unseen += 1;
            continue;
        };
        let before = found.failure.steps.len();
        match cut_down(compared, &found.failure.steps, Duration::from_secs(1)) {
            Some(cut) => {
                let (steps, what) = shorter(compared, seed, cut, Duration::from_secs(1));
                let text: Vec<String> = steps.iter().map(Step::to_string).collect();
                let again = parse_all(&text.join("\n")) == Ok(steps.clone());
                if !again {
                    unseen += 1;
                }
                println!(
                    "{name:20} {fault}: seen, {before} steps cut to {}, {what}{}",
                    steps.len(),
                    if again { "" } else { ", BUT ITS TEXT IS WRONG" }
                );
            }
            None => {
                println!("{name:20} {fault}: seen, but NOT CUT DOWN");
                unseen += 1;
            }
        }
    }
    println!(
        "{} faults, {unseen} not seen",
        FAULTS.len() + FRAME_FAULTS.len()
    );
    Ok(u8::from(unseen > 0))
}
