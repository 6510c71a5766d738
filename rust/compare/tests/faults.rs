//! Each broken index and each broken frame program is seen, and its failure is cut down to text that shows it again.

use compare::faults::{broken, FAULTS, FRAME_FAULTS};
use compare::frames::{self, Program};
use compare::index::{Bound, Index, Proved, Second};
use compare::jobs::{cut_down, small, work, Compared, Job};
use compare::random::{Random, Shape};
use compare::run::{fails, Failure};
use compare::served::Served;
use compare::step::{parse_all, Step, Work};
use std::time::Duration;

fn indexes<'a>(right: &'a dyn Index, other: &'a dyn Index) -> Compared<'a> {
    Compared {
        right,
        other,
        program: None,
    }
}

/// Where a fault is looked for: on small pools, but for those that small pools do not show.
fn seen(name: &str, compared: Compared) -> Option<Box<Failure>> {
    let job = match name {
        "find-deep" => Job::Spoilt {
            k: 1,
            n: 300,
            pools: 42,
        },
        "format-514" | "length-16" => Job::Long { k: 2 },
        "place-many" => Job::History {
            k: 1,
            shape: Shape::Uniform,
        },
        _ => return (0..4000).find_map(|number| small(compared, 5, number, false).err()),
    };
    (0..4).find_map(|number| work(compared, job, Random::of(5, 0, number), None).err())
}

#[test]
fn every_fault_is_seen_and_cut_down() {
    for (name, fault) in FAULTS {
        // This one ends the process: below.
        if name == "aborts" {
            continue;
        }
        let other = broken(name).expect("a fault of the list");
        let compared = indexes(&Second, &other);
        let failure = seen(name, compared).unwrap_or_else(|| panic!("not seen: {name}, {fault}"));
        // A thousand placings are not cut down in seconds.
        let seconds = if name == "place-many" { 0 } else { 5 };
        let time = Duration::from_secs(seconds);
        let (steps, what) = cut_down(compared, &failure.steps, time).expect("it fails again");
        assert!(steps.len() <= failure.steps.len());
        let again = read_again(&steps);
        let shown = fails(&Second, &other, &again);
        assert_eq!(shown, Some((steps.len() - 1, what)), "{name}");
        // Without the fault there is nothing to see.
        assert_eq!(fails(&Second, &Second, &steps), None, "{name}");
    }
}

/// A working process that dies is seen, and the calls that bring it about are cut down.
#[test]
fn a_death_is_seen_and_cut_down() {
    let run = |words: &[&str]| {
        let words = words.iter().map(|word| word.to_string()).collect();
        let program = Program::x86_64(env!("CARGO_BIN_EXE_compare").into(), words);
        let done = program.command().output().expect("it starts");
        (
            done.status.code(),
            String::from_utf8_lossy(&done.stdout).into_owned(),
        )
    };
    let (code, text) = run(&["--fault", "aborts", "--threads", "2"]);
    assert_eq!(code, Some(1), "{text}");
    assert!(text.contains("the last one shows: death"), "{text}");
    let steps = parse_all(&text).expect("steps");
    assert_eq!(fails(&Second, &Second, &steps), None);
    // What is left dies by itself, and only with the fault.
    let file = std::path::Path::new(env!("CARGO_TARGET_TMPDIR")).join("death");
    std::fs::write(&file, &text).expect("it is written");
    let file = file.display().to_string();
    let (code, text) = run(&["--fault", "aborts", "--replay", &file]);
    assert_eq!(code, None, "{text}");
    let (code, text) = run(&["--itself", "--replay", &file]);
    assert_eq!(code, Some(0), "{text}");
}

/// A pool of two pages by the last 16 bits of its length: each of the six calls takes it with the fault.
#[test]
fn a_length_of_16_bits_is_seen_in_every_call() {
    let other = broken("length-16").expect("a fault of the list");
    let place = Step::Place {
        point: vec![5],
        location: 70,
        work: Work::Same,
        junk: 3,
    };
    let list = Step::List {
        window: vec![0, 9],
        slots: 2,
        junk: 3,
    };
    let calls = [Step::Format(1), Step::Check, place, list];
    let (remove, find) = (Step::Remove(vec![5]), Step::Find(vec![5]));
    for call in calls.into_iter().chain([remove, find]) {
        let header = vec![1, 2];
        let steps = [
            Step::Lend(65_536 + 64),
            Step::Words {
                at: 0,
                words: header,
            },
            call,
        ];
        let shown = fails(&Second, &other, &steps).map(|(at, _)| at);
        assert_eq!(shown, Some(2), "{}", steps[2]);
    }
}

/// The steps made of their own text.
fn read_again(steps: &[Step]) -> Vec<Step> {
    let text: String = steps.iter().map(|step| format!("{step}\n")).collect();
    let again = parse_all(&text).expect("steps");
    assert_eq!(again, steps);
    again
}

/// This program as a frame program, broken if the name is that of a fault.
fn frame_program(name: &str) -> Program {
    let words = vec!["--frames-with".into(), name.into()];
    Program::x86_64(env!("CARGO_BIN_EXE_compare").into(), words)
}

/// Sessions for a frame program: short ones, and some long enough for a list of 64 locations.
fn session_that_fails(program: &Program) -> Option<Box<Failure>> {
    let compared = Compared {
        program: Some(program),
        ..indexes(&Second, &Second)
    };
    (0..60).find_map(|number| {
        let job = Job::Frames {
            sessions: 3,
            lines: if number % 4 == 3 { 1200 } else { 60 },
        };
        work(compared, job, Random::of(5, 0, number), None).err()
    })
}

#[test]
fn every_fault_of_a_frame_program_is_seen_and_cut_down() {
    let right = frame_program("right");
    for (name, fault) in FRAME_FAULTS {
        let program = frame_program(name);
        let failure =
            session_that_fails(&program).unwrap_or_else(|| panic!("not seen: {name}, {fault}"));
        let compared = Compared {
            program: Some(&program),
            ..indexes(&Second, &Second)
        };
        let time = Duration::from_secs(1);
        let (steps, what) = cut_down(compared, &failure.steps, time).expect("it fails again");
        assert!(steps.len() <= failure.steps.len());
        let again = read_again(&steps);
        let shown = frames::fails(&program, &again);
        assert_eq!(shown, Some((steps.len() - 1, what)), "{name}");
        // Without the fault there is nothing to see.
        assert_eq!(frames::fails(&right, &steps), None, "{name}");
    }
    if let Some(failure) = session_that_fails(&right) {
        panic!("no fault, but: {}", failure.what);
    }
}

/// A program that is not there, and one that does not take its input, are no agreement.
#[test]
fn a_frame_program_that_does_not_run_is_seen() {
    for path in ["no such program", "false", "true"] {
        let program = Program {
            path: path.into(),
            words: Vec::new(),
        };
        assert!(session_that_fails(&program).is_some(), "{path}");
    }
}

/// The library gives the same in a process of its own. There, too, a write behind a buffer and a death are seen.
#[test]
fn the_library_is_served() {
    let served = |words: &[&str]| {
        let words = words.iter().map(|word| word.to_string()).collect();
        Served(Program::x86_64(env!("CARGO_BIN_EXE_compare").into(), words))
    };
    // Each in a thread of its own, so with a process of its own.
    let failure = |index: Served| {
        let look =
            move || (0..400).find_map(|n| small(indexes(&Second, &index), 5, n, false).err());
        std::thread::spawn(look).join().expect("no panic")
    };
    let right = failure(served(&["--serve"]));
    assert!(right.is_none(), "{}", right.expect("a failure").what);
    for (words, wanted) in [
        (&["--serve", "--fault", "writes-behind"][..], "outside"),
        (&["--serve", "--fault", "aborts"], "death: signal"),
        (&["--serve", "--fault", "no such fault"], "death: exit"),
        (&["--serve", "--fault", "place-root-domain"], "pool word"),
    ] {
        let failure = failure(served(words)).expect("seen");
        assert!(failure.what.contains(wanted), "{}", failure.what);
    }
}

/// The safe binding gives what the library gives.
#[test]
fn the_binding_and_the_library_agree() {
    for number in 0..400 {
        if let Err(failure) = small(indexes(&Proved, &Bound), 7, number, false) {
            panic!("{}", failure.what);
        }
    }
}

#[test]
fn steps_and_their_text() {
    let lines = "lend 256\njunk 77\nwords 64 2 1 0 0 5 9\nformat 1\ncheck\nsound\n\
        place 5 7 at 9 work same junk 3\nplace at 9 work 255 junk 4294967295\nremove 5 7\nremove\n\
        find 5 7\nlist 0 0 7 7 slots 4 junk 9\ninput \"00020004\\n\"\ninput \"\\x00\\xff\\\\\\\"\\r\\t\"\n";
    let steps = parse_all(lines).expect("steps");
    let text: String = steps.iter().map(|step| format!("{step}\n")).collect();
    assert_eq!(text, lines);
    assert_eq!(
        steps.last(),
        Some(&Step::Input(b"\x00\xff\\\"\r\t".to_vec()))
    );
    let log = format!("DIFFERENT\n-- the sequence, for --replay\n{lines}-- its end\nmore\n");
    assert_eq!(parse_all(&log), Ok(steps));
    for wrong in [
        "lend",
        "lend 1 2",
        "place 5 at 9",
        "found 3",
        "list 1 2 slots 3",
    ] {
        assert!(parse_all(wrong).is_err(), "{wrong}");
    }
}
