//! The steps of a sequence, and their text, one step a line, which `--replay` reads back.
//!
//! ```text
//! lend 256                             the first 256 words of the buffer are lent as the pool from here on
//! junk 77                              every word of the buffer is overwritten with junk number 77
//! words 64 2 1 0 0 5 9                 words from number 64 on are overwritten
//! format 1
//! check
//! sound                                a check that has to answer 0
//! place 5 7 at 9 work same junk 3      the point 5, 7 at location 9, a work buffer as long as the pool
//! place 5 7 at 9 work 255 junk 3       a work buffer of 255 words, in it junk number 3
//! remove 5 7
//! find 5 7
//! list 0 0 7 7 slots 4 junk 9          lower ends, upper ends, an answer buffer of 4 slots with junk in it
//! input "00020004\n"                   bytes for the frame programs; such a session has no other steps
//! ```
//!
//! The buffer starts with no words; words that are lent for the first time are 0.

use std::fmt;

/// The length of a work buffer.
#[derive(Clone, Copy, Debug, PartialEq, Eq)]
pub enum Work {
    Same,
    Words(usize),
}

#[derive(Clone, Debug, PartialEq, Eq)]
pub enum Step {
    Lend(usize),
    Junk(u32),
    Words {
        at: usize,
        words: Vec<u32>,
    },
    Format(u32),
    Check,
    Sound,
    Place {
        point: Vec<u32>,
        location: u32,
        work: Work,
        junk: u32,
    },
    Remove(Vec<u32>),
    Find(Vec<u32>),
    List {
        window: Vec<u32>,
        slots: usize,
        junk: u32,
    },
    Input(Vec<u8>),
}

/// The six calls, for the table of counts.
pub const CALLS: [&str; 6] = ["format", "check", "place", "remove", "find", "list"];

impl Step {
    /// Which of the six calls this is, if it is one.
    pub fn call(&self) -> Option<usize> {
        match self {
            Step::Lend(_) | Step::Junk(_) | Step::Words { .. } | Step::Input(_) => None,
            Step::Format(_) => Some(0),
            Step::Check | Step::Sound => Some(1),
            Step::Place { .. } => Some(2),
            Step::Remove(_) => Some(3),
            Step::Find(_) => Some(4),
            Step::List { .. } => Some(5),
        }
    }

    /// May the step change the pool?
    pub fn alters(&self) -> bool {
        !matches!(
            self,
            Step::Check | Step::Sound | Step::Find(_) | Step::List { .. }
        )
    }
}

/// Word number i of a buffer full of junk.
pub fn junk(junk: u32, i: usize) -> u32 {
    (i as u32).wrapping_mul(0x9E37_79B9) ^ junk
}

fn numbers(f: &mut fmt::Formatter, numbers: &[u32]) -> fmt::Result {
    numbers.iter().try_for_each(|number| write!(f, " {number}"))
}

impl fmt::Display for Step {
    fn fmt(&self, f: &mut fmt::Formatter) -> fmt::Result {
        match self {
            Step::Lend(words) => write!(f, "lend {words}"),
            Step::Junk(junk) => write!(f, "junk {junk}"),
            Step::Words { at, words } => {
                write!(f, "words {at}")?;
                numbers(f, words)
            }
            Step::Format(k) => write!(f, "format {k}"),
            Step::Check => write!(f, "check"),
            Step::Sound => write!(f, "sound"),
            Step::Place {
                point,
                location,
                work,
                junk,
            } => {
                write!(f, "place")?;
                numbers(f, point)?;
                match work {
                    Work::Same => write!(f, " at {location} work same junk {junk}"),
                    Work::Words(words) => write!(f, " at {location} work {words} junk {junk}"),
                }
            }
            Step::Remove(point) => {
                write!(f, "remove")?;
                numbers(f, point)
            }
            Step::Find(point) => {
                write!(f, "find")?;
                numbers(f, point)
            }
            Step::List {
                window,
                slots,
                junk,
            } => {
                write!(f, "list")?;
                numbers(f, window)?;
                write!(f, " slots {slots} junk {junk}")
            }
            Step::Input(bytes) => write!(f, "input \"{}\"", bytes.escape_ascii()),
        }
    }
}

/// Reads one line of text. None if it is no step.
pub fn parse(line: &str) -> Option<Step> {
    if let Some(text) = line.strip_prefix("input \"") {
        return unescape(text.strip_suffix('"')?).map(Step::Input);
    }
    let mut parts = line.split_whitespace().peekable();
    let name = parts.next()?;
    let mut list: Vec<u32> = Vec::new();
    while let Some(number) = parts.peek().and_then(|part| part.parse().ok()) {
        list.push(number);
        parts.next();
    }
    let mut after = |name: &str| {
        let found = parts.next()? == name;
        found.then(|| parts.next()).flatten().map(str::to_string)
    };
    let step = match (name, list.as_slice()) {
        ("lend", [words]) => Step::Lend(*words as usize),
        ("junk", [junk]) => Step::Junk(*junk),
        ("words", [at, words @ ..]) => Step::Words {
            at: *at as usize,
            words: words.to_vec(),
        },
        ("format", [k]) => Step::Format(*k),
        ("check", []) => Step::Check,
        ("sound", []) => Step::Sound,
        ("place", _) => Step::Place {
            point: list,
            location: after("at")?.parse().ok()?,
            work: match after("work")?.as_str() {
                "same" => Work::Same,
                words => Work::Words(words.parse().ok()?),
            },
            junk: after("junk")?.parse().ok()?,
        },
        ("remove", _) => Step::Remove(list),
        ("find", _) => Step::Find(list),
        ("list", _) => Step::List {
            window: list,
            slots: after("slots")?.parse().ok()?,
            junk: after("junk")?.parse().ok()?,
        },
        _ => return None,
    };
    parts.next().is_none().then_some(step)
}

/// The bytes that `escape_ascii` made this text of.
fn unescape(text: &str) -> Option<Vec<u8>> {
    let mut bytes = Vec::new();
    let mut rest = text.bytes();
    while let Some(byte) = rest.next() {
        bytes.push(match byte {
            b'\\' => match rest.next()? {
                b'n' => b'\n',
                b'r' => b'\r',
                b't' => b'\t',
                b'x' => {
                    let two = [rest.next()?, rest.next()?];
                    u8::from_str_radix(std::str::from_utf8(&two).ok()?, 16).ok()?
                }
                other => other,
            },
            byte => byte,
        });
    }
    Some(bytes)
}

/// Marks around a sequence, so that a whole log can be replayed.
pub const FIRST: &str = "-- the sequence, for --replay";
pub const LAST: &str = "-- its end";

/// Reads a file of steps: all of it, or what stands between the marks.
pub fn parse_all(text: &str) -> Result<Vec<Step>, String> {
    let marked = text.lines().any(|line| line == FIRST);
    let lines: Vec<&str> = if marked {
        let from = text.lines().skip_while(|line| *line != FIRST).skip(1);
        from.take_while(|line| *line != LAST).collect()
    } else {
        text.lines().collect()
    };
    let lines = lines
        .into_iter()
        .filter(|line| !line.trim().is_empty() && !line.starts_with('#'));
    lines
        .map(|line| parse(line).ok_or_else(|| format!("no step: {line}")))
        .collect()
}

/// The steps that make a buffer of zeros into these words: its length, and each page that is not all zero.
pub fn words_steps(words: &[u32]) -> Vec<Step> {
    let mut steps = vec![Step::Lend(words.len())];
    for (number, page) in words.chunks(32).enumerate() {
        if let Some(last) = page.iter().rposition(|&word| word != 0) {
            steps.push(Step::Words {
                at: 32 * number,
                words: page[..=last].to_vec(),
            });
        }
    }
    steps
}
