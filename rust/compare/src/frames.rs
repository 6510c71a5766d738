//! Sessions of frames: the proved program and the second one read the same bytes and have to write the same.

use crate::random::{Keys, Random, INFINITY, SHAPES, TOP};
use crate::run::Failure;
use crate::step::Step;
use std::io::{self, Read, Write};
use std::path::PathBuf;
use std::process::{Command, Stdio};
use std::thread;

/// A frame program: a binary, and the words that it is started with.
#[derive(Clone, Debug)]
pub struct Program {
    pub path: PathBuf,
    pub words: Vec<String>,
}

impl Program {
    /// An x86-64 program. The variable RUN_X86_64 has the words that are put in front, those of an emulator; without
    /// it the machine runs the program itself.
    pub fn x86_64(path: PathBuf, words: Vec<String>) -> Program {
        let front = std::env::var("RUN_X86_64").unwrap_or_default();
        let mut front = front.split_whitespace().map(String::from);
        match front.next() {
            None => Program { path, words },
            Some(emulator) => Program {
                path: emulator.into(),
                words: front
                    .chain([path.display().to_string()])
                    .chain(words)
                    .collect(),
            },
        }
    }

    /// The program that this is, started once more.
    pub fn itself(words: Vec<String>) -> io::Result<Program> {
        let path = std::env::current_exe()?;
        Ok(if cfg!(target_arch = "x86_64") {
            Program::x86_64(path, words)
        } else {
            Program { path, words }
        })
    }

    pub fn command(&self) -> Command {
        let mut command = Command::new(&self.path);
        command.args(&self.words);
        command
    }
}

/// What a session is made of.
#[derive(Default)]
pub struct Session {
    pub pieces: Vec<Vec<u8>>,
    pub lines: u64,
    pub malformed: u64,
}

impl Session {
    pub fn bytes(&self) -> Vec<u8> {
        self.pieces.concat()
    }
}

/// A session of about so many lines.
pub fn session(random: &mut Random, lines: usize) -> Session {
    let mut session = Session::default();
    let mut k = random.from(1, 4);
    let shape = *random.pick(&SHAPES);
    let mut keys = Keys::new(random, k, shape);
    let mut live: Vec<Vec<u32>> = Vec::new();
    let lines = random.from(lines / 2, lines);
    for number in 0..lines {
        let mut line = Vec::new();
        let there = !live.is_empty() && random.once_in(2);
        let point = if there {
            random.pick(&live).clone()
        } else {
            keys.point(random)
        };
        match random.below(100) {
            0..=1 => format(random, &mut line, random.clone().from(0, 6), true),
            _ if number == 2 || random.once_in(lines.max(400)) => {
                k = random.from(1, 4);
                let shape = *random.pick(&SHAPES);
                keys = Keys::new(random, k, shape);
                live.clear();
                format(random, &mut line, k, false);
            }
            2..=44 => {
                line.push(1);
                words(&mut line, &point);
                words(&mut line, &[random.word()]);
                if live.len() < 2000 {
                    live.push(point);
                }
            }
            45..=57 => {
                line.push(2);
                words(&mut line, &point);
                live.retain(|live| *live != point);
            }
            58..=69 => {
                line.push(3);
                words(&mut line, &point);
            }
            70..=82 => {
                line.push(4);
                let other = if random.once_in(3) || live.is_empty() {
                    keys.point(random)
                } else {
                    random.pick(&live).clone()
                };
                let whole = random.once_in(4);
                let sides = || point.iter().zip(&other);
                let lower: Vec<u32> = sides().map(|(a, b)| *a.min(b)).collect();
                let upper: Vec<u32> = sides().map(|(a, b)| *a.max(b)).collect();
                words(&mut line, &if whole { vec![0; k] } else { lower });
                words(&mut line, &if whole { vec![TOP; k] } else { upper });
            }
            83..=87 => odd_words(random, &mut line),
            _ => {
                let text = malformed(random, &point);
                session.malformed += u64::from(!text.is_empty());
                session.lines += u64::from(!text.is_empty());
                session.pieces.push(text);
                session.pieces.push(vec![b'\n']);
                continue;
            }
        }
        session.lines += 1;
        session.pieces.push(hexadecimal(random, &line));
        session.pieces.push(vec![b'\n']);
    }
    // The last line may lack its line feed.
    if random.once_in(2) {
        session.pieces.pop();
    }
    // One piece a line, for cutting down.
    session.pieces = session
        .bytes()
        .split_inclusive(|&byte| byte == b'\n')
        .map(<[u8]>::to_vec)
        .collect();
    session
}

fn format(random: &mut Random, line: &mut Vec<u8>, k: usize, wrong: bool) {
    let n = match random.below(8) {
        0..=4 => random.from(2, 40),
        5 | 6 => random.from(2, 512),
        _ => 512,
    };
    let n = if wrong && random.once_in(2) {
        *random.pick(&[0, 1, 513, 514, 0x0201, 0x8002, 65535])
    } else {
        n
    };
    line.extend([0, k as u8, (n >> 8) as u8, n as u8]);
}

fn words(line: &mut Vec<u8>, words: &[u32]) {
    for word in words {
        line.extend(word.to_be_bytes());
    }
}

/// A frame that is well formed, with words that no call takes, or any number of them.
fn odd_words(random: &mut Random, line: &mut Vec<u8>) {
    line.push(random.from(1, 4) as u8);
    // 63 bytes, 15 words and no more, stand behind the first byte.
    for _ in 0..random.from(usize::from(line[0] == 1), 15) {
        let word = *random.pick(&[0, 1, 5, TOP, INFINITY]);
        words(line, &[word]);
    }
}

fn hexadecimal(random: &mut Random, bytes: &[u8]) -> Vec<u8> {
    let way = random.below(3);
    let digit = |random: &mut Random, value: u8| match way {
        0 => b"0123456789ABCDEF"[value as usize],
        1 => b"0123456789abcdef"[value as usize],
        _ if random.once_in(2) => b"0123456789ABCDEF"[value as usize],
        _ => b"0123456789abcdef"[value as usize],
    };
    let digits = bytes.iter().flat_map(|byte| [byte >> 4, byte & 15]);
    digits.map(|value| digit(random, value)).collect()
}

/// A line that is no frame, or an empty one.
fn malformed(random: &mut Random, point: &[u32]) -> Vec<u8> {
    let mut bytes = vec![random.from(1, 4) as u8];
    words(&mut bytes, point);
    let mut text = hexadecimal(random, &bytes);
    match random.below(16) {
        // An odd number of digits.
        0 => {
            text.pop();
        }
        // Another character, the neighbours of the digits' ranges among them.
        1..=3 => {
            let at = random.below(text.len());
            let around = b"/:@G`g \t\r\0+-xX.,;\"'\\\x7F\x80\xC3\xFF";
            text[at] = *random.pick(around);
        }
        4 => text.push(b'\r'),
        5 => text.insert(0, b' '),
        6 => text.extend(b" \r"),
        // More than 128 digits: the edge on both sides, and far more.
        7 | 8 => {
            let digits = *random.pick(&[126, 127, 128, 129, 130, 136, 256, 1000, 70_000]);
            text = vec![b'0'; digits];
            text[1] = *random.pick(b"01234");
        }
        // Of these 128 and 136 digits are 64 and 68 bytes, 15 words and a part, or 16 and a part.
        9 => {
            let digits = *random.pick(&[114, 122, 130, 138]);
            text = vec![b'1'; digits];
            text[0] = b'0';
        }
        // A format not of 4 bytes.
        10 => {
            let bytes = *random.pick(&[1, 2, 3, 5, 6, 8]);
            text = b"0002000400020004"[..2 * bytes].to_vec();
        }
        // A part word.
        11 => text.extend(&b"0A0B0C"[..2 * random.from(1, 3)]),
        // 01 with no word, the other calls with none.
        12 => text = format!("{:02X}", random.from(1, 4)).into_bytes(),
        // 05 to FF is no frame.
        13 => {
            let first = random.from(5, 255);
            text.splice(0..2, format!("{first:02x}").into_bytes());
        }
        14 => text.clear(),
        _ => {
            text = (0..random.from(1, 40))
                .map(|_| match random.word() as u8 {
                    b'\n' => b'0',
                    byte => byte,
                })
                .collect();
        }
    }
    text
}

/// What a program writes for an input, or what went wrong.
pub fn output(program: &Program, input: &[u8], piece: usize) -> Result<Vec<u8>, String> {
    let told = |what: &str, error: io::Error| format!("{what}: {error}");
    let mut child = program
        .command()
        .stdin(Stdio::piped())
        .stdout(Stdio::piped())
        .spawn()
        .map_err(|error| told("the program does not start", error))?;
    let mut stdin = child.stdin.take().ok_or("no input")?;
    let mut stdout = child.stdout.take().ok_or("no output")?;
    let given = input.to_vec();
    let writer = thread::spawn(move || {
        // In pieces, so that lines are cut anywhere. A program that has ended takes no more.
        for part in given.chunks(piece.max(1)) {
            if stdin.write_all(part).is_err() {
                return;
            }
        }
    });
    let mut written = Vec::new();
    let read = stdout.read_to_end(&mut written);
    let _ = writer.join();
    let status = child
        .wait()
        .map_err(|error| told("the program is lost", error))?;
    read.map_err(|error| told("the output breaks off", error))?;
    if !status.success() {
        return Err(format!("the program ends with {status}"));
    }
    Ok(written)
}

/// Compares the outputs for an input; an error says what differs.
pub fn compare(program: &Program, input: &[u8], piece: usize) -> Result<(), String> {
    let right = second::frame::run(input);
    let other = output(program, input, piece)?;
    if right == other {
        return Ok(());
    }
    let mut lines = right
        .split(|&byte| byte == b'\n')
        .zip(other.split(|&byte| byte == b'\n'));
    let differs = (1..).zip(&mut lines).find(|(_, (a, b))| a != b);
    Err(match differs {
        Some((number, (a, b))) => format!(
            "output line {number}: second {}, other {}",
            a.escape_ascii(),
            b.escape_ascii()
        ),
        None => format!("outputs of {} and {} bytes", right.len(), other.len()),
    })
}

/// The input that the steps of a session make.
pub fn input_of(steps: &[Step]) -> Vec<u8> {
    let mut input = Vec::new();
    for step in steps {
        if let Step::Input(bytes) = step {
            input.extend(bytes);
        }
    }
    input
}

/// Does a session fail?
pub fn fails(program: &Program, steps: &[Step]) -> Option<(usize, String)> {
    let input = input_of(steps);
    let whole = compare(program, &input, input.len()).err();
    whole.map(|what| (steps.len().saturating_sub(1), what))
}

/// A session as a failure.
pub fn failure(session: &Session, what: String) -> Box<Failure> {
    let steps = session.pieces.iter().cloned().map(Step::Input).collect();
    Box::new(Failure { steps, what })
}
