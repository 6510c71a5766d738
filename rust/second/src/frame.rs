//! The frame program: hexadecimal lines in, hexadecimal lines out.

use crate::answers::{self, Refusal};
use crate::calls;
use crate::words::PAGE;

/// The most digits a frame may have, and the most locations an answer lists.
const MOST_DIGITS: usize = 128;
const MOST_LOCATIONS: usize = 64;

/// A frame that is well formed; all else is no frame and answers FF.
#[derive(Clone, Debug, PartialEq, Eq)]
enum Frame {
    Format { k: u8, n: u16 },
    Place { point: Vec<u32>, location: u32 },
    Remove { point: Vec<u32> },
    Find { point: Vec<u32> },
    List { window: Vec<u32> },
}

/// The whole output for a whole input.
pub fn run(input: &[u8]) -> Vec<u8> {
    let mut session = Session::default();
    let mut output = Vec::new();
    for line in input.split(|&byte| byte == b'\n') {
        if !line.is_empty() {
            output.extend(session.answer(line).bytes());
            output.push(b'\n');
        }
    }
    output
}

/// The pool between one frame and the next; before a format it has length 0.
#[derive(Default)]
pub struct Session {
    pub pool: Vec<u32>,
}

impl Session {
    /// The answer to one line that is not empty, without its line feed.
    pub fn answer(&mut self, line: &[u8]) -> String {
        let returned = match parse(line) {
            None => return String::from("FF"),
            Some(Frame::Format { k, n }) => self.format(k, n).map(|()| Vec::new()),
            Some(Frame::Place { point, location }) => {
                let mut work = vec![0; self.pool.len()];
                calls::place(&mut self.pool, &mut work, &point, location).map(|()| Vec::new())
            }
            Some(Frame::Remove { point }) => {
                calls::remove(&mut self.pool, &point).map(|location| vec![location])
            }
            Some(Frame::Find { point }) => {
                calls::find(&self.pool, &point).map(|found| vec![found.location, found.reads])
            }
            Some(Frame::List { window }) => {
                let mut answer = vec![0; MOST_LOCATIONS];
                calls::list(&self.pool, &window, &mut answer).map(|listed| {
                    answer.truncate(listed.total as usize);
                    let mut numbers = vec![listed.total, listed.reads];
                    numbers.extend(answer);
                    numbers
                })
            }
        };
        let mut text = format!("{:02X}", answers::number(&returned));
        for number in returned.unwrap_or_default() {
            text.push_str(&format!("{number:08X}"));
        }
        text
    }

    /// Formats a new pool, and keeps the old one if that is refused.
    fn format(&mut self, k: u8, n: u16) -> Result<(), Refusal> {
        let mut pool = vec![0; usize::from(n) * PAGE];
        calls::format(&mut pool, u32::from(k))?;
        self.pool = pool;
        Ok(())
    }
}

/// The frame that a line holds, if it holds one.
fn parse(line: &[u8]) -> Option<Frame> {
    if line.len() > MOST_DIGITS || !line.len().is_multiple_of(2) {
        return None;
    }
    let digits: Vec<u8> = line.iter().map(|&c| digit(c)).collect::<Option<_>>()?;
    let bytes: Vec<u8> = digits.chunks(2).map(|two| two[0] * 16 + two[1]).collect();
    let (&first, rest) = bytes.split_first()?;
    match first {
        0x00 => match *rest {
            [k, high, low] => Some(Frame::Format {
                k,
                n: u16::from_be_bytes([high, low]),
            }),
            _ => None,
        },
        0x01 => {
            let mut point = whole_words(rest)?;
            let location = point.pop()?;
            Some(Frame::Place { point, location })
        }
        0x02 => whole_words(rest).map(|point| Frame::Remove { point }),
        0x03 => whole_words(rest).map(|point| Frame::Find { point }),
        0x04 => whole_words(rest).map(|window| Frame::List { window }),
        0x05..=0xFF => None,
    }
}

/// The worth of a hexadecimal digit.
fn digit(character: u8) -> Option<u8> {
    match character {
        b'0'..=b'9' => Some(character - b'0'),
        b'A'..=b'F' => Some(character - b'A' + 10),
        b'a'..=b'f' => Some(character - b'a' + 10),
        _ => None,
    }
}

/// Words of 4 bytes, high byte first; none if a part word is left.
fn whole_words(bytes: &[u8]) -> Option<Vec<u32>> {
    let words = bytes
        .chunks(4)
        .map(|chunk| chunk.try_into().ok().map(u32::from_be_bytes));
    words.collect()
}
