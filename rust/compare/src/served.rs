//! The library in a process of its own. The library is x86-64; on another kind of machine an emulator runs that process
//! alone, and the second program, which takes most of the time, is compiled for the machine.
//!
//! Each call goes there with every word that is lent, and every word comes back. There the buffers lie between guards.

use crate::frames::Program;
use crate::index::{Answer, Index};
use crate::pair::MARK;
use std::cell::RefCell;
use std::fs::File;
use std::io::{self, ErrorKind, Read, Write};
use std::os::fd::AsFd;
use std::process::{Child, ChildStdin, ChildStdout, Stdio};

/// Pool, work buffer, point or window, answer buffer.
const BUFFERS: usize = 4;

/// Words in front of and behind every buffer there: two pages.
const GUARD: usize = 64;

/// The words as bytes, as they lie in memory; both processes have the lowest byte first.
fn bytes(words: &[u32]) -> &[u8] {
    // Every word is four bytes, whatever its value.
    unsafe { words.align_to().1 }
}

fn bytes_mut(words: &mut [u32]) -> &mut [u8] {
    // Every four bytes are a word.
    unsafe { words.align_to_mut().1 }
}

/// The index that a program serves; each thread starts its own.
pub struct Served(pub Program);

struct Process {
    child: Child,
    to: ChildStdin,
    from: ChildStdout,
}

thread_local! {
    static PROCESS: RefCell<Option<Process>> = const { RefCell::new(None) };
}

/// The words of the buffers after a call, taken one buffer after the other.
struct After {
    words: Vec<u32>,
    taken: usize,
}

impl After {
    fn next(&mut self, length: usize) -> &[u32] {
        let from = self.taken;
        self.taken += length;
        &self.words[from..self.taken]
    }

    fn written(&mut self, buffer: &mut [u32]) {
        buffer.copy_from_slice(self.next(buffer.len()));
    }

    /// A panic here counts as a failure.
    fn only_read(&mut self, buffer: &[u32]) {
        assert!(self.next(buffer.len()) == buffer, "writes what it may read");
    }
}

impl Process {
    fn start(program: &Program) -> io::Result<Process> {
        let mut command = program.command();
        let mut child = command
            .stdin(Stdio::piped())
            .stdout(Stdio::piped())
            .spawn()?;
        match (child.stdin.take(), child.stdout.take()) {
            (Some(to), Some(from)) => Ok(Process { child, to, from }),
            _ => Err(io::Error::other("no pipes")),
        }
    }

    fn call(
        &mut self,
        call: u32,
        number: u32,
        lent: [&[u32]; BUFFERS],
    ) -> io::Result<(Answer, After)> {
        let mut sent = vec![call, number];
        sent.extend(lent.map(|buffer| buffer.len() as u32));
        for buffer in lent {
            sent.extend_from_slice(buffer);
        }
        self.to.write_all(bytes(&sent))?;
        let mut head = [0; 4];
        self.from.read_exact(bytes_mut(&mut head))?;
        let mut words = vec![0; lent.iter().map(|buffer| buffer.len()).sum()];
        self.from.read_exact(bytes_mut(&mut words))?;
        let [number, first, second, whole] = head;
        assert!(whole == 1, "writes outside the buffers");
        let values = [first, second];
        Ok((Answer { number, values }, After { words, taken: 0 }))
    }
}

impl Served {
    /// One call. A process that does not start or that ends is told by a panic, which counts as a failure.
    fn call(&self, call: u32, number: u32, lent: [&[u32]; BUFFERS]) -> (Answer, After) {
        let started = PROCESS.take().map_or_else(|| Process::start(&self.0), Ok);
        let mut process = started.unwrap_or_else(|error| panic!("it does not start: {error}"));
        match process.call(call, number, lent) {
            Ok(done) => {
                PROCESS.set(Some(process));
                done
            }
            Err(error) => {
                let Process { mut child, to, .. } = process;
                drop(to);
                match child.wait() {
                    Ok(status) => panic!("death: {status}"),
                    Err(_) => panic!("it is lost: {error}"),
                }
            }
        }
    }
}

impl Index for Served {
    fn format(&self, pool: &mut [u32], k: u32) -> Answer {
        let (answer, mut after) = self.call(0, k, [pool, &[], &[], &[]]);
        after.written(pool);
        answer
    }

    fn check(&self, pool: &[u32]) -> Answer {
        let (answer, mut after) = self.call(1, 0, [pool, &[], &[], &[]]);
        after.only_read(pool);
        answer
    }

    fn place(&self, pool: &mut [u32], work: &mut [u32], point: &[u32], location: u32) -> Answer {
        let (answer, mut after) = self.call(2, location, [pool, work, point, &[]]);
        after.written(pool);
        after.written(work);
        after.only_read(point);
        answer
    }

    fn remove(&self, pool: &mut [u32], point: &[u32]) -> Answer {
        let (answer, mut after) = self.call(3, 0, [pool, &[], point, &[]]);
        after.written(pool);
        after.only_read(point);
        answer
    }

    fn find(&self, pool: &[u32], point: &[u32]) -> Answer {
        let (answer, mut after) = self.call(4, 0, [pool, &[], point, &[]]);
        after.only_read(pool);
        after.only_read(point);
        answer
    }

    fn list(&self, pool: &[u32], window: &[u32], slots: &mut [u32]) -> Answer {
        let (answer, mut after) = self.call(5, 0, [pool, &[], window, slots]);
        after.only_read(pool);
        after.only_read(window);
        after.written(slots);
        answer
    }
}

/// The words cut into buffers, with a guard in front of each; what is left is the last guard.
fn cut(
    words: &mut [u32],
    lengths: [usize; BUFFERS],
) -> ([(&mut [u32], &mut [u32]); BUFFERS], &mut [u32]) {
    let mut rest = words;
    let buffers = lengths.map(|length| {
        let (guard, behind) = std::mem::take(&mut rest).split_at_mut(GUARD);
        let (buffer, behind) = behind.split_at_mut(length);
        rest = behind;
        (guard, buffer)
    });
    (buffers, rest)
}

/// Answers calls from standard input until it ends. Nothing here is a thread: an emulator is quicker without.
pub fn serve(index: &dyn Index) -> io::Result<()> {
    let mut from = File::from(io::stdin().as_fd().try_clone_to_owned()?);
    let mut to = File::from(io::stdout().as_fd().try_clone_to_owned()?);
    let mut words = Vec::new();
    loop {
        let mut head = [0; 2 + BUFFERS];
        match from.read_exact(bytes_mut(&mut head)) {
            Err(error) if error.kind() == ErrorKind::UnexpectedEof => return Ok(()),
            read => read?,
        }
        let [call, number, lengths @ ..] = head;
        let lengths = lengths.map(|length| length as usize);
        words.resize(lengths.iter().sum::<usize>() + (BUFFERS + 1) * GUARD, 0);
        let (buffers, last) = cut(&mut words, lengths);
        last.fill(MARK);
        for (guard, buffer) in buffers {
            guard.fill(MARK);
            from.read_exact(bytes_mut(buffer))?;
        }
        let (buffers, _) = cut(&mut words, lengths);
        let [pool, work, argument, slots] = buffers.map(|(_, buffer)| buffer);
        let Answer { number, values } = match call {
            0 => index.format(pool, number),
            1 => index.check(pool),
            2 => index.place(pool, work, argument, number),
            3 => index.remove(pool, argument),
            4 => index.find(pool, argument),
            5 => index.list(pool, argument, slots),
            _ => return Err(io::Error::other("no such call")),
        };
        let (buffers, last) = cut(&mut words, lengths);
        let marked = |guard: &[u32]| guard.iter().all(|&word| word == MARK);
        let whole = marked(last) && buffers.iter().all(|(guard, _)| marked(guard));
        let mut sent = vec![number, values[0], values[1], u32::from(whole)];
        for (_, buffer) in buffers {
            sent.extend_from_slice(buffer);
        }
        to.write_all(bytes(&sent))?;
    }
}
