//! Two programs side by side: each has its own buffers, each step goes to both, and every word is compared.

use crate::index::{Answer, Index};
use crate::step::{junk, Step, Work};
use std::cell::Cell;
use std::panic::{catch_unwind, AssertUnwindSafe};

/// Words in front of and behind every buffer that is lent; nobody may write them.
const GUARD: usize = 8;
pub const MARK: u32 = 0x6A6A_6A6A;
/// How a failure begins that is no difference.
pub const UNSOUND: &str = "both agree, but the pool should be sound and check answers";

thread_local! {
    static CALLING: Cell<bool> = const { Cell::new(false) };
}

/// Is this thread within a call to one of the programs? A panic is then caught and told as a failure.
pub fn calling() -> bool {
    CALLING.get()
}

/// The buffers of one program, each with its guards.
#[derive(Default)]
struct Side {
    pool: Vec<u32>,
    work: Vec<u32>,
    slots: Vec<u32>,
    argument: Vec<u32>,
}

/// The two programs. What the first one answers counts as right: it is the second program.
pub struct Pair<'a> {
    programs: [&'a dyn Index; 2],
    sides: [Side; 2],
    /// The words lent as the pool; the buffer may be longer.
    lent: usize,
}

fn guarded(buffer: &mut Vec<u32>, words: usize, with: u32) {
    buffer.clear();
    buffer.resize(GUARD, MARK);
    buffer.extend((0..words).map(|i| junk(with, i)));
    buffer.resize(buffer.len() + GUARD, MARK);
}

fn inner(buffer: &mut [u32]) -> &mut [u32] {
    let end = buffer.len() - GUARD;
    &mut buffer[GUARD..end]
}

impl<'a> Pair<'a> {
    pub fn new(right: &'a dyn Index, other: &'a dyn Index) -> Pair<'a> {
        let mut pair = Pair {
            programs: [right, other],
            sides: [Side::default(), Side::default()],
            lent: 0,
        };
        pair.clear();
        pair
    }

    /// Back to a buffer of no words.
    pub fn clear(&mut self) {
        self.lent = 0;
        for side in &mut self.sides {
            side.pool.clear();
            side.pool.resize(2 * GUARD, MARK);
        }
    }

    /// The words lent as the pool; both sides have the same.
    pub fn pool(&self) -> &[u32] {
        &self.sides[0].pool[GUARD..GUARD + self.lent]
    }

    /// What the answer buffer of the last list holds.
    pub fn slots(&self) -> &[u32] {
        let slots = &self.sides[0].slots;
        &slots[GUARD..slots.len() - GUARD]
    }

    /// Lends a pool of just these words.
    pub fn load(&mut self, words: &[u32]) {
        self.lent = words.len();
        for side in &mut self.sides {
            side.pool.clear();
            side.pool.resize(GUARD, MARK);
            side.pool.extend_from_slice(words);
            side.pool.resize(words.len() + 2 * GUARD, MARK);
        }
    }

    /// Takes one step on both sides. None if it is no call; an error says what differs.
    pub fn step(&mut self, step: &Step) -> Result<Option<Answer>, String> {
        match step {
            Step::Lend(words) => self.lend(*words),
            Step::Junk(with) => {
                for side in &mut self.sides {
                    for (i, word) in inner(&mut side.pool).iter_mut().enumerate() {
                        *word = junk(*with, i);
                    }
                }
            }
            Step::Words { at, words } => {
                for side in &mut self.sides {
                    for (i, word) in words.iter().enumerate() {
                        if let Some(place) = inner(&mut side.pool).get_mut(at + i) {
                            *place = *word;
                        }
                    }
                }
            }
            Step::Input(_) => return Err(String::from("frames in a sequence of calls")),
            call => return self.call(call).map(Some),
        }
        Ok(None)
    }

    fn lend(&mut self, words: usize) {
        self.lent = words;
        for side in &mut self.sides {
            if words + 2 * GUARD > side.pool.len() {
                let length = side.pool.len();
                side.pool.truncate(length - GUARD);
                side.pool.resize(GUARD + words, 0);
                side.pool.resize(2 * GUARD + words, MARK);
            }
        }
    }

    fn call(&mut self, step: &Step) -> Result<Answer, String> {
        let lent = self.lent;
        let mut answers = [Answer::default(); 2];
        for which in 0..2 {
            let (program, side) = (self.programs[which], &mut self.sides[which]);
            CALLING.set(true);
            let made = catch_unwind(AssertUnwindSafe(|| ask(program, side, lent, step)));
            CALLING.set(false);
            answers[which] = made.map_err(|panic| {
                let text = panic
                    .downcast_ref::<String>()
                    .map(String::as_str)
                    .or_else(|| panic.downcast_ref::<&str>().copied());
                let who = ["the second program", "the other program"][which];
                format!("{who} panics: {}", text.unwrap_or("no message"))
            })?;
        }
        let [right, other] = answers;
        if right.number != other.number {
            return Err(format!(
                "number: second {}, other {}",
                right.number, other.number
            ));
        }
        if right.values != other.values {
            return Err(format!(
                "returned numbers: second {:?}, other {:?}",
                right.values, other.values
            ));
        }
        let [a, b] = &self.sides;
        for (name, x, y) in [
            ("pool", &a.pool, &b.pool),
            ("work", &a.work, &b.work),
            ("answer buffer", &a.slots, &b.slots),
            ("point or window", &a.argument, &b.argument),
        ] {
            if x != y {
                return Err(first_difference(name, x, y));
            }
        }
        if *step == Step::Sound && right.number != 0 {
            return Err(format!("{UNSOUND} {}", right.number));
        }
        Ok(right)
    }
}

fn first_difference(name: &str, x: &[u32], y: &[u32]) -> String {
    let at = (0..x.len().min(y.len())).find(|&i| x[i] != y[i]);
    let Some(i) = at else {
        return format!("{name}: lengths {} and {}", x.len(), y.len());
    };
    let of = |name: &str, number: isize| {
        if name == "pool" || name == "work" {
            let (page, word) = (number.div_euclid(32), number.rem_euclid(32));
            format!("{name} word {number} (page {page}, word {word})")
        } else {
            format!("{name} word {number}")
        }
    };
    let what = of(name, i as isize - GUARD as isize);
    format!("{what}: second {}, other {}", x[i], y[i])
}

/// One call to one program.
fn ask(program: &dyn Index, side: &mut Side, lent: usize, step: &Step) -> Answer {
    let pool = &mut side.pool[GUARD..GUARD + lent];
    match step {
        Step::Format(k) => program.format(pool, *k),
        Step::Check | Step::Sound => program.check(pool),
        Step::Place {
            point,
            location,
            work,
            junk,
        } => {
            let words = match work {
                Work::Same => lent,
                Work::Words(words) => *words,
            };
            guarded(&mut side.work, words, *junk);
            guarded_point(&mut side.argument, point);
            program.place(
                pool,
                inner(&mut side.work),
                inner(&mut side.argument),
                *location,
            )
        }
        Step::Remove(point) => {
            guarded_point(&mut side.argument, point);
            program.remove(pool, inner(&mut side.argument))
        }
        Step::Find(point) => {
            guarded_point(&mut side.argument, point);
            program.find(pool, inner(&mut side.argument))
        }
        Step::List {
            window,
            slots,
            junk,
        } => {
            guarded(&mut side.slots, *slots, *junk);
            guarded_point(&mut side.argument, window);
            program.list(pool, inner(&mut side.argument), inner(&mut side.slots))
        }
        Step::Lend(_) | Step::Junk(_) | Step::Words { .. } | Step::Input(_) => {
            unreachable!("no call")
        }
    }
}

fn guarded_point(buffer: &mut Vec<u32>, point: &[u32]) {
    buffer.clear();
    buffer.resize(GUARD, MARK);
    buffer.extend_from_slice(point);
    buffer.resize(buffer.len() + GUARD, MARK);
}
