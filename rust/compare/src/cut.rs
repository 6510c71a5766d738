//! Cutting a failing sequence down: steps are left out, and what is left is made plainer, while it still fails.

use crate::pair::UNSOUND;
use crate::step::{Step, Work};
use std::time::{Duration, Instant};

/// Does a sequence fail? If so, the number of the step that shows it and what it shows.
pub type Fails<'a> = &'a dyn Fn(&[Step]) -> Option<(usize, String)>;

struct Cutting<'a> {
    fails: Fails<'a>,
    until: Instant,
    steps: Vec<Step>,
    what: String,
    /// The failure is a pool that should be sound, so what made it sound at first has to stay.
    unsound: bool,
}

/// The shortest sequence found within the time, and what it shows. The sequence given has to fail.
pub fn cut(fails: Fails, steps: Vec<Step>, time: Duration) -> Option<(Vec<Step>, String)> {
    let (at, what) = fails(&steps)?;
    let unsound = what.starts_with(UNSOUND);
    let mut steps = steps[..=at].to_vec();
    if !unsound {
        // A difference is looked for, and with calls left out a pool may well be unsound.
        let sound = steps.iter_mut().filter(|step| **step == Step::Sound);
        sound.for_each(|step| *step = Step::Check);
    }
    let mut cutting = Cutting {
        fails,
        until: Instant::now() + time,
        steps,
        what,
        unsound,
    };
    loop {
        let before = cutting.steps.clone();
        cutting.fewer_pages();
        cutting.only_what_alters();
        cutting.leave_out();
        cutting.plainer();
        if cutting.steps == before || cutting.late() {
            return Some((cutting.steps, cutting.what));
        }
    }
}

impl Cutting<'_> {
    fn late(&self) -> bool {
        Instant::now() >= self.until
    }

    /// Takes the candidate if it still fails.
    fn try_this(&mut self, candidate: Vec<Step>) -> bool {
        if self.late() || candidate == self.steps {
            return false;
        }
        let kept = |steps: &[Step]| {
            let kept = steps.iter().filter(|step| match step {
                Step::Format(_) => true,
                step => step.call().is_none(),
            });
            kept.cloned().collect::<Vec<Step>>()
        };
        if self.unsound && kept(&candidate) != kept(&self.steps) {
            return false;
        }
        match (self.fails)(&candidate) {
            None => false,
            Some((at, what)) => {
                self.steps = candidate;
                self.steps.truncate(at + 1);
                self.what = what;
                true
            }
        }
    }

    /// A shorter pool: fewer pages make each further try quicker.
    fn fewer_pages(&mut self) {
        let longest = |steps: &[Step]| {
            let lent = steps.iter().map(|step| match step {
                Step::Lend(words) => *words,
                _ => 0,
            });
            lent.max().unwrap_or(0)
        };
        let now = longest(&self.steps);
        let mut pages = 2;
        while 32 * pages < now {
            let candidate = self.steps.iter().map(|step| match step {
                Step::Lend(words) if *words == now => Step::Lend(32 * pages),
                // The header's word 1 goes along.
                Step::Words { at: 0, words }
                    if words.len() > 1 && words[1] as usize * 32 == now =>
                {
                    let mut words = words.clone();
                    words[1] = pages as u32;
                    Step::Words { at: 0, words }
                }
                step => step.clone(),
            });
            let candidate: Vec<Step> = candidate.collect();
            if self.try_this(candidate) {
                return;
            }
            pages += 1 + pages / 4;
        }
    }

    /// Leaves out at once all steps but the last that cannot change a pool.
    fn only_what_alters(&mut self) {
        let last = self.steps.len() - 1;
        let kept = self.steps.iter().enumerate();
        let kept = kept.filter(|(i, step)| *i == last || step.alters());
        let candidate = kept.map(|(_, step)| step.clone()).collect();
        self.try_this(candidate);
    }

    /// Leaves out halves, quarters and so on down to single steps.
    fn leave_out(&mut self) {
        let mut size = self.steps.len().div_ceil(2);
        while size > 0 {
            let mut end = self.steps.len();
            while end > 0 && !self.late() {
                let start = end.saturating_sub(size);
                let mut candidate = self.steps[..start].to_vec();
                candidate.extend_from_slice(&self.steps[end..]);
                if !candidate.is_empty() {
                    self.try_this(candidate);
                }
                end = start.min(self.steps.len());
            }
            size /= 2;
        }
    }

    /// Makes single steps plainer.
    fn plainer(&mut self) {
        let mut at = 0;
        while at < self.steps.len() {
            let mut form = 0;
            while let Some(step) = self.steps.get(at).and_then(|s| plainer(s, form)) {
                if self.late() {
                    return;
                }
                let mut candidate = self.steps.clone();
                candidate[at] = step;
                if !self.try_this(candidate) {
                    form += 1;
                }
            }
            at += 1;
        }
    }
}

/// A plainer form of a step, by its number.
fn plainer(step: &Step, number: usize) -> Option<Step> {
    plainer_forms(step).into_iter().nth(number)
}

/// All plainer forms of a step.
fn plainer_forms(step: &Step) -> Vec<Step> {
    let mut forms = Vec::new();
    match step {
        Step::Words { at, words } => {
            for i in (0..words.len()).rev().filter(|&i| words[i] != 0) {
                // Each word by itself; one that mattered stays.
                let mut fewer = words.clone();
                fewer[i] = 0;
                if let Some(last) = fewer.iter().rposition(|&word| word != 0) {
                    fewer.truncate(last + 1);
                    forms.push(Step::Words {
                        at: *at,
                        words: fewer,
                    });
                }
            }
        }
        Step::Junk(junk) if *junk != 0 => forms.push(Step::Junk(0)),
        Step::Place {
            point,
            location,
            work,
            junk,
        } => {
            let form = |location, work, junk| Step::Place {
                point: point.clone(),
                location,
                work,
                junk,
            };
            if *work != Work::Same {
                forms.push(form(*location, Work::Same, *junk));
            }
            if *junk != 0 {
                forms.push(form(*location, *work, 0));
            }
            if *location > 9 {
                forms.push(form(1, *work, *junk));
            }
        }
        Step::List {
            window,
            slots,
            junk,
        } => {
            for fewer in [0, 1, slots / 2, slots.saturating_sub(1)] {
                if fewer < *slots {
                    forms.push(Step::List {
                        window: window.clone(),
                        slots: fewer,
                        junk: *junk,
                    });
                }
            }
        }
        Step::Input(bytes) => {
            let lines: Vec<&[u8]> = bytes.split_inclusive(|&byte| byte == b'\n').collect();
            for left_out in 0..lines.len() {
                let kept = lines.iter().enumerate();
                let kept = kept.filter(|(i, _)| *i != left_out);
                forms.push(Step::Input(kept.flat_map(|(_, l)| l.to_vec()).collect()));
            }
            for size in [bytes.len() / 2, bytes.len() / 4, 8, 2, 1] {
                if (1..bytes.len()).contains(&size) {
                    forms.push(Step::Input(bytes[size..].to_vec()));
                    let mut shorter = bytes[..bytes.len() - 1 - size].to_vec();
                    shorter.extend(bytes.last());
                    forms.push(Step::Input(shorter));
                }
            }
        }
        _ => {}
    }
    forms
}
