//! Indexes and frame programs broken on purpose, to see that the comparison sees each fault and cuts it down.
//!
//! Each is the second program with one fault. They say nothing about the proved program; they test this one.

use crate::index::{Answer, Index, Second};
use second::opened::{open, Opened};
use second::place::Reason;
use second::words::{header, PAGE};
use second::{Node, Record};

/// Broken indexes: name and fault.
pub const FAULTS: [(&str, &str); 53] = [
    ("format-order", "format tests K before the length"),
    ("format-leaves", "format leaves the last page as it was"),
    ("check-sum", "check does not look at word 4"),
    (
        "check-tail",
        "check does not look at the words behind the last entry",
    ),
    ("check-domain", "check does not look at splitting domains"),
    ("check-free", "check does not look into free pages"),
    ("check-equal", "check lets equal points pass"),
    (
        "check-pinwheel",
        "check wants a straight cut in every region page",
    ),
    ("check-gap", "check lets a gap of one key pass"),
    ("header-tail", "nobody looks at words 5 to 31 of the header"),
    ("header-root", "find and list take levels without a root"),
    ("place-nothing", "place says done and stores nothing"),
    (
        "place-pretends",
        "place works up to the first split and then pretends",
    ),
    ("place-work-late", "work holds the pool after the call"),
    ("place-work-7", "work is written after refusal 7 too"),
    (
        "place-half-way",
        "after 9 a claimed page stays behind in the pool",
    ),
    (
        "place-half-way-2",
        "the same, only after two claims or more",
    ),
    (
        "place-forced-domain",
        "a forced split moves on to the next domain",
    ),
    ("place-root-domain", "a new root has the last domain"),
    (
        "place-claims",
        "two claims of one placing change their numbers",
    ),
    (
        "place-highest",
        "the highest free page is claimed instead of the lowest",
    ),
    ("place-early-9", "9 although the last free page would do"),
    (
        "place-empty-page",
        "a forced split that leaves an empty page keeps a word in it",
    ),
    ("place-top", "place refuses the key 4,294,967,294"),
    ("remove-order", "the last record takes the gap"),
    ("remove-tail", "the words behind the last record stay"),
    ("remove-sum", "remove does not lower word 4"),
    ("find-reads", "find counts the header as read"),
    (
        "find-back",
        "find tries the next entry that holds the point too",
    ),
    ("find-last", "find takes the last of several equal records"),
    ("find-deep", "find gives up below level 100"),
    ("list-window-end", "a window's upper end is outside"),
    ("list-region-end", "a region's upper end is inside"),
    (
        "list-empty-region",
        "a region that holds no point may meet a window",
    ),
    (
        "list-empty-page",
        "an empty point page is not counted as read",
    ),
    ("list-bound", "the walk stops one page later"),
    ("list-bound-early", "the walk stops one page earlier"),
    (
        "list-slots-bad",
        "slots are not zeroed when a bad page is met",
    ),
    (
        "list-slots-later",
        "slots behind the last location are zeroed",
    ),
    ("list-total", "the total is no more than the slots"),
    ("order-4-3", "infinity is tested before the lengths"),
    ("order-5-4", "the window's order is tested before infinity"),
    ("order-6-3", "place tests soundness before the lengths"),
    ("window-5", "equal ends of a window are refused"),
    ("remove-fields", "remove returns a location after 8"),
    ("find-fields", "find returns the pages read after 8"),
    ("list-fields", "list returns the pages read after 6"),
    ("format-514", "format takes 514 pages"),
    (
        "length-16",
        "the lengths of pool and work buffer are taken by their last 16 bits",
    ),
    ("place-many", "word 4 stays at 1000 records"),
    ("writes-behind", "place writes the word behind the pool"),
    ("panics", "place panics where three pages are claimed"),
    ("aborts", "the process dies where three pages are claimed"),
];

/// Frame programs that are broken: name and fault.
pub const FRAME_FAULTS: [(&str, &str); 11] = [
    ("frames-return", "a carriage return ends the line too"),
    ("frames-129", "up to 130 digits are taken"),
    ("frames-lower", "lower case is no digit"),
    (
        "frames-last",
        "a last line without its line feed is not answered",
    ),
    ("frames-empty", "an empty line answers FF"),
    ("frames-format", "a refused format empties the pool"),
    ("frames-64", "a list shows 63 locations"),
    ("frames-part", "a part word is filled up"),
    ("frames-no-word", "01 with no word answers 3"),
    ("frames-long", "a line is cut after 4096 characters"),
    (
        "frames-dies",
        "the program ends with status 3 at a byte above FE",
    ),
];

/// The second program with one fault.
pub struct Broken(pub &'static str);

/// The broken index of this name.
pub fn broken(name: &str) -> Option<Broken> {
    let found = FAULTS.iter().find(|(fault, _)| *fault == name);
    found.map(|(fault, _)| Broken(fault))
}

fn refused(number: u32) -> Answer {
    Answer {
        number,
        values: [0, 0],
    }
}

fn good_length(pool: &[u32]) -> bool {
    pool.len().is_multiple_of(PAGE) && (64..=16384).contains(&pool.len())
}

impl Broken {
    fn is(&self, name: &str) -> bool {
        self.0 == name
    }

    /// The words of a pool or work buffer that are taken for it.
    fn taken(&self, buffer: &[u32]) -> usize {
        if self.is("length-16") {
            buffer.len() % 65_536
        } else {
            buffer.len()
        }
    }

    /// A copy of the pool in which what the fault does not look at is as it should be.
    fn blind(&self, pool: &[u32]) -> Vec<u32> {
        let mut copy = pool.to_vec();
        if !good_length(pool) {
            return copy;
        }
        if self.is("header-tail") {
            copy[5..PAGE].fill(0);
        }
        let Ok(head) = header(&copy) else {
            return copy;
        };
        let k = head.k;
        for number in 1..head.n {
            let page = &mut copy[PAGE * number..PAGE * (number + 1)];
            let width = if page[0] == 1 { 2 * k + 1 } else { k + 1 };
            let behind = (4 + page[1] as usize % 40 * width).min(PAGE);
            match (self.0, page[0]) {
                ("check-tail", 1 | 2) => page[behind..].fill(0),
                ("check-domain", 1 | 2) => page[2] = 0,
                ("check-free", 0) => page.fill(0),
                ("check-equal", 2) => {
                    let mut seen: Vec<Vec<u32>> = Vec::new();
                    let mut kept = Vec::new();
                    let mut left_out = 0;
                    for entry in page[4..behind].chunks_exact(k + 1) {
                        if seen.contains(&entry[..k].to_vec()) {
                            left_out += 1;
                        } else {
                            seen.push(entry[..k].to_vec());
                            kept.extend_from_slice(entry);
                        }
                    }
                    page[1] = seen.len() as u32;
                    page[4..behind].fill(0);
                    page[4..4 + kept.len()].copy_from_slice(&kept);
                    copy[4] = copy[4].wrapping_sub(left_out);
                }
                ("check-gap", 1) => {
                    // Lower ends one above another region's upper end are taken for it.
                    let uppers: Vec<u32> = page[4..behind]
                        .chunks_exact(width)
                        .map(|entry| entry[k])
                        .collect();
                    for entry in page[4..behind].chunks_exact_mut(width) {
                        if entry[0] > 0 && uppers.contains(&(entry[0] - 1)) {
                            entry[0] -= 1;
                        }
                    }
                }
                _ => {}
            }
        }
        if self.is("check-sum") {
            let points = copy.chunks(PAGE).skip(1).filter(|page| page[0] == 2);
            copy[4] = points.fold(0, |sum: u32, page| sum.wrapping_add(page[1]));
        }
        copy
    }

    fn walk_is_broken(&self) -> bool {
        [
            "list-region-end",
            "list-empty-region",
            "list-empty-page",
            "list-bound",
            "list-bound-early",
        ]
        .contains(&self.0)
    }

    /// A list by a walk of its own, which is broken.
    fn broken_list(&self, pool: &[u32], window: &[u32], answer: &mut [u32]) -> Answer {
        let Ok(head) = header(pool) else {
            return Second.list(pool, window, answer);
        };
        let bound = match self.0 {
            "list-bound" => head.n,
            "list-bound-early" => head.n.max(3) - 2,
            _ => head.n - 1,
        };
        let k = head.k;
        let meets = |lower: &[u32], upper: &[u32]| {
            (0..k).all(|d| {
                let inside = self.is("list-region-end") && upper[d] != u32::MAX;
                let below = window[d] < upper[d] || inside && window[d] == upper[d];
                let holds = lower[d] < upper[d] || self.is("list-empty-region");
                holds && lower[d] <= window[k + d] && below
            })
        };
        let (mut read, mut locations, mut bad) = (0, Vec::new(), false);
        let mut left = vec![(head.root, 1)];
        if head.root == 0 {
            left.clear();
        }
        while let Some((number, level)) = left.pop() {
            let opened = open(pool, &head, number, level == head.levels);
            if read == bound || opened.is_none() {
                bad = true;
                break;
            }
            read += 1;
            match opened {
                Some(Opened::Regions(entries)) => {
                    for (region, child) in entries.into_iter().rev() {
                        if meets(&region.lower, &region.upper) {
                            left.push((child, level + 1));
                        }
                    }
                }
                Some(Opened::Points(records)) => {
                    if records.is_empty() && self.is("list-empty-page") {
                        read -= 1;
                    }
                    let inside = |record: &Record| {
                        (0..k).all(|d| (window[d]..=window[k + d]).contains(&record.keys[d]))
                    };
                    let inside = records.iter().filter(|record| inside(record));
                    locations.extend(inside.map(|record| record.location));
                }
                None => {}
            }
        }
        if bad {
            answer.fill(0);
            return refused(6);
        }
        for (slot, location) in answer.iter_mut().zip(&locations) {
            *slot = *location;
        }
        Answer {
            number: 0,
            values: [locations.len() as u32, read as u32],
        }
    }

    /// The claims of a placing that the second program accepts, from the pool as it stood.
    fn claims(before: &[u32], point: &[u32]) -> Vec<(u32, Reason)> {
        let record = Record {
            keys: point.to_vec(),
            location: 0,
        };
        let placed = second::read(before).ok().and_then(|t| t.place(record).ok());
        placed.map_or_else(Vec::new, |(_, claims)| claims)
    }

    /// A free page is left as if it had been claimed, if enough of them are free.
    fn leave_claimed(&self, pool: &mut [u32]) {
        let free: Vec<usize> = (1..pool.len() / PAGE)
            .filter(|number| pool[PAGE * number] == 0)
            .collect();
        let least = if self.is("place-half-way-2") { 2 } else { 1 };
        if free.len() >= least {
            pool[PAGE * free[0]] = 2;
        }
    }

    /// The claimed pages get other numbers: the first two each other's, or all of them the highest free ones.
    fn claim_others(&self, claimed: &[u32], pool: &mut [u32], before: &[u32]) {
        let Ok(mut tree) = second::read(pool) else {
            return;
        };
        let mut to = claimed.to_vec();
        if self.is("place-claims") {
            if to.len() > 1 {
                to.swap(0, 1);
            }
        } else {
            let mut free = second::read(before).map_or(Vec::new(), |t| t.free_pages());
            free.reverse();
            free.truncate(to.len());
            to = free;
        }
        let map: Vec<(u32, u32)> = claimed.iter().copied().zip(to).collect();
        if let Some(root) = &mut tree.root {
            renumber(root, &map);
        }
        pool.copy_from_slice(&tree.print());
    }

    /// What is broken after a placing.
    fn after_place(
        &self,
        answer: Answer,
        pool: &mut [u32],
        work: &mut [u32],
        point: &[u32],
    ) -> Answer {
        let page = |number: u32| PAGE * number as usize;
        if answer.number != 0 {
            if answer.number == 9 && self.0.starts_with("place-half-way") {
                self.leave_claimed(pool);
            }
            if self.is("place-work-7") && answer.number == 7 {
                work.copy_from_slice(pool);
            }
            return answer;
        }
        let claims = Broken::claims(work, point);
        match self.0 {
            "place-nothing" => pool.copy_from_slice(work),
            "place-pretends" if claims.len() > usize::from(work[2] == 0) => {
                pool.copy_from_slice(work);
            }
            "place-work-late" => work.copy_from_slice(pool),
            "place-forced-domain" => {
                let k = pool[0];
                for (number, reason) in claims {
                    if reason == Reason::Forced {
                        pool[page(number) + 2] = (pool[page(number) + 2] + 1) % k;
                    }
                }
            }
            "place-root-domain" => {
                for (number, reason) in claims {
                    if reason == Reason::Root {
                        pool[page(number) + 2] = pool[0] - 1;
                    }
                }
            }
            "place-claims" | "place-highest" => {
                let claimed: Vec<u32> = claims.iter().map(|claim| claim.0).collect();
                self.claim_others(&claimed, pool, work);
            }
            "place-early-9" if !claims.is_empty() => {
                let free = second::read(pool).map_or(0, |tree| tree.free_pages().len());
                if free == 0 {
                    pool.copy_from_slice(work);
                    return refused(9);
                }
            }
            "place-empty-page" => {
                for (number, reason) in claims {
                    if reason == Reason::Forced && pool[page(number)..][..2] == [2, 0] {
                        pool[page(number) + 4] = 1;
                    }
                }
            }
            "place-many" => pool[4] = pool[4].min(1000),
            "writes-behind" => {
                let end = pool.as_mut_ptr_range().end;
                // Safe only because this program's own guard words stand there.
                unsafe { end.write(0) };
            }
            "panics" if claims.len() > 2 => panic!("broken on purpose"),
            "aborts" if claims.len() > 2 => std::process::abort(),
            _ => {}
        }
        answer
    }
}

fn renumber(node: &mut Node, map: &[(u32, u32)]) {
    let new = |number: u32| {
        let found = map.iter().find(|(from, _)| *from == number);
        found.map_or(number, |(_, to)| *to)
    };
    match node {
        Node::Points(page) => page.number = new(page.number),
        Node::Regions(page) => {
            page.number = new(page.number);
            for entry in &mut page.entries {
                renumber(&mut entry.child, map);
            }
        }
    }
}

/// Is there a region page of more than one entry that no straight cut takes apart?
fn has_pinwheel(pool: &[u32]) -> bool {
    let k = pool[0] as usize;
    pool.chunks(PAGE).skip(1).any(|page| {
        let count = page[1] as usize;
        if page[0] != 1 || count < 2 {
            return false;
        }
        let entries: Vec<&[u32]> = page[4..].chunks(2 * k + 1).take(count).collect();
        let cut = |d: usize, at: u32| {
            let clear = entries.iter().all(|e| e[k + d] <= at || e[d] >= at);
            let left = entries.iter().any(|e| e[k + d] <= at);
            clear && left && entries.iter().any(|e| e[d] >= at)
        };
        !(0..k).any(|d| entries.iter().any(|entry| cut(d, entry[d])))
    })
}

impl Index for Broken {
    fn format(&self, pool: &mut [u32], k: u32) -> Answer {
        if self.is("format-order") && !(1..=4).contains(&k) {
            return refused(2);
        }
        if self.is("format-514") && pool.len() == 514 * PAGE && (1..=4).contains(&k) {
            pool.fill(0);
            pool[..2].copy_from_slice(&[k, 514]);
            return refused(0);
        }
        let taken = self.taken(pool);
        let pool = &mut pool[..taken];
        let before = pool.to_vec();
        let answer = Second.format(pool, k);
        if self.is("format-leaves") && answer.number == 0 {
            let last = pool.len() - PAGE;
            pool[last..].copy_from_slice(&before[last..]);
        }
        answer
    }

    fn check(&self, pool: &[u32]) -> Answer {
        let pool = &pool[..self.taken(pool)];
        let answer = Second.check(&self.blind(pool));
        if self.is("check-pinwheel") && answer.number == 0 && has_pinwheel(pool) {
            return refused(6);
        }
        answer
    }

    fn place(&self, pool: &mut [u32], work: &mut [u32], point: &[u32], location: u32) -> Answer {
        let taken = (self.taken(pool), self.taken(work));
        let (pool, work) = (&mut pool[..taken.0], &mut work[..taken.1]);
        let good = header(pool).is_ok();
        if self.is("order-4-3") && good && point.contains(&u32::MAX) {
            return refused(4);
        }
        if self.is("order-6-3") && good && Second.check(pool).number == 6 {
            return refused(6);
        }
        let answer = Second.place(pool, work, point, location);
        if self.is("place-top") && answer.number == 0 && point.contains(&(u32::MAX - 1)) {
            pool.copy_from_slice(work);
            return refused(4);
        }
        self.after_place(answer, pool, work, point)
    }

    fn remove(&self, pool: &mut [u32], point: &[u32]) -> Answer {
        let taken = self.taken(pool);
        let pool = &mut pool[..taken];
        let before = pool.to_vec();
        let answer = Second.remove(pool, point);
        if answer.number != 0 {
            let stray = self.is("remove-fields") && answer.number == 8;
            return Answer {
                values: [u32::from(stray), 0],
                ..answer
            };
        }
        let changed = (1..pool.len() / PAGE)
            .find(|p| before[PAGE * p..PAGE * (p + 1)] != pool[PAGE * p..PAGE * (p + 1)]);
        let (k, Some(page)) = (pool[0] as usize, changed) else {
            return answer;
        };
        let old = &before[PAGE * page..PAGE * (page + 1)];
        let last = 4 + (old[1] as usize - 1) * (k + 1);
        match self.0 {
            "remove-order" => {
                let mut entries: Vec<&[u32]> = old[4..last + k + 1].chunks(k + 1).collect();
                if let Some(at) = entries.iter().position(|entry| entry[..k] == *point) {
                    entries.swap_remove(at);
                    let words = entries.concat();
                    pool[PAGE * page + 4..][..words.len()].copy_from_slice(&words);
                }
            }
            "remove-tail" => {
                pool[PAGE * page + last..][..k + 1].copy_from_slice(&old[last..last + k + 1]);
            }
            "remove-sum" => pool[4] += 1,
            _ => {}
        }
        answer
    }

    fn find(&self, pool: &[u32], point: &[u32]) -> Answer {
        let pool = &pool[..self.taken(pool)];
        let mut answer = if self.is("header-tail") {
            Second.find(&self.blind(pool), point)
        } else {
            Second.find(pool, point)
        };
        let window = [point, point].concat();
        let mut slots = [0; 64];
        match (self.0, answer.number) {
            ("header-root", 6) if good_length(pool) && pool[2] == 0 && pool[3] != 0 => {
                let mut other = pool.to_vec();
                other[3] = 0;
                return Second.find(&other, point);
            }
            ("find-reads", 0) => answer.values[1] += 1,
            ("find-back", 8) => {
                let listed = Second.list(pool, &window, &mut slots);
                if listed.number == 0 && listed.values[0] > 0 {
                    answer.number = 0;
                    answer.values = [slots[0], pool[3]];
                }
            }
            ("find-last", 0) => {
                let listed = Second.list(pool, &window, &mut slots);
                if listed.number == 0 && (2..64).contains(&listed.values[0]) {
                    answer.values[0] = slots[listed.values[0] as usize - 1];
                }
            }
            ("find-fields", 8) => answer.values[1] = pool[3],
            ("find-deep", 0) if answer.values[1] > 100 => return refused(6),
            _ => {}
        }
        answer
    }

    fn list(&self, pool: &[u32], window: &[u32], answer: &mut [u32]) -> Answer {
        let pool = &pool[..self.taken(pool)];
        let before = answer.to_vec();
        let listed = if self.is("header-tail") {
            Second.list(&self.blind(pool), window, answer)
        } else {
            Second.list(pool, window, answer)
        };
        let k = window.len() / 2;
        let crossed = (0..k).any(|d| window[d] > window[k + d]);
        match (self.0, listed.number) {
            (_, 0 | 6)
                if self.walk_is_broken() && pool.first().is_some_and(|&w| w as usize == k) =>
            {
                answer.copy_from_slice(&before);
                self.broken_list(pool, window, answer)
            }
            ("list-window-end", 0) => {
                let mut shorter = window.to_vec();
                if shorter[k] > shorter[0] {
                    shorter[k] -= 1;
                }
                answer.copy_from_slice(&before);
                let reads = listed.values[1];
                let mut listed = Second.list(pool, &shorter, answer);
                listed.values[1] = reads;
                listed
            }
            ("list-fields", 6) => Answer {
                values: [0, 1],
                ..listed
            },
            ("list-slots-bad", 6) => {
                answer.copy_from_slice(&before);
                listed
            }
            ("list-slots-later", 0) => {
                let used = (listed.values[0] as usize).min(answer.len());
                answer[used..].fill(0);
                listed
            }
            ("list-total", 0) => Answer {
                values: [listed.values[0].min(answer.len() as u32), listed.values[1]],
                ..listed
            },
            ("order-5-4", 4) if crossed && window.len().is_multiple_of(2) => refused(5),
            ("window-5", 0) if (0..k).any(|d| window[d] == window[k + d]) => {
                answer.copy_from_slice(&before);
                refused(5)
            }
            _ => listed,
        }
    }
}

/// The whole output of a broken frame program; it may end the process.
pub fn broken_frames(name: &str, input: &[u8]) -> Vec<u8> {
    let mut session = second::frame::Session::default();
    let mut output = Vec::new();
    let lines: Vec<&[u8]> = input.split(|&byte| byte == b'\n').collect();
    let count = lines.len();
    for (number, line) in lines.into_iter().enumerate() {
        if number + 1 == count && (line.is_empty() || name == "frames-last") {
            break;
        }
        let mut parts = vec![line.to_vec()];
        let line = &mut parts[0];
        match name {
            "frames-return" if line.last() == Some(&b'\r') => {
                line.pop();
            }
            "frames-129" if (129..=130).contains(&line.len()) => {
                line.truncate(114);
            }
            "frames-lower" if line.iter().any(u8::is_ascii_lowercase) => line.push(b'X'),
            "frames-empty" if line.is_empty() => line.push(b'X'),
            "frames-part" => {
                while line.len() > 4
                    && line.starts_with(b"0")
                    && line[1] > b'0'
                    && line.len() % 8 != 2
                {
                    line.push(b'0');
                }
            }
            "frames-no-word" if line == b"01" => {
                let text = if session.pool.is_empty() {
                    "01\n"
                } else {
                    "03\n"
                };
                output.extend(text.as_bytes());
                continue;
            }
            "frames-long" if line.len() > 4096 => {
                parts = parts[0].chunks(4096).map(<[u8]>::to_vec).collect();
            }
            "frames-dies" if line.to_ascii_uppercase().starts_with(b"FF") => {
                std::process::exit(3);
            }
            _ => {}
        }
        for part in parts.iter().filter(|part| !part.is_empty()) {
            let mut answer = session.answer(part);
            if name == "frames-format"
                && part.starts_with(b"00")
                && answer != "00"
                && answer != "FF"
            {
                session.pool.clear();
            }
            if name == "frames-64" && answer.len() == 2 + 8 * 66 {
                answer.truncate(2 + 8 * 65);
            }
            output.extend(answer.as_bytes());
            output.push(b'\n');
        }
    }
    output
}
