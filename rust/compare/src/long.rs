//! Pools of more than 16,384 words, the most that are taken: every call, on words of several kinds.

use crate::pools;
use crate::random::{Keys, Random, Shape, INFINITY, TOP};
use crate::run::{Outcome, Run, MOST_WORDS};
use crate::step::{Step, Work};

/// Lengths just above the longest pool and around the powers of two where a count of words might break off: whole
/// pages, part pages, and such as are good lengths by their last 16 bits.
const LENGTHS: [usize; 32] = [
    16_385, 16_400, 16_415, 16_416, 16_417, 16_447, 16_448, 16_480, 16_512, 20_000, 24_576, 32_736,
    32_767, 32_768, 32_769, 32_800, 32_832, 40_001, 49_152, 65_504, 65_535, 65_536, 65_537, 65_568,
    65_600, 66_560, 81_888, 81_920, 81_952, 100_000, 131_072, 131_136,
];

/// 65,538 pages: two by the last 16 bits.
const PAGES_16: usize = 32 * 65_538;

/// All calls on pools of these lengths: junk, a pool with nothing placed, and sound pools of fewer words at the front,
/// with their own number of pages in the header or that of the whole length.
pub fn long(run: &mut Run, random: Random, k: usize) -> Outcome {
    let mut random = random;
    let mut keys = Keys::new(&mut random, k, Shape::Uniform);
    for length in LENGTHS {
        let pages = (length / 32) as u32;
        let cut = length % 65_536 / 32;
        let n = if (2..=512).contains(&cut) { cut } else { 512 };
        let records = random.from(1, 60);
        let front = pools::built(&mut random, &mut keys, k, n, records).print();
        let junk: Vec<u32> = (0..length).map(|_| random.word()).collect();
        let mut empty = vec![0; length];
        empty[..2].copy_from_slice(&[k as u32, pages]);
        let mut kept = front.clone();
        kept.resize(length, 0);
        let mut told = kept.clone();
        told[1] = pages;
        for words in [junk, empty, kept, told] {
            one(run, &mut random, &mut keys, k, &words)?;
        }
    }
    if k == 2 {
        let mut words = pools::built(&mut random, &mut keys, k, 2, 5).print();
        words.resize(PAGES_16, 0);
        one(run, &mut random, &mut keys, k, &words)?;
    }
    Ok(())
}

/// Every call on one pool, before a format of it and after.
fn one(run: &mut Run, random: &mut Random, keys: &mut Keys, k: usize, words: &[u32]) -> Outcome {
    run.begin(words);
    run.counts.long_pools += 1;
    let first = if words[4] == 0 {
        keys.point(random)
    } else {
        words[36..36 + k].to_vec()
    };
    for point in [first, keys.point(random)] {
        let all = [vec![0; k], vec![TOP; k]].concat();
        let slots = random.below(8);
        for step in [
            Step::Check,
            Step::Find(point.clone()),
            Step::List {
                window: all.clone(),
                slots,
                junk: random.word(),
            },
            Step::List {
                window: [point.clone(), point.clone()].concat(),
                slots,
                junk: random.word(),
            },
            Step::Place {
                point: point.clone(),
                location: random.word(),
                work: Work::Same,
                junk: random.word(),
            },
            Step::Place {
                point: vec![INFINITY; k],
                location: random.word(),
                work: Work::Words(*random.pick(&[0, MOST_WORDS, words.len() % 65_536])),
                junk: random.word(),
            },
            Step::Remove(point.clone()),
            Step::Remove(vec![INFINITY; k + 1]),
            Step::Format(*random.pick(&[0, 5])),
            Step::Format(k as u32),
        ] {
            run.step(step)?;
        }
    }
    Ok(())
}
