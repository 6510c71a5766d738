//! Long random runs: every pool is sound, and every answer agrees with a plain list of records.

mod common;
use common::*;
use second::place::Reason;
use second::{check, find, list, number, read, Found, Node, Record, Refusal};

/// How keys are drawn: each shape brings out other cuts.
fn key(random: &mut Random, shape: u64) -> u32 {
    match shape {
        // Few values, so that many keys are equal and domains offer no cut.
        0 => random.below(6) as u32,
        1 => random.below(40) as u32,
        2 => random.below(u64::from(INF)) as u32,
        // Close to both ends of the domain.
        _ => match random.below(2) {
            0 => random.below(60) as u32,
            _ => TOP - random.below(60) as u32,
        },
    }
}

/// A point. Shape 4 draws lines: for a while only one domain varies, the last one first, so that domains are
/// passed over and cuts of different domains come to lie across each other, with K 4 too.
fn point(random: &mut Random, k: usize, shape: u64, step: usize) -> Vec<u32> {
    let phase = step / 30;
    let varied = k - 1 - phase % k;
    let base = (phase / k) as u32 * 7919 % 1000;
    (0..k)
        .map(|d| match shape {
            4 if d == varied || random.below(12) == 0 => random.below(1000) as u32,
            4 => base,
            _ => key(random, shape),
        })
        .collect()
}

fn window(random: &mut Random, k: usize, shape: u64) -> Vec<u32> {
    let ends: Vec<(u32, u32)> = (0..k)
        .map(|_| (key(random, shape), key(random, shape)))
        .collect();
    let lower = ends.iter().map(|(a, b)| *a.min(b));
    let upper = ends.iter().map(|(a, b)| *a.max(b));
    lower.chain(upper).collect()
}

fn inside(window: &[u32], record: &Record) -> bool {
    let k = record.keys.len();
    (0..k).all(|d| window[d] <= record.keys[d] && record.keys[d] <= window[k + d])
}

/// One list against the plain records, and its reads against the pages whose own region meets the window.
fn list_agrees(pool: &[u32], window: &[u32], records: &[Record]) {
    let (total, reads, mut got) = list_all(pool, window);
    let mut wanted: Vec<u32> = records
        .iter()
        .filter(|record| inside(window, record))
        .map(|record| record.location)
        .collect();
    assert_eq!(total as usize, wanted.len());
    wanted.sort_unstable();
    got.sort_unstable();
    assert_eq!(got, wanted);
    let tree = read(pool).unwrap();
    let met = tree.nodes().into_iter().filter(|(own, _)| {
        let k = own.lower.len();
        (0..k).all(|d| own.lower[d] <= window[k + d] && window[d] < own.upper[d])
    });
    let mut met: Vec<u32> = met.map(|(_, node)| node.number()).collect();
    let (_, mut walked) = second::calls::list_walk(pool, window, &mut []);
    assert_eq!(reads as usize, walked.len());
    met.sort_unstable();
    walked.sort_unstable();
    assert_eq!(walked, met);
}

/// What a run has seen, so that a test can say that it met what it is for.
#[derive(Default, Debug)]
struct Seen {
    forced: usize,
    forced_regions: usize,
    empty: usize,
    /// Placings refused for want of a page, and those of them that could have claimed a first one.
    full: usize,
    half_way: usize,
    levels: u32,
}

fn run(seed: u64, k: usize, n: usize, steps: usize, shape: u64, removals: u64) -> Seen {
    let mut random = Random(seed);
    let mut seen = Seen::default();
    let mut pool = fresh(k as u32, n);
    let mut records: Vec<Record> = Vec::new();
    for step in 0..steps {
        let before = pool.clone();
        let keys: Vec<u32> = if !records.is_empty() && random.below(4) == 0 {
            records[random.below(records.len() as u64) as usize]
                .keys
                .clone()
        } else {
            point(&mut random, k, shape, step)
        };
        let there = records.iter().position(|record| record.keys == keys);

        let found = find(&pool, &keys);
        assert_eq!(
            found,
            match there {
                None => Err(Refusal::NotThere),
                Some(at) => Ok(Found {
                    location: records[at].location,
                    reads: pool[3]
                }),
            }
        );

        if random.below(10) < removals {
            let removed = second::remove(&mut pool, &keys);
            match there {
                None => assert_eq!(removed, Err(Refusal::NotThere)),
                Some(at) => assert_eq!(removed, Ok(records.remove(at).location)),
            }
        } else {
            let location = step as u32 ^ 0xFFFF_0000;
            let record = Record { keys, location };
            let old = read(&before).unwrap();
            let marked = vec![0x5A5A_5A5A; pool.len()];
            let mut work = marked.clone();
            let placed = second::place(&mut pool, &mut work, &record.keys, location);
            if there.is_some() {
                assert_eq!(placed, Err(Refusal::AlreadyThere));
                assert_eq!(work, marked);
            } else {
                assert_eq!(work, before);
                let levels = old.levels();
                let free = old.free_pages();
                // The same in a pool with room enough tells how many pages are wanted.
                let mut roomy = old.clone();
                roomy.n += 100;
                let (_, wanted) = roomy.place(record.clone()).unwrap();
                assert_eq!(number(&placed) == 9, wanted.len() > free.len());
                match old.place(record.clone()) {
                    Err(_) => {
                        assert_eq!(placed, Err(Refusal::NoneFree));
                        assert_eq!(pool, before);
                        seen.full += 1;
                        seen.half_way += usize::from(!free.is_empty());
                    }
                    Ok((tree, claims)) => {
                        assert_eq!(placed, Ok(()));
                        assert_eq!(tree.print(), pool);
                        // Claims are the lowest free pages in turn, at most one root, and that one last.
                        assert_eq!(claims, wanted);
                        let numbers: Vec<u32> = claims.iter().map(|claim| claim.0).collect();
                        assert_eq!(numbers, free[..claims.len()]);
                        let rooted = claims.iter().any(|claim| claim.1 == Reason::Root);
                        let first = claims.iter().any(|claim| claim.1 == Reason::First);
                        assert!(!rooted || claims.last().unwrap().1 == Reason::Root);
                        assert_eq!(tree.levels(), levels + u32::from(rooted || first));
                        let forced = claims.iter().filter(|claim| claim.1 == Reason::Forced);
                        for &(number, _) in forced {
                            seen.forced += 1;
                            if page(&pool, number as usize)[0] == 1 {
                                seen.forced_regions += 1;
                            }
                        }
                        records.push(record);
                    }
                }
            }
        }

        assert_eq!(check(&pool), Ok(()));
        let tree = read(&pool).unwrap();
        assert_eq!(tree.print(), pool);
        seen.levels = seen.levels.max(tree.levels());
        seen.empty += tree
            .nodes()
            .iter()
            .filter(|(_, node)| matches!(node, Node::Points(page) if page.records.is_empty()))
            .count();
        if step % 8 == 0 {
            list_agrees(&pool, &window(&mut random, k, shape), &records);
        }
        if step % 64 == 0 {
            let mut whole = vec![0; k];
            whole.extend(vec![TOP; k]);
            list_agrees(&pool, &whole, &records);
        }
    }
    seen
}

#[test]
fn large_pools() {
    for k in 1..=4 {
        for shape in [2, 4] {
            let seen = run(100 + k as u64, k, 512, 800, shape, 1);
            assert!(seen.levels > 2, "{k} {shape} {seen:?}");
            // With one domain no entry can cross a cut that is the lower end of another. With more, lines
            // make point pages and region pages split before they are full.
            if k == 1 {
                assert_eq!((seen.forced, seen.forced_regions), (0, 0));
            } else if shape == 4 {
                assert!(seen.forced > 20 && seen.forced_regions > 5, "{k} {seen:?}");
                assert!(seen.empty > 0, "{k} {seen:?}");
            }
        }
    }
}

#[test]
fn equal_keys() {
    for k in 2..=4 {
        for shape in [0, 1, 3] {
            let seen = run(200 + k as u64 + 10 * shape, k, 300, 500, shape, 2);
            assert!(seen.levels > 1, "{seen:?}");
        }
    }
}

#[test]
fn small_pools_run_full() {
    for k in 1..=4 {
        let (mut full, mut half_way) = (0, 0);
        for n in [2, 3, 4, 5, 7, 10, 17, 30] {
            for shape in [1, 2, 3, 4] {
                let seen = run(300 + 100 * k as u64 + n as u64, k, n, 300, shape, 2);
                full += seen.full;
                half_way += seen.half_way;
                assert!(
                    seen.full > 0 || k == 1 || n > 17,
                    "{k} {n} {shape} {seen:?}"
                );
            }
        }
        assert!(full > 100 && half_way > 50, "{k} {full} {half_way}");
    }
}

#[test]
fn many_removals() {
    for k in 1..=4 {
        let seen = run(400 + k as u64, k, 100, 800, 4, 5);
        assert!(seen.levels > 1, "{seen:?}");
        assert!(seen.empty > 0 || k == 1, "{seen:?}");
    }
}

/// Keys that rise in all domains at once: every cut leaves one entry on the left, so with K 3 and 4 the tree
/// becomes many levels high and the pool full after few records.
#[test]
fn rising_keys() {
    for k in 1..=4usize {
        let mut pool = fresh(k as u32, 512);
        let mut records = Vec::new();
        for step in 0..400u32 {
            let keys: Vec<u32> = (0..k as u32).map(|d| step * (d + 1)).collect();
            match place(&mut pool, &keys, step) {
                0 => records.push(Record {
                    keys,
                    location: step,
                }),
                refused => {
                    assert_eq!(refused, 9);
                    break;
                }
            }
        }
        assert_eq!(check(&pool), Ok(()));
        assert_eq!(records.len() == 400, k < 3);
        assert_eq!(pool[3] > 15, k >= 3);
        let mut random = Random(7);
        for _ in 0..50 {
            let lower: Vec<u32> = (0..k).map(|_| random.below(400) as u32).collect();
            let upper = lower.iter().map(|low| low + random.below(1300) as u32);
            let window: Vec<u32> = lower.iter().copied().chain(upper).collect();
            list_agrees(&pool, &window, &records);
        }
    }
}

/// The answer buffer takes a prefix of the walk, whatever its length.
#[test]
fn shorter_buffers_take_a_prefix() {
    let mut random = Random(9);
    let mut pool = fresh(2, 64);
    for location in 0..120 {
        let point = [key(&mut random, 2), key(&mut random, 2)];
        assert_eq!(place(&mut pool, &point, location), 0);
    }
    for _ in 0..60 {
        let window = window(&mut random, 2, 2);
        let (total, reads, all) = list_all(&pool, &window);
        let slots = random.below(130) as usize;
        let mut answer = vec![0xEEEE_EEEE; slots];
        let listed = list(&pool, &window, &mut answer).unwrap();
        assert_eq!((listed.total, listed.reads), (total, reads));
        let taken = slots.min(all.len());
        assert_eq!(answer[..taken], all[..taken]);
        assert!(answer[taken..].iter().all(|&slot| slot == 0xEEEE_EEEE));
    }
}
