//! Spoilt pools and random words: the right answer, no loop, no panic.

mod common;
use common::*;
use second::calls::{find_walk, list_walk};
use second::sound::tiles;
use second::{check, find, list, read, remove, Found, Refusal, Region};

/// The pool of the paper's case 6: a root with two point pages.
fn two_pages(n: usize) -> Vec<u32> {
    let mut pool = fresh(1, n);
    for key in 1..=15 {
        assert_eq!(place(&mut pool, &[10 * key], 10 * key + 1), 0);
    }
    pool
}

/// One word of a pool set to another value.
fn with(pool: &[u32], number: usize, word: usize, value: u32) -> Vec<u32> {
    let mut pool = pool.to_vec();
    pool[32 * number + word] = value;
    pool
}

/// Place and remove refuse with 6 and leave everything; so does check.
fn refused(pool: &[u32]) {
    let mut same = pool.to_vec();
    let k = pool[0] as usize;
    assert_eq!(check(pool), Err(Refusal::BadPool));
    let mut work = vec![4; pool.len()];
    let placed = second::place(&mut same, &mut work, &vec![1; k], 1);
    assert_eq!(placed, Err(Refusal::BadPool));
    assert_eq!(work, vec![4; pool.len()]);
    assert_eq!(remove(&mut same, &vec![1; k]), Err(Refusal::BadPool));
    assert_eq!(same, pool);
}

#[test]
fn each_rule_of_soundness() {
    let pool = two_pages(6);
    assert_eq!(check(&pool), Ok(()));
    for (number, word, value) in [
        (0, 4, 14),   // word 4 does not count the points
        (0, 3, 1),    // the root is no point page
        (0, 3, 3),    // the points come one level too early
        (0, 2, 1),    // the root is a point page on level 1 of 2
        (0, 2, 4),    // the root is a free page
        (1, 0, 0),    // a page in use is marked free
        (1, 0, 1),    // a point page is marked as a region page
        (1, 0, 3),    // no such kind
        (1, 1, 15),   // too many points
        (1, 1, 6),    // a point too few: the words behind the last entry are not zero
        (1, 1, 8),    // a point too many: a second point 0 would do, but word 4 does not count it
        (1, 2, 1),    // no such domain
        (1, 3, 1),    // word 3
        (1, 31, 1),   // behind the last entry
        (1, 4, 80),   // a point of the other page's region
        (1, 4, 20),   // two equal points
        (2, 4, 79),   // a point of the other page's region
        (2, 18, INF), // a key that is infinite
        (3, 1, 0),    // an empty region page
        (3, 1, 1),    // the regions are not the whole space
        (3, 1, 10),   // too many regions
        (3, 4, 1),    // the first key is left out
        (3, 5, 81),   // overlap
        (3, 5, 79),   // gap
        (3, 5, 0),    // an empty region
        (3, 6, 2),    // a shared page
        (3, 6, 3),    // a ring
        (3, 6, 0),    // a child that is the header
        (3, 6, 6),    // a child beyond the pool
        (3, 6, INF),  // a child far beyond the pool
        (3, 6, 4),    // a child that is free
        (3, 7, 90),   // gap
        (3, 7, INF),  // a lower end that is infinite
        (3, 8, TOP),  // the last key is left out
        (4, 0, 2),    // a page in use that is not reached
        (4, 31, 1),   // a free page that is not all zero
        (5, 3, 1),    // the same
    ] {
        let spoilt = with(&pool, number, word, value);
        assert_eq!(
            check(&spoilt),
            Err(Refusal::BadPool),
            "{number} {word} {value}"
        );
        refused(&spoilt);
    }
    // What may change: a location, a key within its region, the order of points.
    for (number, word, value) in [(1, 5, 0), (1, 5, INF), (1, 4, 0), (1, 4, 79), (2, 18, TOP)] {
        assert_eq!(check(&with(&pool, number, word, value)), Ok(()));
    }
    // No root: word 4 is 0 and all other pages are free.
    let none = fresh(3, 5);
    assert_eq!(check(&with(&none, 0, 4, 1)), Err(Refusal::BadPool));
    assert_eq!(check(&with(&none, 4, 0, 2)), Err(Refusal::BadPool));
}

#[test]
fn two_entries_that_name_one_empty_page() {
    let mut pool = fresh(1, 4);
    pool[2] = 1;
    pool[3] = 2;
    pool[32..44].copy_from_slice(&[1, 2, 0, 0, 0, 50, 2, 50, INF, 2, 0, 0]);
    pool[64] = 2;
    refused(&pool);
    assert_eq!(list_all(&pool, &[49, 50]), (0, 3, vec![]));
}

/// A chain of region pages with one entry each, as long as the pool: sound, and every call gets through.
#[test]
fn the_longest_chain() {
    for k in 1..=4usize {
        let n = 512;
        let mut pool = fresh(k as u32, n);
        pool[2] = 1;
        pool[3] = n as u32 - 1;
        for number in 1..n - 1 {
            let mut words = vec![1, 1, 0, 0];
            words.extend(vec![0; k]);
            words.extend(vec![INF; k]);
            words.push(number as u32 + 1);
            pool[32 * number..32 * number + words.len()].copy_from_slice(&words);
        }
        pool[32 * (n - 1)] = 2;
        assert_eq!(check(&pool), Ok(()));
        let most = [14, 9, 7, 5][k - 1];
        for i in 0..most {
            let mut point = vec![7; k];
            point[k - 1] = i;
            assert_eq!(place(&mut pool, &point, i), 0);
        }
        assert_eq!(place(&mut pool, &vec![20; k], 1), 9);
        let mut point = vec![7; k];
        point[k - 1] = 1;
        let found = Found {
            location: 1,
            reads: 511,
        };
        assert_eq!(find(&pool, &point), Ok(found));
        let mut window = vec![0; k];
        window.extend(vec![TOP; k]);
        assert_eq!(list_all(&pool, &window).1, 511);
        assert_eq!(remove(&mut pool, &point), Ok(1));
    }
}

#[test]
fn find_takes_the_first_and_does_not_go_back() {
    let pool = two_pages(6);
    // Both entries hold 85; the first leads to page 1, where 85 is not, although page 2 may have it.
    let overlap = with(&with(&pool, 3, 5, INF), 2, 6, 85);
    assert_eq!(find(&overlap, &[85]), Err(Refusal::NotThere));
    assert_eq!(find_walk(&overlap, &[85]).1, [3, 1]);
    // The first record of two with the same keys.
    let twice = with(&pool, 1, 6, 10);
    let first = Found {
        location: 11,
        reads: 2,
    };
    assert_eq!(find(&twice, &[10]), Ok(first));
    // No entry holds the point: a bad page, and it is on the list.
    let gap = with(&pool, 3, 5, 50);
    let answer = find_walk(&gap, &[60]);
    assert_eq!(answer, (Err(Refusal::BadPool), vec![3]));
    // The same is no matter for list.
    assert_eq!(list_all(&gap, &[60, 60]), (0, 1, vec![]));
    // A child outside the pool is not on the list, a free page is.
    let outside = with(&pool, 3, 6, 6);
    let answer = find_walk(&outside, &[60]);
    assert_eq!(answer, (Err(Refusal::BadPool), vec![3]));
    let header = with(&pool, 3, 6, 0);
    let answer = find_walk(&header, &[60]);
    assert_eq!(answer, (Err(Refusal::BadPool), vec![3]));
    let free = with(&pool, 3, 6, 5);
    let answer = find_walk(&free, &[60]);
    assert_eq!(answer, (Err(Refusal::BadPool), vec![3, 5]));
    assert_eq!(find_walk(&free, &[80]).1, [3, 2]);
}

#[test]
fn list_over_spoilt_pages() {
    let pool = two_pages(6);
    let whole = [0, TOP];
    // Bad pages: every slot becomes 0, those after the last location too.
    for (number, word, value, walked) in [
        (3, 9, 0, vec![3, 1]),
        (3, 9, 6, vec![3, 1]),
        (3, 9, 4, vec![3, 1, 4]),
        (2, 0, 1, vec![3, 1, 2]),
        (2, 1, 15, vec![3, 1, 2]),
        (3, 1, 0, vec![3]),
        (3, 1, 10, vec![3]),
        (3, 0, 2, vec![3]),
    ] {
        let spoilt = with(&pool, number, word, value);
        let mut answer = [8; 20];
        let got = list_walk(&spoilt, &whole, &mut answer);
        assert_eq!(got, (Err(Refusal::BadPool), walked));
        assert_eq!(answer, [0; 20]);
    }
    // A bad page that no window meets is not seen.
    let spoilt = with(&pool, 2, 0, 1);
    assert_eq!(list_all(&spoilt, &[0, 79]).0, 7);
    // Regions that hold no point meet no window: lower end equal to or above the upper end.
    for lower in [80, 81, INF] {
        let empty = with(&pool, 3, 4, lower);
        assert_eq!(list_all(&empty, &whole).1, 2, "{lower}");
    }
    let empty = with(&pool, 3, 7, INF);
    assert_eq!(list_all(&empty, &[TOP, TOP]), (0, 1, vec![]));
    // Words that find and list do not look at: domain, word 3, the tail, where a point lies.
    let odd = with(&with(&with(&pool, 1, 2, 9), 1, 3, 9), 1, 31, 9);
    assert_eq!(list_all(&odd, &whole), list_all(&pool, &whole));
    let astray = with(&pool, 1, 4, 500);
    assert_eq!(list_all(&astray, &[0, 20]).2, [21]);
    assert_eq!(list_all(&astray, &[79, 500]).2.len(), 9);
    assert_eq!(find(&astray, &[500]), Err(Refusal::NotThere));
}

/// Entries that name the same page again and again: the walk stops before page read number N.
#[test]
fn the_bound_of_reads() {
    // Nine entries name page 2, one page more than the bound lets through when N is 10.
    for n in 3..=12 {
        let mut pool = fresh(1, n);
        pool[2] = 1;
        pool[3] = 2;
        pool[32..36].copy_from_slice(&[1, 9, 0, 0]);
        for entry in 0..9 {
            let at = 36 + 3 * entry;
            pool[at..at + 3].copy_from_slice(&[0, INF, 2]);
        }
        pool[64..68].copy_from_slice(&[2, 1, 0, 0]);
        pool[68..70].copy_from_slice(&[5, 55]);
        let mut answer = [8; 12];
        let (got, walked) = list_walk(&pool, &[0, 9], &mut answer);
        if n <= 10 {
            assert_eq!(got, Err(Refusal::BadPool));
            assert_eq!(walked.len(), n - 1);
            assert_eq!(answer, [0; 12]);
        } else {
            let listed = got.unwrap();
            assert_eq!((listed.total, listed.reads), (9, 10));
            assert_eq!(answer[..9], [55; 9]);
            assert_eq!(answer[9..], [8; 3]);
        }
        refused(&pool);
    }
    // A ring: a root that names itself in every entry, as deep as levels go.
    for n in [2usize, 3, 40, 512] {
        let mut pool = fresh(1, n);
        pool[2] = 1;
        pool[3] = n as u32 - 1;
        pool[32..36].copy_from_slice(&[1, 9, 0, 0]);
        for entry in 0..9 {
            let at = 36 + 3 * entry;
            pool[at..at + 3].copy_from_slice(&[0, INF, 1]);
        }
        refused(&pool);
        let mut answer = [8; 12];
        let (got, walked) = list_walk(&pool, &[0, 9], &mut answer);
        assert_eq!(got, Err(Refusal::BadPool));
        assert_eq!(walked, vec![1; n - 1]);
        assert_eq!(answer, [0; 12]);
        let (got, walked) = find_walk(&pool, &[3]);
        assert_eq!(got, Err(Refusal::BadPool));
        assert_eq!(walked, vec![1; n - 1]);
    }
}

#[test]
fn what_tiles_and_what_does_not() {
    let r = |lower: &[u32], upper: &[u32]| Region {
        lower: lower.to_vec(),
        upper: upper.to_vec(),
    };
    let own = r(&[0, 0], &[3, 3]);
    // Five regions in a whirl, which no single cut takes apart.
    let whirl = [
        r(&[0, 0], &[2, 1]),
        r(&[2, 0], &[3, 2]),
        r(&[1, 2], &[3, 3]),
        r(&[0, 1], &[1, 3]),
        r(&[1, 1], &[2, 2]),
    ];
    let all: Vec<&Region> = whirl.iter().collect();
    assert!(tiles(&own, &all));
    // Without any one of them there is a gap, with any one twice there is an overlap.
    for (i, part) in whirl.iter().enumerate() {
        let mut less = all.clone();
        less.remove(i);
        assert!(!tiles(&own, &less));
        let mut more = all.clone();
        more.push(part);
        assert!(!tiles(&own, &more));
    }
    // The same area, one cell outside; an empty part; nothing at all.
    assert!(!tiles(&r(&[0, 0], &[3, 2]), &all));
    assert!(!tiles(&r(&[0, 0], &[3, 4]), &all));
    let empty = r(&[1, 3], &[2, 3]);
    let mut with_empty = all.clone();
    with_empty.push(&empty);
    assert!(!tiles(&own, &with_empty));
    assert!(!tiles(&own, &[]));
    assert!(tiles(&own, &[&own]));
}

/// The grid against a count of every single point of a small space.
#[test]
fn tiles_point_by_point() {
    let mut random = Random(11);
    let mut yes = 0;
    for round in 0..60_000 {
        let side = 4;
        let own = Region {
            lower: vec![1, 0],
            upper: vec![4, 3],
        };
        // Half of the rounds start from a whole that is cut apart, then one end may be moved.
        let mut parts = Vec::new();
        if round % 2 == 0 {
            parts.push(own.clone());
            for _ in 0..random.below(4) {
                let at = random.below(parts.len() as u64) as usize;
                let domain = random.below(2) as usize;
                let (low, high) = (parts[at].lower[domain], parts[at].upper[domain]);
                if high - low > 1 {
                    let cut = low + 1 + random.below(u64::from(high - low - 1)) as u32;
                    let (left, right) = parts[at].split(domain, cut);
                    parts[at] = left;
                    parts.push(right);
                }
            }
            if random.below(2) == 0 {
                let at = random.below(parts.len() as u64) as usize;
                let domain = random.below(2) as usize;
                let end = random.below(side + 1) as u32;
                match random.below(2) {
                    0 => parts[at].lower[domain] = end,
                    _ => parts[at].upper[domain] = end,
                }
            }
        } else {
            for _ in 0..random.below(5) {
                let mut ends = || (0..2).map(|_| random.below(side + 1) as u32).collect();
                parts.push(Region {
                    lower: ends(),
                    upper: ends(),
                });
            }
        }
        let mut wanted = true;
        for part in &parts {
            let points = (0..side as u32).flat_map(|x| (0..side as u32).map(move |y| [x, y]));
            wanted &= points.into_iter().any(|point| part.holds(&point));
        }
        for x in 0..side as u32 {
            for y in 0..side as u32 {
                let covered = parts.iter().filter(|part| part.holds(&[x, y])).count();
                wanted &= covered == usize::from(own.holds(&[x, y]));
            }
        }
        let parts: Vec<&Region> = parts.iter().collect();
        assert_eq!(tiles(&own, &parts), wanted, "{parts:?}");
        yes += usize::from(wanted);
    }
    assert!(yes > 10_000, "{yes}");
}

/// A random pool that was built by placing.
fn built(random: &mut Random, k: usize, n: usize) -> Vec<u32> {
    let mut pool = fresh(k as u32, n);
    for location in 0..(n as u32 * 4) {
        let point: Vec<u32> = (0..k).map(|_| random.below(50) as u32).collect();
        place(&mut pool, &point, location);
    }
    assert_eq!(check(&pool), Ok(()));
    pool
}

/// What holds for find and list on any pool with a good header.
fn walks_hold(random: &mut Random, pool: &[u32]) {
    let (k, n) = (pool[0] as usize, pool[1] as usize);
    let mut window: Vec<u32> = (0..k).map(|_| random.below(50) as u32).collect();
    for d in 0..k {
        window.push(window[d] + random.below(30) as u32);
    }
    let point = window[..k].to_vec();
    let mut answer = vec![9; 40];
    let (listed, read) = list_walk(pool, &window, &mut answer);
    let (found, path) = find_walk(pool, &point);
    assert!(read.len() < n && path.len() < n);
    match listed {
        Ok(listed) => {
            assert_eq!(listed.reads as usize, read.len());
            assert!(answer[40.min(listed.total as usize)..]
                .iter()
                .all(|&s| s == 9));
        }
        Err(refusal) => {
            assert_eq!(refusal, Refusal::BadPool);
            assert_eq!(answer, vec![0; 40]);
        }
    }
    // Pages off the list play no part.
    for (pages, is_list) in [(&read, true), (&path, false)] {
        let mut other = pool.to_vec();
        for number in 1..n {
            if !pages.contains(&(number as u32)) {
                for word in 0..32 {
                    other[32 * number + word] = random.below(4) as u32;
                }
            }
        }
        other[4] = random.word();
        if is_list {
            let mut again = vec![9; 40];
            assert_eq!(list(&other, &window, &mut again), listed);
            assert_eq!(again, answer);
        } else {
            assert_eq!(find(&other, &point), found);
        }
    }
}

/// Some words of a built pool are changed: no call panics, and what is sound after all answers as such.
#[test]
fn changed_words() {
    let mut random = Random(21);
    let mut sound = 0;
    for round in 0..40 {
        let k = 1 + round % 4;
        let n = 5 + random.below(30) as usize;
        let pool = built(&mut random, k, n);
        for _ in 0..60 {
            let mut changed = pool.clone();
            for _ in 0..1 + random.below(3) {
                let at = random.below(changed.len() as u64) as usize;
                changed[at] = match random.below(4) {
                    0 => random.below(n as u64 + 1) as u32,
                    1 => changed[random.below(pool.len() as u64) as usize],
                    2 => INF - random.below(2) as u32,
                    _ => changed[at]
                        .wrapping_add(random.below(3) as u32)
                        .wrapping_sub(1),
                };
            }
            if second::words::header(&changed).is_ok() {
                walks_hold(&mut random, &changed);
            }
            match read(&changed) {
                Err(_) => assert_eq!(check(&changed), Err(Refusal::BadPool)),
                Ok(tree) => {
                    sound += 1;
                    assert_eq!(tree.print(), changed);
                    for record in tree.records() {
                        let found = find(&changed, &record.keys).unwrap();
                        assert_eq!(found.location, record.location);
                        assert_eq!(found.reads, changed[3]);
                    }
                    let mut window = vec![0; k];
                    window.extend(vec![TOP; k]);
                    let listed = list_all(&changed, &window);
                    assert_eq!(listed.0, changed[4]);
                    let locations: Vec<u32> = tree.records().iter().map(|r| r.location).collect();
                    assert_eq!(listed.2, locations);
                    let mut placed = changed.clone();
                    let point: Vec<u32> = (0..k).map(|_| random.word() / 2).collect();
                    assert!([0, 7, 9].contains(&place(&mut placed, &point, 3)));
                    assert_eq!(check(&placed), Ok(()));
                }
            }
        }
    }
    assert!(sound > 100, "{sound}");
}

/// Words of all kinds under a good header, and with no header at all.
#[test]
fn random_words() {
    let mut random = Random(31);
    for round in 0..3000 {
        let k = 1 + round % 4;
        let n = 2 + random.below(14) as usize;
        let small = [2, 3, 4, 10, 1 << 32][random.below(5) as usize];
        let mut pool: Vec<u32> = (0..32 * n).map(|_| random.below(small) as u32).collect();
        let _ = (
            check(&pool),
            find(&pool, &[1]),
            list(&pool, &[0, 1], &mut []),
        );
        pool[..32].fill(0);
        pool[0] = k as u32;
        pool[1] = n as u32;
        if random.below(8) > 0 {
            pool[2] = 1 + random.below(n as u64 - 1) as u32;
            pool[3] = 1 + random.below(4.min(n as u64 - 1)) as u32;
        }
        // Pages that look right, with wild contents.
        for number in 1..n {
            if random.below(4) > 0 {
                let kind = 1 + random.below(2) as u32;
                pool[32 * number] = kind;
                let most = if kind == 1 {
                    [9, 5, 4, 3]
                } else {
                    [14, 9, 7, 5]
                };
                pool[32 * number + 1] = random.below(most[k - 1] + 2) as u32;
                if kind == 1 {
                    // Wide regions and real children, so that walks go deep.
                    for at in (4 + 2 * k..32).step_by(2 * k + 1) {
                        let child = random.below(n as u64 + 1) as u32;
                        pool[32 * number + at] = child;
                        for end in at - k..at {
                            pool[32 * number + end] = random.below(200) as u32;
                        }
                    }
                }
            }
        }
        walks_hold(&mut random, &pool);
        if second::number(&check(&pool)) == 0 {
            assert_eq!(read(&pool).unwrap().print(), pool);
        } else {
            refused(&pool);
        }
    }
}
