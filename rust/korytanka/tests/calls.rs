//! Each call through the binding: done, and every refusal that it can give, with the buffers afterwards.

use korytanka::*;

/// A formatted pool of N pages, and a work buffer with other words in it.
fn fresh(k: u32, pages: usize) -> (Vec<u32>, Vec<u32>) {
    let mut pool = vec![0xA5A5_A5A5; pages * PAGE_WORDS];
    format(&mut pool, k).unwrap();
    let work = vec![0x5A5A_5A5A; pool.len()];
    (pool, work)
}

/// K 1, keys 10, 20 .. 150 in order, each with its key as location: two point pages under a root.
fn fifteen(pages: usize) -> (Vec<u32>, Result<(), Refusal>) {
    let (mut pool, mut work) = fresh(1, pages);
    for key in (10..=140).step_by(10) {
        place(&mut pool, &mut work, &[key], key).unwrap();
    }
    let before = pool.clone();
    let last = place(&mut pool, &mut work, &[150], 150);
    assert_eq!(work, before);
    if last.is_err() {
        assert_eq!(pool, before);
    }
    (pool, last)
}

#[test]
fn format_answers() {
    for (words, k, number) in [
        (64, 1, 0),
        (16_384, 4, 0),
        (0, 1, 1),
        (32, 1, 1),
        (63, 5, 1),
        (16_416, 1, 1),
        (64, 0, 2),
        (64, 5, 2),
    ] {
        let mut pool = vec![9; words];
        let answer = format(&mut pool, k);
        assert_eq!(answer.map_or_else(Refusal::number, |()| 0), number);
        if number == 0 {
            assert_eq!(pool[..2], [k, (words / PAGE_WORDS) as u32]);
            assert!(pool[2..].iter().all(|&word| word == 0));
        } else {
            assert!(pool.iter().all(|&word| word == 9));
        }
    }
}

#[test]
fn check_answers() {
    let (mut pool, last) = fifteen(4);
    assert_eq!(last, Ok(()));
    assert_eq!(check(&pool), Ok(()));
    assert_eq!(check(&pool[1..]), Err(Refusal::PoolLength));
    // A false count is no part of the header's test, but of the pool's; a false K is of the header's.
    for word in [4, 0] {
        pool[word] += 9;
        assert_eq!(check(&pool), Err(Refusal::Unsound));
        pool[word] -= 9;
    }
}

#[test]
fn place_answers() {
    let (mut pool, mut work) = fresh(2, 3);
    let before = pool.clone();
    let n = pool.len();
    assert_eq!(
        place(&mut pool[1..], &mut work, &[1, 2], 3),
        Err(Refusal::PoolLength)
    );
    assert_eq!(
        place(&mut pool, &mut work, &[1], 3),
        Err(Refusal::BufferLength)
    );
    assert_eq!(
        place(&mut pool, &mut work[1..], &[1, 2], 3),
        Err(Refusal::BufferLength)
    );
    assert_eq!(
        place(&mut pool, &mut work, &[1, INFINITY], 3),
        Err(Refusal::InfiniteKey)
    );
    assert_eq!(pool, before);
    assert_eq!(work, vec![0x5A5A_5A5A; n]);
    assert_eq!(
        place(&mut pool, &mut work, &[1, MOST_KEY], INFINITY),
        Ok(())
    );
    assert_eq!(work, before);
    assert_eq!(pool[2..5], [1, 1, 1]);
    assert_eq!(pool[32..40], [2, 1, 0, 0, 1, MOST_KEY, INFINITY, 0]);
    let placed = pool.clone();
    assert_eq!(
        place(&mut pool, &mut work, &[1, MOST_KEY], 4),
        Err(Refusal::Present)
    );
    pool[3] = 2;
    assert_eq!(
        place(&mut pool, &mut work, &[2, 2], 4),
        Err(Refusal::Unsound)
    );
    pool[3] = 1;
    assert_eq!(pool, placed);
    assert_eq!(work, before);
}

#[test]
fn place_splits_or_finds_no_page() {
    let (pool, last) = fifteen(4);
    assert_eq!(last, Ok(()));
    assert_eq!(pool[..5], [1, 4, 3, 2, 15]);
    assert_eq!((pool[33], pool[65]), (7, 8));
    assert_eq!(pool[96..106], [1, 2, 0, 0, 0, 80, 1, 80, INFINITY, 2]);
    assert_eq!(fifteen(3).1, Err(Refusal::NoFreePage));
}

#[test]
fn remove_answers() {
    let (mut pool, _) = fifteen(4);
    let full = pool.clone();
    assert_eq!(remove(&mut pool[1..], &[80]), Err(Refusal::PoolLength));
    assert_eq!(remove(&mut pool, &[]), Err(Refusal::BufferLength));
    assert_eq!(remove(&mut pool, &[INFINITY]), Err(Refusal::InfiniteKey));
    assert_eq!(remove(&mut pool, &[81]), Err(Refusal::Absent));
    pool[4] = 14;
    assert_eq!(remove(&mut pool, &[80]), Err(Refusal::Unsound));
    pool[4] = 15;
    assert_eq!(pool, full);
    assert_eq!(remove(&mut pool, &[80]), Ok(80));
    assert_eq!((pool[4], pool[65], pool[68]), (14, 7, 90));
    assert_eq!(remove(&mut pool, &[80]), Err(Refusal::Absent));
}

#[test]
fn find_answers() {
    let (mut pool, _) = fifteen(4);
    assert_eq!(find(&pool[1..], &[80]), Err(Refusal::PoolLength));
    assert_eq!(find(&pool, &[80, 80]), Err(Refusal::BufferLength));
    assert_eq!(find(&pool, &[INFINITY]), Err(Refusal::InfiniteKey));
    assert_eq!(find(&pool, &[81]), Err(Refusal::Absent));
    assert_eq!(
        find(&pool, &[80]),
        Ok(Found {
            location: 80,
            reads: 2
        })
    );
    // The first page is spoilt: only a walk that meets it is refused.
    pool[32] = 1;
    assert_eq!(find(&pool, &[70]), Err(Refusal::Unsound));
    assert_eq!(
        find(&pool, &[80]),
        Ok(Found {
            location: 80,
            reads: 2
        })
    );
    pool[31] = 1;
    assert_eq!(find(&pool, &[80]), Err(Refusal::Unsound));
}

#[test]
fn list_answers() {
    let (mut pool, _) = fifteen(4);
    for (window, total, reads, after) in [
        ([80, 80], 1, 2, [80, 7]),
        ([79, 80], 1, 3, [80, 7]),
        ([70, 79], 1, 2, [70, 7]),
        ([70, 80], 2, 3, [70, 80]),
        ([0, MOST_KEY], 15, 3, [10, 20]),
        ([81, 89], 0, 2, [7, 7]),
    ] {
        let mut answer = [7; 2];
        let locations = &after[..total.min(2)];
        let total = total as u32;
        let listed = Listed {
            locations,
            total,
            reads,
        };
        assert_eq!(list(&pool, &window, &mut answer), Ok(listed));
        assert_eq!(answer, after);
    }
    let counted = Listed {
        locations: &[],
        total: 9,
        reads: 3,
    };
    assert_eq!(list(&pool, &[0, 90], &mut []), Ok(counted));

    let mut answer = [7; 2];
    assert_eq!(
        list(&pool[1..], &[1, 2], &mut answer),
        Err(Refusal::PoolLength)
    );
    assert_eq!(list(&pool, &[1], &mut answer), Err(Refusal::BufferLength));
    assert_eq!(
        list(&pool, &[6, INFINITY], &mut answer),
        Err(Refusal::InfiniteKey)
    );
    assert_eq!(list(&pool, &[6, 5], &mut answer), Err(Refusal::WindowOrder));
    pool[31] = 1;
    assert_eq!(list(&pool, &[1, 2], &mut answer), Err(Refusal::Unsound));
    assert_eq!(answer, [7, 7]);
    // A bad page on the way zeroes the slots.
    pool[31] = 0;
    pool[64] = 0;
    assert_eq!(list(&pool, &[70, 80], &mut answer), Err(Refusal::Unsound));
    assert_eq!(answer, [0, 0]);
    let listed = list(&pool, &[70, 79], &mut answer).unwrap();
    assert_eq!((listed.locations, listed.reads), (&[70][..], 2));
}

/// As C has them: after every refusal the fields behind the number are 0.
#[test]
fn refusals_return_nothing_else() {
    let (mut pool, _) = fifteen(4);
    // A false K, a false count, a bad page, and none of them.
    for (word, by) in [(0, 9), (4, 1), (64, 1), (5, 0)] {
        pool[word] += by;
        let short = pool.len() - 1;
        for words in [0, short, pool.len()] {
            for point in [&[][..], &[80], &[81], &[INFINITY]] {
                let mut copy = pool.clone();
                let removed = raw::remove(&mut copy[..words], point);
                assert!(removed.number == 0 || removed.location == 0);
                let found = raw::find(&pool[..words], point);
                assert!(found.number == 0 || (found.location, found.reads) == (0, 0));
            }
            for window in [&[][..], &[70, 80], &[80, 70], &[6, INFINITY]] {
                let listed = raw::list(&pool[..words], window, &mut [7; 2]);
                assert!(listed.number == 0 || (listed.total, listed.reads) == (0, 0));
            }
        }
        pool[word] -= by;
    }
}

#[test]
fn pools_of_any_size_are_made_or_refused() {
    for (k, pages, number) in [
        (1, 2, 0),
        (4, 512, 0),
        (1, 0, 1),
        (1, 1, 1),
        (5, 513, 1),
        (1, usize::MAX, 1),
        (0, 2, 2),
        (5, 2, 2),
    ] {
        let made = Pool::new(k, pages);
        assert_eq!(made.as_ref().map_or_else(|r| r.number(), |_| 0), number);
        if let Ok(pool) = made {
            assert_eq!(pool.words().len(), PAGE_WORDS * pages);
            assert_eq!(
                (pool.domains(), pool.pages(), pool.records()),
                (k, pages, 0)
            );
            assert_eq!(pool.check(), Ok(()));
        }
    }
}

#[test]
fn a_pool_owns_its_words() {
    let mut pool = Pool::new(1, 4).unwrap();
    for key in (10..=150).step_by(10) {
        pool.place(&[key], key).unwrap();
    }
    let (words, _) = fifteen(4);
    assert_eq!(pool.words(), words);
    assert_eq!(pool.records(), 15);
    let short = "Pool { domains: 1, pages: 4, records: 15, .. }";
    assert_eq!(format!("{pool:?}"), short);
    assert_eq!(pool.place(&[150], 1), Err(Refusal::Present));
    assert_eq!(pool.place(&[1, 2], 1), Err(Refusal::BufferLength));
    let found = Found {
        location: 80,
        reads: 2,
    };
    assert_eq!(pool.find(&[80]), Ok(found));
    assert_eq!(pool.find(&[81]), Err(Refusal::Absent));
    let mut answer = [7; 4];
    let listed = pool.list(&[70, 90], &mut answer).unwrap();
    assert_eq!(listed.locations, [70, 80, 90]);
    assert_eq!((listed.total, listed.reads), (3, 3));
    assert_eq!(pool.list(&[9, 8], &mut answer), Err(Refusal::WindowOrder));

    // A copy goes its own way.
    let mut copy = pool.clone();
    assert_eq!(copy.remove(&[80]), Ok(80));
    assert_eq!(copy.remove(&[80]), Err(Refusal::Absent));
    assert_eq!(pool.words(), words);

    // It runs full, and a place that is refused changes nothing.
    let mut key = 150;
    let full = loop {
        key += 10;
        let before = pool.words().to_vec();
        if let Err(refusal) = pool.place(&[key], key) {
            assert_eq!(pool.words(), before);
            break refusal;
        }
    };
    assert_eq!(full, Refusal::NoFreePage);
    assert_eq!(pool.check(), Ok(()));
}

#[test]
fn a_pool_is_stored_and_opened_again() {
    let mut pool = Pool::new(4, 4).unwrap();
    pool.place(&[1, 2, 3, 4], 5).unwrap();
    let stored = pool.words().to_vec();
    assert_eq!(pool.into_words(), stored);

    let mut pool = Pool::from_words(stored.clone()).unwrap();
    let mut answer = [0];
    let listed = pool.list(&[1, 2, 3, 4, 1, 2, 3, 4], &mut answer).unwrap();
    assert_eq!(listed.locations, [5]);
    pool.place(&[1, 2, 3, 5], 6).unwrap();
    assert_eq!(pool.remove(&[1, 2, 3, 4]), Ok(5));

    // Not a pool's length, a word changed, and the wrong byte order.
    let refused = |words: Vec<u32>| {
        let refused = Pool::from_words(words.clone()).unwrap_err();
        assert_eq!(refused.words, words);
        assert_eq!(refused.to_string(), refused.refusal.to_string());
        refused.refusal
    };
    assert_eq!(refused(stored[1..].to_vec()), Refusal::PoolLength);
    let mut spoilt = stored.clone();
    spoilt[5] = 1;
    assert_eq!(refused(spoilt), Refusal::Unsound);
    let swapped = stored.iter().map(|word| word.swap_bytes());
    assert_eq!(refused(swapped.collect()), Refusal::Unsound);
}

/// A pool of 511 levels: region pages with one entry each, the whole space, and at the end a point page with one record.
fn deepest(k: usize) -> Vec<u32> {
    let mut pool = vec![0; MOST_WORDS];
    pool[..5].copy_from_slice(&[k as u32, MOST_PAGES as u32, 1, MOST_PAGES as u32 - 1, 1]);
    for (number, page) in pool.chunks_mut(PAGE_WORDS).enumerate().skip(1) {
        if number + 1 < MOST_PAGES {
            page[..2].copy_from_slice(&[1, 1]);
            page[4 + k..4 + 2 * k].fill(INFINITY);
            page[4 + 2 * k] = number as u32 + 1;
        } else {
            page[..2].copy_from_slice(&[2, 1]);
            page[4..5 + k].fill(5);
        }
    }
    pool
}

/// Every call on it in a thread with 1 MB of stack, which the header calls enough.
#[test]
fn the_deepest_pool_takes_no_more_than_a_megabyte_of_stack() {
    let calls = || {
        for (k, points) in [(1, 14), (2, 9), (3, 7), (4, 5)] {
            let mut pool = deepest(k);
            let mut work = vec![7; MOST_WORDS];
            let levels = MOST_PAGES as u32 - 1;
            assert_eq!(check(&pool), Ok(()));
            let again = place(&mut pool, &mut work, &vec![5; k], 6);
            assert_eq!(again, Err(Refusal::Present));
            for key in 10..9 + points {
                let before = pool.clone();
                assert_eq!(place(&mut pool, &mut work, &vec![key; k], key), Ok(()));
                assert_eq!(work, before);
            }
            // The point page is full, and no page is free.
            let before = pool.clone();
            let full = place(&mut pool, &mut work, &vec![9; k], 9);
            assert_eq!(full, Err(Refusal::NoFreePage));
            assert!(pool == before && work == before);
            let found = find(&pool, &vec![10; k]).unwrap();
            assert_eq!((found.location, found.reads), (10, levels));
            assert_eq!(find(&pool, &vec![9; k]), Err(Refusal::Absent));
            let window = [vec![0; k], vec![10; k]].concat();
            let mut answer = [7; 3];
            let listed = list(&pool, &window, &mut answer).unwrap();
            assert_eq!((listed.locations, listed.reads), (&[5, 10][..], levels));
            assert_eq!(remove(&mut pool, &vec![5; k]), Ok(5));
            assert_eq!(remove(&mut pool, &vec![5; k]), Err(Refusal::Absent));
            assert_eq!(check(&pool), Ok(()));
            // The last page is bad: every walk gets there, and every slot is zeroed.
            pool[MOST_WORDS - PAGE_WORDS] = 1;
            assert_eq!(check(&pool), Err(Refusal::Unsound));
            assert_eq!(find(&pool, &vec![10; k]), Err(Refusal::Unsound));
            assert_eq!(list(&pool, &window, &mut answer), Err(Refusal::Unsound));
            assert_eq!(answer, [0; 3]);
        }
    };
    let thread = std::thread::Builder::new().stack_size(1 << 20);
    thread.spawn(calls).unwrap().join().unwrap();
}

/// Check, find and list by four threads on one pool.
#[test]
fn many_threads_read_one_pool() {
    let mut pool = Pool::new(2, 128).unwrap();
    for key in 0..200 {
        pool.place(&[key * 37 % 200, key], key).unwrap();
    }
    let pool = &pool;
    std::thread::scope(|scope| {
        for thread in 0..4 {
            scope.spawn(move || {
                let mut answer = [0; 200];
                for key in (thread..200).chain(0..thread) {
                    let point = [key * 37 % 200, key];
                    assert_eq!(pool.find(&point).map(|found| found.location), Ok(key));
                    let window = [0, key, MOST_KEY, key + thread];
                    let listed = pool.list(&window, &mut answer).unwrap();
                    let total = (thread + 1).min(200 - key);
                    assert_eq!(listed.locations.len(), total as usize);
                    assert!(listed
                        .locations
                        .iter()
                        .all(|l| (key..=key + thread).contains(l)));
                    assert_eq!(pool.check(), Ok(()));
                }
            });
        }
    });
}

/// The header's names have the numbers of this crate.
#[test]
fn the_header_says_the_same() {
    let header = include_str!("../../../include/korytanka.h");
    let value = |name: &str| {
        let line = format!("#define KORYTANKA_{name} ");
        let mut found = header.lines().filter_map(|l| l.strip_prefix(&*line));
        let value = found.next().unwrap_or_else(|| panic!("no {name}"));
        let digits = value.trim_start_matches("UINT32_C(").trim_end_matches(')');
        digits.parse::<usize>().unwrap()
    };
    let version = env!("CARGO_PKG_VERSION").split('.');
    let version: Vec<usize> = version.map(|part| part.parse().unwrap()).collect();
    assert_eq!(value("VERSION_MAJOR"), version[0]);
    assert_eq!(value("VERSION_MINOR"), version[1]);
    assert_eq!(value("PAGE_WORDS"), PAGE_WORDS);
    assert_eq!(value("LEAST_PAGES"), LEAST_PAGES);
    assert_eq!(value("MOST_PAGES"), MOST_PAGES);
    assert_eq!(value("MOST_WORDS"), MOST_WORDS);
    assert_eq!(value("MOST_DOMAINS"), MOST_DOMAINS);
    assert_eq!(value("MOST_KEY"), MOST_KEY as usize);
    assert_eq!(value("INFINITY"), INFINITY as usize);
    assert_eq!(value("DONE"), 0);
    // The names are the variants' in capitals: PoolLength is REFUSED_POOL_LENGTH.
    for &refusal in Refusal::ALL {
        let mut name = String::from("REFUSED");
        for letter in format!("{refusal:?}").chars() {
            if letter.is_uppercase() {
                name.push('_');
            }
            name.extend(letter.to_uppercase());
        }
        assert_eq!(value(&name), refusal.number() as usize);
    }
}
