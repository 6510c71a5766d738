//! The cases at the edges, 1 to 11, the session, and the refusals in their order.

mod common;
use common::*;
use second::{check, find, format, frame, list, number, read, remove};
use second::{Entry, Found, Listed, Node, PointPage, Pool, Record, Refusal, Region, RegionPage};

#[test]
fn case_1_lengths() {
    for (length, k, wanted) in [
        (64, 1, 0),
        (16_384, 4, 0),
        (0, 1, 1),
        (32, 1, 1),
        (63, 1, 1),
        (16_416, 1, 1),
    ] {
        let mut pool = vec![7; length];
        assert_eq!(number(&format(&mut pool, k)), wanted, "{length}");
        if wanted == 0 {
            let mut formatted = vec![0; length];
            formatted[0] = k;
            formatted[1] = length as u32 / 32;
            assert_eq!(pool, formatted);
            assert_eq!(check(&pool), Ok(()));
        } else {
            assert_eq!(pool, vec![7; length]);
            assert_eq!(check(&pool), Err(Refusal::PoolLength));
        }
    }
}

#[test]
fn case_2_k() {
    for (length, k, wanted) in [(64, 0, 2), (64, 5, 2), (63, 5, 1)] {
        let mut pool = vec![7; length];
        assert_eq!(number(&format(&mut pool, k)), wanted);
        assert_eq!(pool, vec![7; length]);
    }
}

#[test]
fn case_3_highest_key() {
    let mut pool = fresh(1, 2);
    assert_eq!(place(&mut pool, &[TOP], 5), 0);
    assert_eq!(place(&mut pool, &[INF], 5), 4);
    assert_eq!(
        find(&pool, &[TOP]),
        Ok(Found {
            location: 5,
            reads: 1
        })
    );
    assert_eq!(find(&pool, &[INF]), Err(Refusal::Infinity));
    assert_eq!(remove(&mut pool, &[INF]), Err(Refusal::Infinity));
    assert_eq!(remove(&mut pool, &[TOP]), Ok(5));
}

#[test]
fn case_4_windows() {
    let pool = fresh(1, 2);
    let mut answer = [9; 3];
    assert_eq!(list(&pool, &[6, 5], &mut answer), Err(Refusal::Window));
    assert_eq!(list(&pool, &[6, INF], &mut answer), Err(Refusal::Infinity));
    let none = Listed { total: 0, reads: 0 };
    assert_eq!(list(&pool, &[5, 5], &mut answer), Ok(none));
    assert_eq!(answer, [9; 3]);
}

#[test]
fn case_5_nothing_placed() {
    for k in 1..=4 {
        let pool = fresh(k as u32, 5);
        let mut window = vec![0; k];
        window.extend(vec![TOP; k]);
        assert_eq!(list_all(&pool, &window), (0, 0, vec![]));
        assert_eq!(find(&pool, &vec![0; k]), Err(Refusal::NotThere));
    }
}

/// K 1, keys 10, 20 .. 150 in order, location key + 1.
fn fifteen(n: usize) -> (Vec<u32>, u32) {
    let mut pool = fresh(1, n);
    for key in 1..=14 {
        assert_eq!(place(&mut pool, &[10 * key], 10 * key + 1), 0);
    }
    let last = place(&mut pool, &[150], 151);
    (pool, last)
}

#[test]
fn case_6_fifteenth() {
    let (pool, last) = fifteen(4);
    assert_eq!(last, 0);
    let mut one = vec![2, 7, 0, 0];
    let mut two = vec![2, 8, 0, 0];
    for key in 1..=15 {
        let into = if key < 8 { &mut one } else { &mut two };
        into.extend([10 * key, 10 * key + 1]);
    }
    assert_eq!(page(&pool, 0), page_of(&[1, 4, 3, 2, 15]));
    assert_eq!(page(&pool, 1), page_of(&one));
    assert_eq!(page(&pool, 2), page_of(&two));
    let root = [1, 2, 0, 0, 0, 80, 1, 80, INF, 2];
    assert_eq!(page(&pool, 3), page_of(&root));
}

#[test]
fn case_7_none_free() {
    let mut pool = fresh(1, 3);
    for key in 1..=14 {
        assert_eq!(place(&mut pool, &[10 * key], 10 * key + 1), 0);
    }
    let before = pool.clone();
    let mut work = vec![3; pool.len()];
    let refused = second::place(&mut pool, &mut work, &[150], 151);
    assert_eq!(refused, Err(Refusal::NoneFree));
    assert_eq!(pool, before);
    assert_eq!(work, before);
}

#[test]
fn case_8_reads() {
    let (pool, _) = fifteen(4);
    assert_eq!(list_all(&pool, &[80, 80]), (1, 2, vec![81]));
    assert_eq!(list_all(&pool, &[79, 80]), (1, 3, vec![81]));
    assert_eq!(list_all(&pool, &[70, 79]), (1, 2, vec![71]));
}

#[test]
fn case_9_next_domain() {
    let mut pool = fresh(2, 4);
    for second in 0..10 {
        assert_eq!(place(&mut pool, &[5, second], second), 0);
    }
    assert_eq!(page(&pool, 1)[..4], [2, 5, 0, 0]);
    assert_eq!(page(&pool, 2)[..4], [2, 5, 0, 0]);
    let root = [1, 2, 0, 0, 0, 0, INF, 5, 1, 0, 5, INF, INF, 2];
    assert_eq!(page(&pool, 3), page_of(&root));
}

#[test]
fn case_10_smallest_greater() {
    // The 8 comes first, so the order within the page plays no part.
    let mut pool = fresh(2, 4);
    assert_eq!(place(&mut pool, &[8, 100], 0), 0);
    for second in 0..9 {
        assert_eq!(place(&mut pool, &[3, second], second + 1), 0);
    }
    assert_eq!(page(&pool, 1)[..7], [2, 9, 1, 0, 3, 0, 1]);
    assert_eq!(page(&pool, 2), page_of(&[2, 1, 1, 0, 8, 100, 0]));
    let root = [1, 2, 0, 0, 0, 0, 8, INF, 1, 8, 0, INF, INF, 2];
    assert_eq!(page(&pool, 3), page_of(&root));
}

fn entry(lower: [u32; 2], upper: [u32; 2], child: Node) -> Entry {
    Entry {
        region: Region {
            lower: lower.to_vec(),
            upper: upper.to_vec(),
        },
        child: Box::new(child),
    }
}

fn points(number: u32, domain: usize, keys: &[[u32; 2]]) -> Node {
    let records = keys.iter().map(|keys| Record {
        keys: keys.to_vec(),
        location: keys[0] + keys[1],
    });
    Node::Points(PointPage {
        number,
        domain,
        records: records.collect(),
    })
}

/// A root with one wide strip below and four columns above it. A tenth point in the last column makes six
/// entries; the cut goes through the strip, whose only point is on the left.
#[test]
fn case_11_forced_split_leaves_an_empty_page() {
    let full: Vec<[u32; 2]> = (0..9).map(|i| [40 + 10 * i, 20]).collect();
    let root = RegionPage {
        number: 7,
        domain: 0,
        entries: vec![
            entry([0, 0], [INF, 10], points(3, 1, &[[1, 1]])),
            entry([0, 10], [10, INF], points(1, 1, &[[2, 20]])),
            entry([10, 10], [20, INF], points(2, 0, &[])),
            entry([20, 10], [30, INF], points(5, 0, &[[29, 11]])),
            entry([30, 10], [INF, INF], points(4, 0, &full)),
        ],
    };
    let tree = Pool {
        k: 2,
        n: 12,
        root: Some(Box::new(Node::Regions(root))),
    };
    let before = tree.print();
    assert_eq!(check(&before), Ok(()));
    assert_eq!(read(&before), Ok(tree));

    let mut pool = before.clone();
    let mut work = vec![1; pool.len()];
    assert_eq!(second::place(&mut pool, &mut work, &[30, 30], 60), Ok(()));
    assert_eq!(work, before);
    assert_eq!(check(&pool), Ok(()));

    // Sorted first keys 30, 40 .. 120: rank 5 is 80. The column's right page is the lowest free page, 6.
    let left = [
        2, 5, 1, 0, 40, 20, 60, 50, 20, 70, 60, 20, 80, 70, 20, 90, 30, 30, 60,
    ];
    let right = [
        2, 5, 1, 0, 80, 20, 100, 90, 20, 110, 100, 20, 120, 110, 20, 130, 120, 20, 140,
    ];
    assert_eq!(page(&pool, 4), page_of(&left));
    assert_eq!(page(&pool, 6), page_of(&right));
    // Lower ends 0 0 10 20 30 80: rank 3 is 20. The root's right page is 8, then the strip's is 9 and keeps
    // the strip's domain; the new root is 10.
    let left = [
        1, 3, 1, 0, 0, 0, 20, 10, 3, 0, 10, 10, INF, 1, 10, 10, 20, INF, 2,
    ];
    let right = [
        1, 4, 1, 0, 20, 0, INF, 10, 9, 20, 10, 30, INF, 5, 30, 10, 80, INF, 4, 80, 10, INF, INF, 6,
    ];
    let root = [1, 2, 0, 0, 0, 0, 20, INF, 7, 20, 0, INF, INF, 8];
    assert_eq!(page(&pool, 7), page_of(&left));
    assert_eq!(page(&pool, 8), page_of(&right));
    assert_eq!(page(&pool, 3), page_of(&[2, 1, 1, 0, 1, 1, 2]));
    assert_eq!(page(&pool, 9), page_of(&[2, 0, 1, 0]));
    assert_eq!(page(&pool, 10), page_of(&root));
    assert_eq!(page(&pool, 11), page_of(&[]));
    assert_eq!(page(&pool, 0), page_of(&[2, 12, 10, 3, 13]));

    // The empty page counts as read when its region meets the window.
    let mut answer = [0; 1];
    let (listed, pages) = second::calls::list_walk(&pool, &[25, 5, 25, 5], &mut answer);
    assert_eq!(listed, Ok(Listed { total: 0, reads: 3 }));
    assert_eq!(pages, [10, 8, 9]);
    // And it takes a later record of its region.
    assert_eq!(place(&mut pool, &[25, 5], 77), 0);
    assert_eq!(page(&pool, 9), page_of(&[2, 1, 1, 0, 25, 5, 77]));

    // With two free pages less the new root finds none, and nothing has changed.
    let mut short = before[..32 * 10].to_vec();
    short[1] = 10;
    let kept = short.clone();
    let mut work = vec![1; short.len()];
    let refused = second::place(&mut short, &mut work, &[30, 30], 60);
    assert_eq!(refused, Err(Refusal::NoneFree));
    assert_eq!(short, kept);
    assert_eq!(work, kept);
}

/// The left entry takes the old place, the right one goes last.
#[test]
fn right_entry_goes_last() {
    let (mut pool, _) = fifteen(5);
    for key in 1..=8 {
        assert_eq!(place(&mut pool, &[key], key), 0);
    }
    // Keys 1 to 8, then 10 to 70: rank 7 is 8.
    let left = [2, 7, 0, 0, 1, 1, 2, 2, 3, 3, 4, 4, 5, 5, 6, 6, 7, 7];
    let right = [
        2, 8, 0, 0, 10, 11, 20, 21, 30, 31, 40, 41, 50, 51, 60, 61, 70, 71, 8, 8,
    ];
    let root = [1, 3, 0, 0, 0, 8, 1, 80, INF, 2, 8, 80, 4];
    assert_eq!(page(&pool, 0), page_of(&[1, 5, 3, 2, 23]));
    assert_eq!(page(&pool, 1), page_of(&left));
    assert_eq!(page(&pool, 3), page_of(&root));
    assert_eq!(page(&pool, 4), page_of(&right));
    assert_eq!(
        list_all(&pool, &[8, 80]).2,
        [81, 11, 21, 31, 41, 51, 61, 71, 8]
    );
}

/// The strip itself is split, along its own domain; then both its halves cross the root's cut, the first
/// in its old place, the second as the last entry.
#[test]
fn a_new_entry_may_cross() {
    let strip: Vec<[u32; 2]> = (0..9).map(|i| [10 * i, i]).collect();
    let root = RegionPage {
        number: 7,
        domain: 0,
        entries: vec![
            entry([0, 0], [INF, 10], points(3, 1, &strip)),
            entry([0, 10], [10, INF], points(1, 1, &[])),
            entry([10, 10], [20, INF], points(2, 1, &[])),
            entry([20, 10], [30, INF], points(4, 1, &[])),
            entry([30, 10], [INF, INF], points(5, 1, &[])),
        ],
    };
    let tree = Pool {
        k: 2,
        n: 12,
        root: Some(Box::new(Node::Regions(root))),
    };
    let mut pool = tree.print();
    assert_eq!(check(&pool), Ok(()));
    assert_eq!(place(&mut pool, &[5, 9], 14), 0);
    assert_eq!(check(&pool), Ok(()));
    // Second keys 0 to 9: the cut is 5, the right page 6. Lower ends 0 0 10 20 30 0: rank 3 is 10.
    let pages: [&[u32]; 12] = [
        &[2, 12, 11, 3, 10],
        &[2, 0, 1, 0],
        &[2, 0, 1, 0],
        &[2, 1, 0, 0, 0, 0, 0],
        &[2, 0, 1, 0],
        &[2, 0, 1, 0],
        &[2, 1, 0, 0, 5, 9, 14],
        &[
            1, 3, 1, 0, 0, 0, 10, 5, 3, 0, 10, 10, INF, 1, 0, 5, 10, 10, 6,
        ],
        &[
            1, 5, 1, 0, 10, 0, INF, 5, 9, 10, 10, 20, INF, 2, 20, 10, 30, INF, 4, 30, 10, INF, INF,
            5, 10, 5, INF, 10, 10,
        ],
        &[2, 4, 0, 0, 10, 1, 11, 20, 2, 22, 30, 3, 33, 40, 4, 44],
        &[2, 4, 0, 0, 50, 5, 55, 60, 6, 66, 70, 7, 77, 80, 8, 88],
        &[1, 2, 0, 0, 0, 0, 10, INF, 7, 10, 0, INF, INF, 8],
    ];
    for (number, start) in pages.iter().enumerate() {
        assert_eq!(page(&pool, number), page_of(start), "{number}");
    }
}

/// A root two levels above the points: the crossing child is a region page, and its crossing child in turn
/// is claimed for before the next crossing entry of the root.
#[test]
fn claims_go_depth_first() {
    let column = |number: u32, first: u32, lower: [u32; 2], upper: [u32; 2]| {
        let page = RegionPage {
            number,
            domain: 1,
            entries: vec![entry(lower, upper, points(first, 1, &[]))],
        };
        entry(lower, upper, Node::Regions(page))
    };
    let full: Vec<[u32; 2]> = (0..9).map(|i| [40 + 10 * i, 50]).collect();
    let inner = RegionPage {
        number: 20,
        domain: 0,
        entries: vec![
            entry([30, 40], [35, INF], points(21, 0, &[])),
            entry([35, 40], [36, INF], points(22, 0, &[])),
            entry([36, 40], [37, INF], points(23, 0, &[])),
            entry([37, 40], [38, INF], points(24, 0, &[])),
            entry([38, 40], [INF, INF], points(25, 0, &full)),
        ],
    };
    let root = RegionPage {
        number: 1,
        domain: 0,
        entries: vec![
            column(10, 11, [0, 0], [INF, 20]),
            column(12, 13, [0, 20], [INF, 40]),
            column(14, 15, [0, 40], [10, INF]),
            column(16, 17, [10, 40], [30, INF]),
            entry([30, 40], [INF, INF], Node::Regions(inner)),
        ],
    };
    let tree = Pool {
        k: 2,
        n: 40,
        root: Some(Box::new(Node::Regions(root))),
    };
    assert_eq!(check(&tree.print()), Ok(()));
    let record = Record {
        keys: vec![39, 50],
        location: 0,
    };
    let (after, claims) = tree.place(record).unwrap();
    assert_eq!(check(&after.print()), Ok(()));
    use second::place::Reason::*;
    // The points cut at 80 and the inner page at 37. The root's lower ends are then 0 0 0 10 30 37: rank 3
    // is 10, so both strips cross, each a region page with one crossing point page below it.
    let wanted = [
        (2, Chosen),
        (3, Chosen),
        (4, Chosen),
        (5, Forced),
        (6, Forced),
        (7, Forced),
        (8, Forced),
        (9, Root),
    ];
    assert_eq!(claims, wanted);
    let words = after.print();
    assert_eq!(page(&words, 5)[..9], [1, 1, 1, 0, 10, 0, INF, 20, 6]);
    assert_eq!(page(&words, 7)[..9], [1, 1, 1, 0, 10, 20, INF, 40, 8]);
}

#[test]
fn refusals_in_their_order() {
    let mut pool = fresh(2, 4);
    assert_eq!(place(&mut pool, &[5, 7], 9), 0);
    let good = pool.clone();

    // A work buffer of another length, and a point of another length, come before an infinite key.
    let mut work = vec![1; 64];
    let answer = second::place(&mut pool, &mut work, &[INF, 7], 9);
    assert_eq!(answer, Err(Refusal::BufferLength));
    assert_eq!(work, vec![1; 64]);
    assert_eq!(place(&mut pool, &[INF], 9), 3);
    assert_eq!(place(&mut pool, &[5, INF], 9), 4);
    assert_eq!(place(&mut pool, &[5, 7], 9), 7);
    let mut work = vec![1; pool.len()];
    let answer = second::place(&mut pool, &mut work, &[5, 7], 9);
    assert_eq!(answer, Err(Refusal::AlreadyThere));
    assert_eq!(work, vec![1; pool.len()]);
    assert_eq!(find(&pool, &[5]), Err(Refusal::BufferLength));
    assert_eq!(find(&pool, &[5, 8]), Err(Refusal::NotThere));
    assert_eq!(remove(&mut pool, &[5, 8]), Err(Refusal::NotThere));
    assert_eq!(remove(&mut pool, &[5, 8, 9]), Err(Refusal::BufferLength));
    let mut slots = [3; 2];
    let answer = list(&pool, &[6, 0, 5, INF], &mut slots);
    assert_eq!(answer, Err(Refusal::Infinity));
    let answer = list(&pool, &[6, 0, 5], &mut slots);
    assert_eq!(answer, Err(Refusal::BufferLength));
    assert_eq!(pool, good);
    assert_eq!(slots, [3; 2]);

    // A false word 4: find and list do not look, the others refuse after 3 and 4.
    pool[4] = 2;
    let spoilt = pool.clone();
    assert_eq!(check(&pool), Err(Refusal::BadPool));
    assert_eq!(place(&mut pool, &[INF, 7], 9), 4);
    assert_eq!(place(&mut pool, &[5, 7], 9), 6);
    assert_eq!(remove(&mut pool, &[5, 8]), Err(Refusal::BadPool));
    let found = Found {
        location: 9,
        reads: 1,
    };
    assert_eq!(find(&pool, &[5, 7]), Ok(found));
    assert_eq!(list_all(&pool, &[0, 0, TOP, TOP]), (1, 1, vec![9]));
    assert_eq!(pool, spoilt);

    // A bad header comes before 3.
    for (at, word) in [
        (0, 0),
        (0, 5),
        (1, 3),
        (2, 4),
        (2, 0),
        (3, 4),
        (3, 0),
        (31, 1),
    ] {
        let mut pool = good.clone();
        pool[at] = word;
        let spoilt = pool.clone();
        assert_eq!(check(&pool), Err(Refusal::BadPool));
        assert_eq!(place(&mut pool, &[], 9), 6);
        assert_eq!(remove(&mut pool, &[]), Err(Refusal::BadPool));
        assert_eq!(find(&pool, &[]), Err(Refusal::BadPool));
        assert_eq!(list(&pool, &[], &mut slots), Err(Refusal::BadPool));
        assert_eq!(pool, spoilt);
        assert_eq!(slots, [3; 2]);
    }
}

#[test]
fn removing_closes_the_gap() {
    let (mut pool, _) = fifteen(4);
    assert_eq!(remove(&mut pool, &[30]), Ok(31));
    let one = [2, 6, 0, 0, 10, 11, 20, 21, 40, 41, 50, 51, 60, 61, 70, 71];
    assert_eq!(page(&pool, 1), page_of(&one));
    assert_eq!(pool[4], 14);
    for key in [10, 20, 40, 50, 60, 70] {
        assert_eq!(remove(&mut pool, &[key]), Ok(key + 1));
    }
    assert_eq!(page(&pool, 1), page_of(&[2, 0, 0, 0]));
    assert_eq!(check(&pool), Ok(()));
    assert_eq!(list_all(&pool, &[0, 0]), (0, 2, vec![]));
    assert_eq!(place(&mut pool, &[79], 1), 0);
    assert_eq!(page(&pool, 1), page_of(&[2, 1, 0, 0, 79, 1]));
}

#[test]
fn answer_slots() {
    let (pool, _) = fifteen(4);
    let all = list_all(&pool, &[0, TOP]).2;
    for slots in 0..20 {
        let mut answer = vec![5; slots];
        let listed = list(&pool, &[0, TOP], &mut answer);
        assert_eq!(
            listed,
            Ok(Listed {
                total: 15,
                reads: 3
            })
        );
        let taken = slots.min(15);
        assert_eq!(answer[..taken], all[..taken]);
        assert!(answer[taken..].iter().all(|&slot| slot == 5));
    }
}

fn run(input: &str) -> String {
    String::from_utf8(frame::run(input.as_bytes())).unwrap()
}

#[test]
fn the_session() {
    let input = "00020004\n\
        01000000050000000700000009\n\
        0400000000000000070000000500000007\n\
        01000000050000000700000001\n\
        020000000500000007\n\
        030000000500000007\n\
        0G\n";
    let output = "00\n00\n00000000010000000100000009\n07\n0000000009\n08\nFF\n";
    assert_eq!(run(input), output);
    // The last line may lack its line feed; empty lines write nothing.
    assert_eq!(run(input.trim_end()), output);
    assert_eq!(run(&input.replace('\n', "\n\n")), output);
}

#[test]
fn frames_at_the_edges() {
    // No frame at all, before a format too.
    let long = format!("04{}", "00".repeat(64));
    for line in [
        "0",
        "000",
        "05",
        "FF",
        "ff",
        "0002",
        "000200",
        "0002000400",
        "00",
        "01",
        "0100",
        "010000",
        "02000000",
        "0300000000FF",
        "04 ",
        "04\r",
        " 04",
        "\t",
        "0g",
        &long,
    ] {
        assert_eq!(run(line), "FF\n", "{line:?}");
    }
    // Well formed, but there is no pool yet.
    let full = format!("04{}", "0".repeat(120));
    for line in ["0100000000", "02", "03", "04", "0200000000", &full] {
        assert_eq!(run(line), "01\n", "{line:?}");
    }
    // 128 digits are not too many, but they hold a part word; 130 are too many.
    assert_eq!(run(&"04".repeat(64)), "FF\n");
    assert_eq!(run(&"04".repeat(65)), "FF\n");
    // Format: the length is tested before K, and a refused format keeps the pool.
    for (line, wanted) in [
        ("00000000", "01\n"),
        ("00050001", "01\n"),
        ("00010201", "01\n"),
        ("0001FFFF", "01\n"),
        ("00000002", "02\n"),
        ("00ff0200", "02\n"),
        ("00040200", "00\n"),
    ] {
        assert_eq!(run(line), wanted, "{line:?}");
    }
    let kept = "00010002\n010000000A0000000b\n00050002\n00010000\n030000000a\n";
    assert_eq!(run(kept), "00\n00\n02\n01\n000000000B00000001\n");
    // Point and window of another length, no words, a high key, a window upside down.
    let odd = "00010002\n02\n03\n04\n0100000001\n0400000001\n03FFFFFFFF\n040000000200000001\n";
    assert_eq!(run(odd), "00\n03\n03\n03\n03\n03\n04\n05\n");
    assert_eq!(run(""), "");
    assert_eq!(run("\n\n"), "");
    assert_eq!(frame::run(&[0xFF, 0x80, b'\n', b'0', 0]), b"FF\nFF\n");
}

/// More than 64 records: the total tells all, 64 locations follow.
#[test]
fn a_long_list() {
    let mut input = String::from("0001000F\n");
    for key in 1..=70 {
        input.push_str(&format!("01{key:08x}{:08x}\n", key + 0x100));
    }
    input.push_str("0400000000fffffffe\n");
    let output = run(&input);
    let last = output.lines().last().unwrap();
    assert_eq!(output.lines().count(), 72);
    assert_eq!(last.len(), 2 + 8 + 8 + 64 * 8);
    assert_eq!(&last[..10], "0000000046");
    for (i, at) in (18..last.len()).step_by(8).enumerate() {
        assert_eq!(last[at..at + 8], format!("{:08X}", i + 0x101));
    }
}
