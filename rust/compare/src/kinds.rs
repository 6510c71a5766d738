//! The kinds that are counted: the ways to spoil a pool, and the whole histories.

use crate::random::Shape;

/// The ways to spoil, for the table of counts.
pub const KINDS: [&str; 21] = [
    "words changed",
    "words of used pages changed",
    "children swapped",
    "rings",
    "shared pages",
    "gaps",
    "overlaps",
    "pinwheels",
    "pinwheels with one end moved",
    "false counts",
    "bad headers",
    "levels and roots",
    "chains",
    "chains spoilt",
    "ladders of shared pages",
    "random words",
    "wild pages",
    "kinds and free pages",
    "points astray, equal or infinite",
    "domains, word 3, words behind",
    "several at once",
];

/// The calls of a history: at least so many, and at least so many after its first 9.
pub const HISTORY: u64 = 3000;
pub const AFTER_9: u64 = 1000;

/// The histories, by K and the shape of the keys. With one key `Rising` is `Ascending`.
pub fn histories() -> Vec<(usize, Shape)> {
    let shapes = [
        Shape::Uniform,
        Shape::Clustered,
        Shape::Ascending,
        Shape::Rising,
    ];
    let all = shapes
        .into_iter()
        .flat_map(|shape| (1..=4).map(move |k| (k, shape)));
    all.filter(|which| *which != (1, Shape::Rising)).collect()
}
