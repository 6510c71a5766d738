//! The signal index a second time: a K-D-B-tree in a lent pool of 32-bit words.
//!
//! This program is there to be compared with another one, so it is written for plainness, not for speed:
//! every call that needs a sound pool reads all its words into a real tree of nodes, judges the tree by
//! brute force, works on the tree, and prints the tree back to words.
//!
//! The modules, each using only those above it:
//!
//! - `answers`: what a call answers, refusals and their numbers.
//! - `words`: the layout of a pool in words, and the header.
//! - `tree`: the tree itself, and how it is printed to words.
//! - `opened`: the words of one page, read as records or as regions.
//! - `sound`: any words, judged by brute force and read into a tree.
//! - `place`: placing and removing in the tree.
//! - `walk`: find and list over any words.
//! - `calls`: the six calls over plain buffers, with their refusals in order.
//! - `frame`: the program that reads frames.

pub mod answers;
pub mod calls;
pub mod frame;
pub mod opened;
pub mod place;
pub mod sound;
pub mod tree;
pub mod walk;
pub mod words;

pub use answers::{number, Found, Listed, Refusal};
pub use calls::{check, find, format, list, place, remove};
pub use sound::read;
pub use tree::{Entry, Node, PointPage, Pool, Record, Region, RegionPage};
