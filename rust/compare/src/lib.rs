//! The comparison of a signal index with the second program. `main.rs` says how it is used.
//!
//! Each module uses only those above it:
//!
//! - `index`: the six calls as both programs are asked for them.
//! - `step`: the steps of a sequence and their text.
//! - `pair`: two programs side by side, every word compared.
//! - `random`, `pools`: keys and pools to start from.
//! - `kinds`, `counts`: what is counted; what was met and what has to be.
//! - `run`: a sequence as it is taken, written down and counted.
//! - `sequences`, `spoilt`, `long`, `frames`: the parts of the comparison.
//! - `served`: the library in a process of its own.
//! - `cut`: a failing sequence cut down.
//! - `jobs`: the jobs of a round and the threads that do them.
//! - `supervise`: the process that works dies, and still a sequence is cut down.
//! - `faults`: indexes broken on purpose, to see that the comparison sees it.

pub mod counts;
pub mod cut;
pub mod faults;
pub mod frames;
pub mod index;
pub mod jobs;
pub mod kinds;
pub mod long;
pub mod pair;
pub mod pools;
pub mod random;
pub mod run;
pub mod sequences;
pub mod served;
pub mod spoilt;
pub mod step;
pub mod supervise;
