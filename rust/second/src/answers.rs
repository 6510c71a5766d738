//! What a call answers: a refusal under its number, or what was found.

/// The refusals under their numbers.
#[derive(Clone, Copy, Debug, PartialEq, Eq)]
#[repr(u32)]
pub enum Refusal {
    PoolLength = 1,
    K = 2,
    BufferLength = 3,
    Infinity = 4,
    Window = 5,
    BadPool = 6,
    AlreadyThere = 7,
    NotThere = 8,
    NoneFree = 9,
}

impl Refusal {
    pub fn number(self) -> u32 {
        self as u32
    }
}

/// The number of an answer: 0 for done, otherwise that of the refusal.
pub fn number<T>(answer: &Result<T, Refusal>) -> u32 {
    match answer {
        Ok(_) => 0,
        Err(refusal) => refusal.number(),
    }
}

#[derive(Clone, Copy, Debug, PartialEq, Eq)]
pub struct Found {
    pub location: u32,
    pub reads: u32,
}

#[derive(Clone, Copy, Debug, PartialEq, Eq)]
pub struct Listed {
    pub total: u32,
    pub reads: u32,
}
