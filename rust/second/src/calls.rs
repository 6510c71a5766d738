//! The six calls over plain word buffers, for any contents and any lengths.
//!
//! Each call tests its refusals in the order of the paper's table and changes nothing before the last test.

use crate::answers::{Found, Listed, Refusal};
use crate::sound;
use crate::tree::{Pool, Record};
use crate::walk;
use crate::words::{header, pages, Header, INFINITY};

/// Zeroes the pool and writes K and N.
pub fn format(pool: &mut [u32], k: u32) -> Result<(), Refusal> {
    let n = pages(pool).ok_or(Refusal::PoolLength)?;
    if !(1..=4).contains(&k) {
        return Err(Refusal::K);
    }
    pool.copy_from_slice(&Pool::new(k as usize, n).print());
    Ok(())
}

/// Is the pool sound?
pub fn check(pool: &[u32]) -> Result<(), Refusal> {
    sound::read(pool).map(|_| ())
}

/// Tests 1, 6 (header), 3 and 4 for a call with a point.
fn point_call(pool: &[u32], work: Option<usize>, point: &[u32]) -> Result<Header, Refusal> {
    let head = header(pool)?;
    if point.len() != head.k || work.is_some_and(|length| length != pool.len()) {
        return Err(Refusal::BufferLength);
    }
    if point.contains(&INFINITY) {
        return Err(Refusal::Infinity);
    }
    Ok(head)
}

/// Places a record. After done and after refusal 9 the work buffer holds the pool as it stood before.
pub fn place(
    pool: &mut [u32],
    work: &mut [u32],
    point: &[u32],
    location: u32,
) -> Result<(), Refusal> {
    point_call(pool, Some(work.len()), point)?;
    let tree = sound::read(pool)?;
    if tree.has(point) {
        return Err(Refusal::AlreadyThere);
    }
    work.copy_from_slice(pool);
    let record = Record {
        keys: point.to_vec(),
        location,
    };
    match tree.place(record) {
        Err(_) => Err(Refusal::NoneFree),
        Ok((tree, _)) => {
            pool.copy_from_slice(&tree.print());
            Ok(())
        }
    }
}

/// Removes the record at a point and returns its location.
pub fn remove(pool: &mut [u32], point: &[u32]) -> Result<u32, Refusal> {
    point_call(pool, None, point)?;
    let mut tree = sound::read(pool)?;
    let location = tree.remove(point).ok_or(Refusal::NotThere)?;
    pool.copy_from_slice(&tree.print());
    Ok(location)
}

/// Finds the record at a point.
pub fn find(pool: &[u32], point: &[u32]) -> Result<Found, Refusal> {
    find_walk(pool, point).0
}

/// Find, and beside it the page numbers of its walk.
pub fn find_walk(pool: &[u32], point: &[u32]) -> (Result<Found, Refusal>, Vec<u32>) {
    match point_call(pool, None, point) {
        Err(refusal) => (Err(refusal), Vec::new()),
        Ok(head) => walk::find(pool, &head, point),
    }
}

/// Tests 1, 6 (header), 3, 4 and 5 for list.
fn window_call(pool: &[u32], window: &[u32]) -> Result<Header, Refusal> {
    let head = header(pool)?;
    if window.len() != 2 * head.k {
        return Err(Refusal::BufferLength);
    }
    if window.contains(&INFINITY) {
        return Err(Refusal::Infinity);
    }
    if (0..head.k).any(|d| window[d] > window[head.k + d]) {
        return Err(Refusal::Window);
    }
    Ok(head)
}

/// Lists the locations of all records in a window, the first of them into the answer buffer.
pub fn list(pool: &[u32], window: &[u32], answer: &mut [u32]) -> Result<Listed, Refusal> {
    list_walk(pool, window, answer).0
}

/// List, and beside it the page numbers of its walk.
pub fn list_walk(
    pool: &[u32],
    window: &[u32],
    answer: &mut [u32],
) -> (Result<Listed, Refusal>, Vec<u32>) {
    let head = match window_call(pool, window) {
        Err(refusal) => return (Err(refusal), Vec::new()),
        Ok(head) => head,
    };
    let (outcome, locations, read) = walk::list(pool, &head, window);
    if outcome.is_ok() {
        for (slot, location) in answer.iter_mut().zip(locations) {
            *slot = location;
        }
    } else {
        answer.fill(0);
    }
    (outcome, read)
}
