//! The calls as include/korytanka.h declares them: a number, and behind it the fields, 0 after every refusal.
//!
//! The functions of the crate's root make a [`Result`] of number and fields. The library is called here and nowhere else:
//! each `unsafe` block is one call. What the header leaves to the caller holds because every pointer and length is a
//! slice's own, and a `&mut` slice overlaps no other. Enough stack is still the caller's: 1 MB has room for the deepest
//! pool.

/// What [`remove`] returns.
#[derive(Clone, Copy, Debug, PartialEq, Eq)]
#[must_use]
#[repr(C)]
pub struct Removed {
    /// 0, or the refusal's number.
    pub number: u32,
    /// The location of the record that was removed.
    pub location: u32,
}

/// What [`find`] returns.
#[derive(Clone, Copy, Debug, PartialEq, Eq)]
#[must_use]
#[repr(C)]
pub struct Found {
    /// 0, or the refusal's number.
    pub number: u32,
    /// The record's location.
    pub location: u32,
    /// The pages read, the header not counted.
    pub reads: u32,
}

/// What [`list`] returns.
#[derive(Clone, Copy, Debug, PartialEq, Eq)]
#[must_use]
#[repr(C)]
pub struct Listed {
    /// 0, or the refusal's number.
    pub number: u32,
    /// The records found, those that the answer buffer had no slot for among them.
    pub total: u32,
    /// The pages read, the header not counted.
    pub reads: u32,
}

extern "C" {
    fn korytanka_format(pool: *mut u32, words: usize, k: u32) -> u32;
    fn korytanka_check(pool: *const u32, words: usize) -> u32;
    fn korytanka_place(
        pool: *mut u32,
        words: usize,
        work: *mut u32,
        work_words: usize,
        point: *const u32,
        point_words: usize,
        location: u32,
    ) -> u32;
    fn korytanka_remove(
        pool: *mut u32,
        words: usize,
        point: *const u32,
        point_words: usize,
    ) -> Removed;
    fn korytanka_find(
        pool: *const u32,
        words: usize,
        point: *const u32,
        point_words: usize,
    ) -> Found;
    fn korytanka_list(
        pool: *const u32,
        words: usize,
        window: *const u32,
        window_words: usize,
        answer: *mut u32,
        slots: usize,
    ) -> Listed;
}

/// See [`format`](crate::format()). Gives the number.
#[must_use]
pub fn format(pool: &mut [u32], k: u32) -> u32 {
    unsafe { korytanka_format(pool.as_mut_ptr(), pool.len(), k) }
}

/// See [`check`](crate::check). Gives the number.
#[must_use]
pub fn check(pool: &[u32]) -> u32 {
    unsafe { korytanka_check(pool.as_ptr(), pool.len()) }
}

/// See [`place`](crate::place). Gives the number.
#[must_use]
pub fn place(pool: &mut [u32], work: &mut [u32], point: &[u32], location: u32) -> u32 {
    unsafe {
        korytanka_place(
            pool.as_mut_ptr(),
            pool.len(),
            work.as_mut_ptr(),
            work.len(),
            point.as_ptr(),
            point.len(),
            location,
        )
    }
}

/// See [`remove`](crate::remove).
pub fn remove(pool: &mut [u32], point: &[u32]) -> Removed {
    unsafe { korytanka_remove(pool.as_mut_ptr(), pool.len(), point.as_ptr(), point.len()) }
}

/// See [`find`](crate::find).
pub fn find(pool: &[u32], point: &[u32]) -> Found {
    unsafe { korytanka_find(pool.as_ptr(), pool.len(), point.as_ptr(), point.len()) }
}

/// See [`list`](crate::list).
pub fn list(pool: &[u32], window: &[u32], answer: &mut [u32]) -> Listed {
    unsafe {
        korytanka_list(
            pool.as_ptr(),
            pool.len(),
            window.as_ptr(),
            window.len(),
            answer.as_mut_ptr(),
            answer.len(),
        )
    }
}

#[cfg(test)]
mod tests {
    use super::*;

    /// A buffer of no words may be a null pointer.
    #[test]
    fn no_words_may_be_null() {
        let (nothing, nowhere) = (std::ptr::null(), std::ptr::null_mut());
        unsafe {
            assert_eq!(korytanka_format(nowhere, 0, 1), 1);
            assert_eq!(korytanka_check(nothing, 0), 1);
            assert_eq!(korytanka_place(nowhere, 0, nowhere, 0, nothing, 0, 1), 1);
            assert_eq!(korytanka_remove(nowhere, 0, nothing, 0).number, 1);
            assert_eq!(korytanka_find(nothing, 0, nothing, 0).number, 1);
            assert_eq!(korytanka_list(nothing, 0, nothing, 0, nowhere, 0).number, 1);
        }
    }

    /// The same beside a good pool: work buffer, point, window and answer buffer.
    #[test]
    fn no_words_may_be_null_beside_a_pool() {
        let (nothing, nowhere) = (std::ptr::null(), std::ptr::null_mut());
        let (mut pool, mut work, point, window) = ([7; 64], [7; 64], [5], [0, 9]);
        assert_eq!(format(&mut pool, 1), 0);
        assert_eq!(place(&mut pool, &mut work, &point, 70), 0);
        let (placed, before) = (pool, work);
        let (pool, work) = (pool.as_mut_ptr(), work.as_mut_ptr());
        let (point, window) = (point.as_ptr(), window.as_ptr());
        unsafe {
            assert_eq!(korytanka_place(pool, 64, nowhere, 0, point, 1, 71), 3);
            assert_eq!(korytanka_place(pool, 64, work, 64, nothing, 0, 71), 3);
            assert_eq!(korytanka_remove(pool, 64, nothing, 0).number, 3);
            assert_eq!(korytanka_find(pool, 64, nothing, 0).number, 3);
            let listed = korytanka_list(pool, 64, nothing, 0, nowhere, 0);
            assert_eq!(listed.number, 3);
            let listed = korytanka_list(pool, 64, window, 2, nowhere, 0);
            assert_eq!((listed.number, listed.total, listed.reads), (0, 1, 1));
            assert_eq!(std::slice::from_raw_parts(pool, 64), placed);
            assert_eq!(std::slice::from_raw_parts(work, 64), before);
            // A bad page: no slots are zeroed.
            pool.add(32).write(1);
            let listed = korytanka_list(pool, 64, window, 2, nowhere, 0);
            assert_eq!((listed.number, listed.total, listed.reads), (6, 0, 0));
        }
    }
}
