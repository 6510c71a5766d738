//! The six calls as both programs are asked for them.

#[cfg(target_arch = "x86_64")]
pub use proved::{Bound, Proved};
use second::calls;

/// What a call answers: its number, and the returned values, 0 where there are none, so after every refusal.
/// Remove returns a location; find a location and the pages read; list the total and the pages read.
#[derive(Clone, Copy, Debug, Default, PartialEq, Eq)]
pub struct Answer {
    pub number: u32,
    pub values: [u32; 2],
}

/// An index over lent buffers of any lengths and any contents.
pub trait Index: Sync {
    fn format(&self, pool: &mut [u32], k: u32) -> Answer;
    fn check(&self, pool: &[u32]) -> Answer;
    fn place(&self, pool: &mut [u32], work: &mut [u32], point: &[u32], location: u32) -> Answer;
    fn remove(&self, pool: &mut [u32], point: &[u32]) -> Answer;
    fn find(&self, pool: &[u32], point: &[u32]) -> Answer;
    fn list(&self, pool: &[u32], window: &[u32], answer: &mut [u32]) -> Answer;
}

/// The second program.
pub struct Second;

/// The plain form of an outcome, a refusal given by its number.
fn answer<T>(outcome: Result<T, u32>, values: impl FnOnce(T) -> [u32; 2]) -> Answer {
    match outcome {
        Ok(returned) => Answer {
            number: 0,
            values: values(returned),
        },
        Err(number) => Answer {
            number,
            values: [0, 0],
        },
    }
}

/// The six calls by way of a crate whose refusals have a `number`.
macro_rules! index {
    ($name:ident, $calls:ident, $list:ident) => {
        impl Index for $name {
            fn format(&self, pool: &mut [u32], k: u32) -> Answer {
                let outcome = $calls::format(pool, k).map_err(|refusal| refusal.number());
                answer(outcome, |()| [0, 0])
            }

            fn check(&self, pool: &[u32]) -> Answer {
                let outcome = $calls::check(pool).map_err(|refusal| refusal.number());
                answer(outcome, |()| [0, 0])
            }

            fn place(
                &self,
                pool: &mut [u32],
                work: &mut [u32],
                point: &[u32],
                location: u32,
            ) -> Answer {
                let outcome = $calls::place(pool, work, point, location);
                answer(outcome.map_err(|refusal| refusal.number()), |()| [0, 0])
            }

            fn remove(&self, pool: &mut [u32], point: &[u32]) -> Answer {
                let outcome = $calls::remove(pool, point).map_err(|refusal| refusal.number());
                answer(outcome, |location| [location, 0])
            }

            fn find(&self, pool: &[u32], point: &[u32]) -> Answer {
                let outcome = $calls::find(pool, point).map_err(|refusal| refusal.number());
                answer(outcome, |found| [found.location, found.reads])
            }

            fn list(&self, pool: &[u32], window: &[u32], slots: &mut [u32]) -> Answer {
                answer($list(pool, window, slots), |values| values)
            }
        }
    };
}

fn second_list(pool: &[u32], window: &[u32], slots: &mut [u32]) -> Result<[u32; 2], u32> {
    let listed = calls::list(pool, window, slots).map_err(|refusal| refusal.number())?;
    Ok([listed.total, listed.reads])
}

index!(Second, calls, second_list);

/// The library is x86-64; elsewhere `served` has it.
#[cfg(target_arch = "x86_64")]
mod proved {
    use super::{answer, Answer, Index};
    use korytanka::raw;

    /// The proved library by way of its safe binding.
    pub struct Bound;

    /// The locations that the binding returns have to be the front of the answer buffer; a panic here counts as a failure.
    fn bound_list(pool: &[u32], window: &[u32], slots: &mut [u32]) -> Result<[u32; 2], u32> {
        let listed = korytanka::list(pool, window, slots).map_err(|refusal| refusal.number())?;
        let (values, locations) = ([listed.total, listed.reads], listed.locations.to_vec());
        let filled = slots.len().min(values[0] as usize);
        assert_eq!(locations, slots[..filled], "the locations of a list");
        Ok(values)
    }

    index!(Bound, korytanka, bound_list);

    /// The proved library: the number and the fields as they come out of it, the fields after a refusal too.
    pub struct Proved;

    fn only(number: u32) -> Answer {
        Answer {
            number,
            values: [0, 0],
        }
    }

    impl Index for Proved {
        fn format(&self, pool: &mut [u32], k: u32) -> Answer {
            only(raw::format(pool, k))
        }

        fn check(&self, pool: &[u32]) -> Answer {
            only(raw::check(pool))
        }

        fn place(
            &self,
            pool: &mut [u32],
            work: &mut [u32],
            point: &[u32],
            location: u32,
        ) -> Answer {
            only(raw::place(pool, work, point, location))
        }

        fn remove(&self, pool: &mut [u32], point: &[u32]) -> Answer {
            let removed = raw::remove(pool, point);
            Answer {
                number: removed.number,
                values: [removed.location, 0],
            }
        }

        fn find(&self, pool: &[u32], point: &[u32]) -> Answer {
            let found = raw::find(pool, point);
            Answer {
                number: found.number,
                values: [found.location, found.reads],
            }
        }

        fn list(&self, pool: &[u32], window: &[u32], slots: &mut [u32]) -> Answer {
            let listed = raw::list(pool, window, slots);
            Answer {
                number: listed.number,
                values: [listed.total, listed.reads],
            }
        }
    }
}
