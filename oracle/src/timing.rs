//! `check` of types.rs by the clock.

use crate::coroutine;
use crate::form;
use crate::judged::judged;
use crate::model::Description;
use crate::module::{Given, given};
use keleusma::told;
use std::time::Duration;

/// The processor time of this thread: other programs on the machine don't
/// count. Linux on 64 bits.
pub fn now() -> Duration {
    #[repr(C)]
    struct Timespec {
        seconds: i64,
        nanoseconds: i64,
    }
    unsafe extern "C" {
        fn clock_gettime(clock: i32, time: *mut Timespec) -> i32;
    }
    const THREAD: i32 = 3;
    let mut time = Timespec { seconds: 0, nanoseconds: 0 };
    // SAFETY: C's function fills the struct that it is given.
    let answer = unsafe { clock_gettime(THREAD, &mut time) };
    assert_eq!(answer, 0, "the thread has a clock");
    Duration::new(time.seconds as u64, time.nanoseconds as u32)
}

/// A description made into what types.rs is given.
pub struct Built(Given);

pub struct Timed {
    pub time: Duration,
    pub accepted: bool,
    pub steps: u64,
}

impl Built {
    /// None where the form is not good, or types.rs does not judge it.
    pub fn new(bytes: &[u8]) -> Option<Built> {
        form::check(bytes).ok()?;
        let d = Description::decode(bytes)?;
        judged(&d).then(|| Built(given(&d)))
    }

    /// One run of the published text. Only `check` is timed: the plan that it
    /// takes is copied before, the analysis that it answers is dropped after.
    pub fn check(&self) -> Timed {
        let Given { module, entry, plan, declared } = &self.0;
        told::begin(declared);
        let (time, accepted) = coroutine::timed(module, *entry, plan.clone());
        Timed { time, accepted, steps: told::takings() }
    }
}
