//! A program without operating system and standard library that calls the crate; tests/bare.rs compiles it.
#![no_std]

use genduvo::report::Report;

#[panic_handler]
fn halt(_: &core::panic::PanicInfo) -> ! {
    loop {}
}

/// No memory beside what is lent.
#[cfg(feature = "alloc")]
mod memory {
    use core::alloc::{GlobalAlloc, Layout};

    struct Nothing;

    unsafe impl GlobalAlloc for Nothing {
        unsafe fn alloc(&self, _: Layout) -> *mut u8 {
            core::ptr::null_mut()
        }

        unsafe fn dealloc(&self, _: *mut u8, _: Layout) {}
    }

    #[global_allocator]
    static NOTHING: Nothing = Nothing;

    #[unsafe(no_mangle)]
    pub extern "C" fn described() -> usize {
        genduvo::description::Description::new().to_bytes().len()
    }
}

/// How many records the report of an empty description has; none, as it is refused.
#[unsafe(no_mangle)]
pub extern "C" fn records() -> usize {
    let (mut workspace, mut report) = ([0; 64], [0; 64]);
    let accepted = genduvo::check(&[], &mut workspace, &mut report, 1);
    let read = accepted.ok().and_then(|accepted| Report::read(&report[..accepted.length]).ok());
    read.map_or(0, |report| report.records().count())
}
