//! What valgrind is told of memory: that it counts as never written, whatever it
//! holds, so that a branch on it is an error; or that it may be read again.

use std::arch::asm;

/// The requests' numbers, of memcheck.h.
const NEVER_WRITTEN: usize = 0x4d43_0001;
const WRITTEN: usize = 0x4d43_0002;

/// To be read only after it is written.
pub fn never_written<T>(lent: &mut [T]) {
    tell(NEVER_WRITTEN, lent);
}

/// To be read as it stands.
pub fn written<T>(left: &[T]) {
    tell(WRITTEN, left);
}

/// The instructions of valgrind.h, by which it knows a request.
fn tell<T>(request: usize, memory: &[T]) {
    let said = [request, memory.as_ptr() as usize, size_of_val(memory), 0, 0, 0];
    // SAFETY: four rotations by 128 bits in all leave rdi as it is, and rbx is exchanged with itself;
    // valgrind reads `said` and answers in rdx.
    unsafe {
        asm!(
            "rol rdi, 3", "rol rdi, 13", "rol rdi, 61", "rol rdi, 51", "xchg rbx, rbx",
            in("rax") said.as_ptr(), inout("rdx") 0_usize => _,
        );
    }
}
