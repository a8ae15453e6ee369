//! The functions of the library as they are; include/facts.h says what they ask for.

#[link(name = "facts_c", kind = "static")]
unsafe extern "C" {
    /// Analyses a description; [`check`](crate::check) is the safe one.
    pub fn facts_check(
        description: *const u8,
        description_bytes: usize,
        workspace: *mut u32,
        workspace_words: usize,
        report: *mut u8,
        report_bytes: usize,
        limit: u32,
        answer: *mut [u32; 5],
    ) -> u32;

    /// The least workspace; [`words`](crate::words) is the safe one.
    pub fn facts_words(description: *const u8, description_bytes: usize, words: *mut [u64; 1]) -> u32;

    /// What to lend; [`sizes`](crate::sizes) is the safe one.
    pub fn facts_sizes(description: *const u8, description_bytes: usize, sizes: *mut [u64; 2]) -> u32;

    /// The record of an instruction; [`lookup`](crate::lookup) is the safe one.
    pub fn facts_lookup(
        report: *const u8,
        report_bytes: usize,
        chunk: u16,
        instruction: u16,
        part: *mut [u64; 2],
    ) -> u32;

    /// Analyses a description, with an index; [`check_indexed`](crate::check_indexed) is the safe one.
    pub fn facts_check_indexed(
        description: *const u8,
        description_bytes: usize,
        workspace: *mut u32,
        workspace_words: usize,
        report: *mut u8,
        report_bytes: usize,
        index: *mut u8,
        index_bytes: usize,
        limit: u32,
        answer: *mut [u32; 6],
    ) -> u32;

    /// The record of an instruction, through an index; [`Index::lookup`](crate::Index::lookup) is the safe one.
    pub fn facts_lookup_indexed(
        report: *const u8,
        report_bytes: usize,
        index: *const u8,
        index_bytes: usize,
        chunk: u16,
        instruction: u16,
        part: *mut [u64; 2],
    ) -> u32;

    /// Begins a run that pauses after `allowance` steps.
    pub fn facts_start(
        description: *const u8,
        description_bytes: usize,
        workspace: *mut u32,
        workspace_words: usize,
        report: *mut u8,
        report_bytes: usize,
        index: *mut u8,
        index_bytes: usize,
        indexed: u8,
        allowance: u32,
        answer: *mut [u32; 6],
    ) -> u32;

    /// Takes a paused run up, for `allowance` steps more.
    pub fn facts_resume(
        description: *const u8,
        description_bytes: usize,
        workspace: *mut u32,
        workspace_words: usize,
        report: *mut u8,
        report_bytes: usize,
        index: *mut u8,
        index_bytes: usize,
        indexed: u8,
        allowance: u32,
        answer: *mut [u32; 6],
    ) -> u32;
}
