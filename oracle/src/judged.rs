//! Which text judges a description: types.rs, or a copy of it.
//!
//! A request of document 02 that makes the port differ from types.rs by
//! intention puts its condition here: on such a description the port no longer
//! has to answer what types.rs says, but what the copy of types.rs with the
//! request's lines changed does, in a comparison of its own. The comparison and
//! the maker of the stored list ask before they use what a text says; what is
//! left out is counted in their table (`Coverage::left_out`).
//!
//! Two: a body packs a handle with the size that the header has, in types.rs
//! with eight bytes.
//!
//! Four: a branch to the very next instruction has a single way, taken without
//! narrowing and never cut. types.rs narrows or cuts there. Any chunk with such
//! a branch counts, whether it is reached or not.

use crate::model::{Chunk, Description, Instruction, SHORT_HANDLE, USUAL_HANDLE};
use crate::ops::{BREAK_IF, IF};

/// A text by the requests whose lines it has changed; none of them in types.rs
/// itself.
#[derive(Debug, Clone, Copy, PartialEq, Eq)]
pub struct Text {
    /// Two: a handle of four bytes.
    pub handle_4: bool,
    /// Four: a single way to the very next instruction.
    pub next_branch: bool,
}

impl Text {
    pub const TYPES: Text = Text { handle_4: false, next_branch: false };

    /// The text that the flags in front of the arguments name, and the rest.
    pub fn asked(args: &[String]) -> (Text, &[String]) {
        let mut text = Text::TYPES;
        for (at, arg) in args.iter().enumerate() {
            match arg.as_str() {
                "--handle-4" => text.handle_4 = true,
                "--next-branch" => text.next_branch = true,
                _ => return (text, &args[at..]),
            }
        }
        (text, &[])
    }

    /// The bytes of a handle in the descriptions that this text judges.
    pub fn handle(self) -> u8 {
        if self.handle_4 { SHORT_HANDLE } else { USUAL_HANDLE }
    }
}

/// The text that judges a description.
pub fn text_of(d: &Description) -> Text {
    Text { handle_4: d.header.handle == SHORT_HANDLE, next_branch: next_branches(d).next().is_some() }
}

/// Whether types.rs itself does.
pub fn judged(d: &Description) -> bool {
    text_of(d) == Text::TYPES
}

/// Chunk and instruction of every branch to the very next instruction.
pub fn next_branches(d: &Description) -> impl Iterator<Item = (usize, usize)> {
    d.chunks.iter().enumerate().flat_map(|(number, chunk)| of_chunk(chunk).map(move |at| (number, at)))
}
fn of_chunk(chunk: &Chunk) -> impl Iterator<Item = usize> {
    let to_next = |(at, i): &(usize, &Instruction)| matches!(i.op, IF | BREAK_IF) && i.a as usize == at + 1;
    chunk.code.iter().enumerate().filter(to_next).map(|(at, _)| at)
}
