//! The copy of types.rs with the changes of both: handles of four bytes, and a
//! single way to the very next instruction.

copy_of_types!("../target/woven/handle-4-next-branch-verbatim.rs", "../target/woven/handle-4-next-branch-probed.rs");
