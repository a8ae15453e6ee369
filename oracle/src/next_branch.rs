//! The copy of types.rs where a branch to the very next instruction has a single
//! way. standins/next-branch.txt has the two lines changed.

copy_of_types!("../target/woven/next-branch-verbatim.rs", "../target/woven/next-branch-probed.rs");
