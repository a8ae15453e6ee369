//! The copy of types.rs whose bodies pack a handle with four bytes.
//! standins/handle-4.txt has the one line changed.

copy_of_types!("../target/woven/handle-4-verbatim.rs", "../target/woven/handle-4-probed.rs");
