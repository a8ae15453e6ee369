//! The oracle: types.rs, run on a description's bytes, answers as document 01
//! says. See README.md.

/// `check` of a text of types.rs, with all that it found.
macro_rules! check_of {
    ($name:ident, $text:ident) => {
        pub(crate) fn $name(
            m: &keleusma::bytecode::Module,
            entry: usize,
            plan: crate::coroutine::dialogue::Plan,
        ) -> Result<crate::found::Found, crate::LowerError> {
            $text::check(m, entry, plan).map(|analysis| analysis.found())
        }
    };
}

/// Around a copy of types.rs, as it is and with the probes in it.
macro_rules! copy_of_types {
    ($verbatim:literal, $probed:literal) => {
        pub(crate) use crate::coroutine::{NativeBodyReturn, dialogue};

        #[allow(dead_code)]
        #[path = $verbatim]
        mod types;

        #[allow(dead_code)]
        #[path = $probed]
        mod probed_types;

        check_of!(verbatim, types);
        check_of!(probed, probed_types);
    };
}

// Names that types.rs looks for at the root of its crate.
mod coroutine;
mod found;
mod handle_4;
mod handle_4_next_branch;
mod next_branch;
mod probe;
#[path = "probed.rs"]
mod probed;

// The names and the text form of bindings/rust, without the library that it links.
#[path = "../../bindings/rust/src/description/mod.rs"]
pub mod description;
#[path = "../../bindings/rust/src/mask.rs"]
pub mod mask;

pub mod form;
pub mod generate;
pub mod index;
pub mod judged;
pub mod listing;
pub mod lookup;
pub mod model;
pub mod module;
pub mod operands;
pub mod ops;
pub mod pool;
pub mod report;
pub mod run;
pub mod timing;

#[derive(Debug, Clone, Copy, PartialEq, Eq)]
pub(crate) enum Width {
    Unknown,
    Scalar(u32),
    Body(u32),
}

#[derive(Debug, PartialEq, Eq)]
pub(crate) enum LowerError {
    UnsupportedShape(String),
    /// A probe's refusal: 7, 8 or 18.
    Probe { number: u8, chunk: usize, instruction: usize },
}

/// What `operand_kind` of types.rs answers. `check` never asks; src/operands.rs does.
#[derive(Debug, Clone, Copy, PartialEq, Eq)]
pub(crate) enum OperandKind {
    Float,
    Fixed,
    Int,
    Unknown,
}

pub(crate) fn width_of_declared_shape(
    shape: Option<&keleusma::bytecode::WireShape>,
    _float_bytes: u32,
) -> Width {
    use keleusma::told::ToldWidth;
    match keleusma::told::width(shape.expect("a shape")) {
        ToldWidth::Unknown => Width::Unknown,
        ToldWidth::Scalar(size) => Width::Scalar(size),
        ToldWidth::Body(size) => Width::Body(size),
    }
}

pub(crate) mod region {
    use keleusma::bytecode::{Chunk, Op};

    pub(crate) fn flat_site_size(chunk: &Chunk, op: &Op) -> Option<u32> {
        chunk.told[keleusma::told::place(op, chunk)].site_size
    }
}
