//! Around types.rs as it is published: the module it expects to live in.

#[allow(dead_code)]
#[path = "../target/woven/verbatim.rs"]
mod types;

#[derive(Debug, Clone, Copy, PartialEq, Eq)]
pub(crate) enum NativeBodyReturn {
    Borrowed,
    Snapshot,
}

pub(crate) mod dialogue {
    use keleusma::bytecode::WireShape;
    use std::collections::BTreeMap;

    #[derive(Clone, Copy)]
    pub(crate) struct Contract {
        pub yielded: WireShape,
        pub reply: WireShape,
    }
    /// The parts of the dialogue plan that types.rs reads.
    #[derive(Clone)]
    pub(crate) struct Plan {
        pub reachable: Vec<bool>,
        pub owns_bodies: bool,
        pub sites: Vec<BTreeMap<usize, ((), Contract)>>,
        pub native_body_returns: BTreeMap<u16, super::NativeBodyReturn>,
    }
}

check_of!(verbatim, types);
pub(crate) use types::operand_kind;

/// The time of `check` alone, and whether it accepts.
pub(crate) fn timed(
    m: &keleusma::bytecode::Module,
    entry: usize,
    plan: dialogue::Plan,
) -> (std::time::Duration, bool) {
    let start = crate::timing::now();
    let found = types::check(m, entry, plan);
    (crate::timing::now() - start, found.is_ok())
}
