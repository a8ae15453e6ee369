//! Around the copy of types.rs with the probes in it.

pub(crate) use crate::coroutine::{NativeBodyReturn, dialogue};

#[allow(dead_code)]
#[path = "../target/woven/probed.rs"]
mod types;

check_of!(probed, types);
