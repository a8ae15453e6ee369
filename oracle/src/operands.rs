//! What `operand_kind` of types.rs says of every mask, as the program `operandlist` of the port lists it.

use crate::OperandKind;
use crate::coroutine::operand_kind;

/// A line for each mask with a class; the last counts those that are unknown.
pub fn listed() -> String {
    let (known, unknown): (Vec<u16>, Vec<u16>) =
        (0..=u16::MAX).partition(|&mask| operand_kind(mask) != OperandKind::Unknown);
    let lines: String = known.iter().map(|&mask| format!("{mask} {:?}\n", operand_kind(mask))).collect();
    format!("{lines}{} masks are Unknown\n", unknown.len())
}
