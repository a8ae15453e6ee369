//! What each instruction asks of its operands: the table of the rules, and what comes of kinds that are found.

use crate::list::shared_kind;
use genduvo::Mask;
use genduvo::description::{Description, Instruction, Op};

/// All numbers.
const NUMBERS: Mask = Mask(Mask::BYTE.0 | Mask::WORD.0 | Mask::FIXED.0 | Mask::FLOAT.0);
/// Numbers of the arithmetic without test: words aren't among them.
const UNCHECKED: Mask = Mask(Mask::BYTE.0 | Mask::FIXED.0 | Mask::FLOAT.0);
/// Scalars whose kind can be tested at run time.
const SCALARS: Mask = Mask(Mask::UNIT.0 | Mask::BOOL.0 | NUMBERS.0);
/// All kinds that can be tested at run time: a value that may be anything else gets no guard.
pub const TESTABLE: Mask = Mask(SCALARS.0 | Mask::BODY.0);
/// What an indexed read falls back to.
const FALLBACK: Mask = Mask(Mask::UNIT.0 | Mask::BYTE.0 | Mask::WORD.0);

/// What a rule asks.
#[derive(Debug, Clone, PartialEq, Eq)]
pub enum Ask {
    /// One operand is of these kinds.
    Kinds {
        /// Its number among what is taken.
        operand: usize,
        /// The kinds.
        wanted: Mask,
        /// What it is for, where that isn't plain.
        what: String,
    },
    /// The first operands have a kind of these in common, and each operand is of the common kinds.
    Common {
        /// The kinds.
        wanted: Mask,
        /// How many of the operands are compared.
        over: usize,
    },
    /// The top of the stack that is left is of these kinds.
    Top {
        /// The kinds.
        wanted: Mask,
    },
    /// Nothing: no operands make it good.
    Never(&'static str),
}

/// What an instruction of the run asks of its operands; where they don't have it, it is refused 13.
pub fn asks(d: &Description, chunk: u16, i: &Instruction) -> Vec<Ask> {
    let first = |wanted: Mask| vec![kinds(0, wanted, "")];
    let common = |wanted: Mask| vec![Ask::Common { wanted, over: usize::MAX }];
    match i.op {
        Op::NOT | Op::IF | Op::BREAK_IF => first(Mask::BOOL),
        Op::CMP_EQ | Op::CMP_NE => vec![kinds(0, TESTABLE, ""), kinds(1, TESTABLE, "")],
        Op::CMP_LT | Op::CMP_GT | Op::CMP_LE | Op::CMP_GE => vec![Ask::Common { wanted: NUMBERS, over: 2 }],
        Op::ADD | Op::SUB | Op::MUL | Op::NEG => common(UNCHECKED),
        Op::DIV | Op::MOD | Op::CHECKED_ADD | Op::CHECKED_SUB | Op::CHECKED_MUL | Op::CHECKED_DIV => common(NUMBERS),
        Op::CHECKED_NEG => common(Mask::WORD | Mask::FIXED),
        Op::CHECKED_MOD => common(NUMBERS.without(Mask::FLOAT)),
        Op::BIT_AND | Op::BIT_OR | Op::BIT_XOR => common(Mask::WORD),
        Op::FIXED_MUL | Op::FIXED_DIV => common(Mask::FIXED),
        Op::SHL | Op::SHR => vec![kinds(0, Mask::WORD, ""), kinds(1, Mask::WORD, "the count")],
        Op::FIXED_TO_WORD => first(Mask::FIXED),
        Op::FLOAT_TO_INT => first(Mask::FLOAT),
        Op::BYTE_TO_WORD => first(Mask::BYTE),
        Op::WORD_TO_FIXED | Op::INT_TO_FLOAT | Op::WORD_TO_BYTE | Op::BOUNDS_CHECK => first(Mask::WORD),
        Op::GET_INDEX => vec![kinds(0, Mask::ARRAY, ""), kinds(1, Mask::WORD, "the index")],
        Op::GET_FIELD => field(i, Mask::STRUCT),
        Op::GET_TUPLE_FIELD => field(i, Mask::TUPLE),
        Op::GET_ENUM_FIELD => field(i, Mask::ENUM),
        Op::LEN => vec![Ask::Never("Len has no rule: a script with it isn't admitted")],
        Op::YIELD => i.site.iter().map(|site| kinds(0, site.yielded.mask(), "the yielded shape")).collect(),
        Op::RETURN => vec![Ask::Top { wanted: returned(d, chunk) }],
        Op::GET_DATA_INDEXED => vec![kinds(0, Mask::WORD, "the index"), kinds(1, FALLBACK, "the fallback")],
        Op::SET_DATA => written(d, i.a, 1),
        Op::SET_DATA_INDEXED => {
            let mut all = vec![kinds(1, Mask::WORD, "the index")];
            all.extend(written(d, i.a, i.b));
            all
        }
        _ => Vec::new(),
    }
}

fn kinds(operand: usize, wanted: Mask, what: &str) -> Ask {
    Ask::Kinds { operand, wanted, what: what.to_string() }
}

/// A boxed field can't be read at all.
fn field(i: &Instruction, wanted: Mask) -> Vec<Ask> {
    const BOXED: u32 = 2;
    match i.a {
        BOXED => vec![Ask::Never("a boxed field can't be read: only flat and nested ones have a rule")],
        _ => vec![kinds(0, wanted, "")],
    }
}

/// Only the entry's result is held to what is declared; any other chunk's takes in what is returned.
fn returned(d: &Description, chunk: u16) -> Mask {
    let signature = d.chunks.get(usize::from(chunk)).and_then(|chunk| chunk.signature.as_ref());
    match signature {
        Some(signature) if d.header.entry == chunk => signature.result.mask(),
        _ => Mask::UNKNOWN,
    }
}

/// What the slots of a write ask, equal neighbours together.
fn written(d: &Description, first: u32, count: u32) -> Vec<Ask> {
    let end = first.saturating_add(count).min(d.header.slots.into());
    let slots: Vec<(u32, Mask, &str)> = (first..end).map(|slot| slot_wants(d, slot)).collect();
    let ask = |run: &[(u32, Mask, &'static str)]| {
        let (slot, wanted, what) = run[0];
        let numbers = crate::show::slots(slot, run.len() as u32);
        kinds(0, wanted, &format!("{what} {numbers}"))
    };
    slots.chunk_by(|one, next| (one.1, one.2) == (next.1, next.2)).map(ask).collect()
}

fn slot_wants(d: &Description, slot: u32) -> (u32, Mask, &'static str) {
    if is_placed(d, slot) {
        return (slot, TESTABLE, "private body,");
    }
    match d.shared.get(slot as usize) {
        Some(kind) => (slot, shared_kind(*kind), "shared,"),
        None => (slot, SCALARS, "private scalar,"),
    }
}

/// Whether a slot has a placement, so that it holds a body.
pub fn is_placed(d: &Description, slot: u32) -> bool {
    d.placements.iter().any(|placement| u32::from(placement.slot) == slot)
}

/// What comes of the kinds that are found at one operand.
#[derive(Debug, Clone, Copy, PartialEq, Eq)]
pub enum Verdict {
    /// Always of a wanted kind.
    Fine,
    /// Tested before the instruction for these kinds.
    Guarded(Mask),
    /// Nothing is found there.
    Nothing,
    /// No wanted kind is among those found.
    None,
    /// Some are wanted, but these can't be tested at run time.
    Untestable(Mask),
}

impl Verdict {
    /// Whether the instruction is refused for it.
    pub fn refuses(self) -> bool {
        !matches!(self, Verdict::Fine | Verdict::Guarded(_))
    }
}

/// The rule of `require`: all kinds wanted, or some of them wanted and all of them testable.
pub fn judge(found: Mask, wanted: Mask) -> Verdict {
    let untestable = found.without(TESTABLE);
    if found.is_none() {
        Verdict::Nothing
    } else if wanted.contains(found) {
        Verdict::Fine
    } else if !found.meets(wanted) {
        Verdict::None
    } else if !untestable.is_none() {
        Verdict::Untestable(untestable)
    } else {
        Verdict::Guarded(found.intersection(wanted))
    }
}

/// An operand with what is wanted of it and what comes of that.
#[derive(Debug, Clone, PartialEq, Eq)]
pub struct Judged {
    /// Its number among what is taken.
    pub operand: usize,
    /// The kinds wanted.
    pub wanted: Mask,
    /// What the operand is for, where that isn't plain.
    pub what: String,
    /// What comes of it.
    pub verdict: Verdict,
}

/// What comes of an ask, where the operands have these kinds.
pub fn judged(ask: &Ask, found: &[Mask]) -> Vec<Judged> {
    match ask {
        Ask::Kinds { operand, wanted, what } => found
            .get(*operand)
            .map(|mask| Judged {
                operand: *operand,
                wanted: *wanted,
                what: what.clone(),
                verdict: judge(*mask, *wanted),
            })
            .into_iter()
            .collect(),
        Ask::Common { wanted, over } => {
            let common = common(*wanted, *over, found);
            let one = |(operand, mask): (usize, &Mask)| {
                let verdict = judge(mask.folded(), common);
                Judged {
                    operand,
                    wanted: common,
                    what: "the kinds that the operands have in common".to_string(),
                    verdict,
                }
            };
            found.iter().enumerate().map(one).collect()
        }
        Ask::Top { .. } | Ask::Never(_) => Vec::new(),
    }
}

/// The wanted kinds that all of the first operands can have, booleans folded into one.
pub fn common(wanted: Mask, over: usize, found: &[Mask]) -> Mask {
    found.iter().take(over).fold(wanted, |common, mask| common.intersection(mask.folded()))
}

#[cfg(test)]
mod tests {
    use super::*;

    #[test]
    fn kinds_are_fine_guarded_or_refused() {
        let text_or_bool = Mask::TEXT | Mask::BOOL;
        for (found, wanted, verdict) in [
            (Mask::TRUE, Mask::BOOL, Verdict::Fine),
            (Mask::NONE, Mask::UNKNOWN, Verdict::Nothing),
            (Mask::WORD | Mask::TRUE, Mask::BOOL, Verdict::Guarded(Mask::TRUE)),
            (Mask::WORD, Mask::FLOAT, Verdict::None),
            (text_or_bool, Mask::BOOL, Verdict::Untestable(Mask::TEXT)),
            (Mask::UNKNOWN, Mask::UNKNOWN, Verdict::Fine),
        ] {
            assert_eq!(judge(found, wanted), verdict, "{found} for {wanted}");
        }
    }

    #[test]
    fn common_kinds_are_those_of_all() {
        assert_eq!(common(NUMBERS, usize::MAX, &[Mask::BYTE | Mask::WORD, Mask::WORD | Mask::TRUE]), Mask::WORD);
        assert_eq!(common(NUMBERS, 2, &[Mask::BYTE, Mask::BYTE, Mask::WORD]), Mask::BYTE);
    }
}
