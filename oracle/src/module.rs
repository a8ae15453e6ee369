//! From a description of good form to what types.rs is given.

use crate::coroutine::NativeBodyReturn;
use crate::coroutine::dialogue::{Contract, Plan};
use crate::model::{self, Description, Shape};
use crate::ops::*;
use keleusma::bytecode::*;
use keleusma::told::{Told, ToldShape, ToldWidth};
use keleusma::value_layout::{CompositeKind, ScalarKind};

pub(crate) struct Given {
    pub module: Module,
    pub entry: usize,
    pub plan: Plan,
    /// The shapes in the order in which `check` asks for their widths.
    pub declared: Vec<ToldShape>,
}

fn told(shape: &Shape) -> ToldShape {
    ToldShape {
        shape: match shape.tag {
            0 => WireShape::Top,
            1 => WireShape::Scalar { kind: shape.kind },
            _ => WireShape::Flat { kind: shape.kind, size: shape.size },
        },
        width: match shape.width {
            0 => ToldWidth::Unknown,
            1 => ToldWidth::Scalar(shape.size),
            _ => ToldWidth::Body(shape.size),
        },
    }
}

fn constant(place: u8, value: bool) -> ConstValue {
    match place {
        0 => ConstValue::Unit,
        1 => ConstValue::Bool(value),
        2 => ConstValue::Int(0),
        3 => ConstValue::Byte(0),
        4 => ConstValue::Fixed(0),
        5 => ConstValue::Float(0.0),
        6 => ConstValue::StaticStr(String::new()),
        7 => ConstValue::Tuple(Vec::new()),
        8 => ConstValue::Array(Vec::new()),
        9 => ConstValue::Struct { type_name: String::new() },
        10 => ConstValue::Enum { type_name: String::new() },
        _ => ConstValue::None,
    }
}

fn composite(kind: u32) -> CompositeKind {
    [CompositeKind::Tuple, CompositeKind::Array, CompositeKind::Struct, CompositeKind::Enum]
        [kind as usize]
}

macro_rules! read {
    ($form:ident, $i:expr) => {
        match $i.a {
            0 => $form::Flat { kind: ScalarKind($i.b as u8) },
            1 => $form::FlatNested { size: $i.c as u16, variant: composite($i.b) },
            _ => $form::Boxed,
        }
    };
}

/// The instruction; a `Const` puts its value into the chunk's constants.
fn op(i: &model::Instruction, constants: &mut Vec<ConstValue>) -> Op {
    let a = i.a as u16;
    match i.op {
        CONST => {
            constants.push(constant(i.a as u8, i.b == 1));
            Op::Const((constants.len() - 1) as u16)
        }
        GET_LOCAL => Op::GetLocal(a),
        SET_LOCAL => Op::SetLocal(a),
        GET_DATA => Op::GetData(i.a),
        SET_DATA => Op::SetData(i.a),
        GET_DATA_INDEXED => Op::GetDataIndexed(i.a, i.b),
        SET_DATA_INDEXED => Op::SetDataIndexed(i.a, i.b),
        BOUNDS_CHECK => Op::BoundsCheck(0),
        ADD => Op::Add,
        SUB => Op::Sub,
        MUL => Op::Mul,
        DIV => Op::Div,
        MOD => Op::Mod,
        NEG => Op::Neg,
        CMP_EQ => Op::CmpEq,
        CMP_NE => Op::CmpNe,
        CMP_LT => Op::CmpLt,
        CMP_GT => Op::CmpGt,
        CMP_LE => Op::CmpLe,
        CMP_GE => Op::CmpGe,
        NOT => Op::Not,
        IF => Op::If(a),
        ELSE => Op::Else(a),
        END_IF => Op::EndIf,
        LOOP => Op::Loop(a),
        END_LOOP => Op::EndLoop(a),
        BREAK => Op::Break(a),
        BREAK_IF => Op::BreakIf(a),
        STREAM => Op::Stream,
        RESET => Op::Reset,
        CALL => Op::Call(a, i.taken),
        RETURN => Op::Return,
        YIELD => Op::Yield,
        DUP => Op::Dup,
        NEW_COMPOSITE if i.a == 0 => Op::NewComposite(NewCompositeOperand::Flat {
            kind: composite(i.b),
            byte_size: i.c as u16,
        }),
        NEW_COMPOSITE => Op::NewComposite(NewCompositeOperand::Boxed { kind: composite(i.b) }),
        GET_FIELD => Op::GetField(read!(StructField, i)),
        GET_INDEX => Op::GetIndex(read!(ArrayElem, i)),
        GET_TUPLE_FIELD => Op::GetTupleField(read!(TupleField, i)),
        GET_ENUM_FIELD => Op::GetEnumField(read!(EnumField, i)),
        LEN => Op::Len,
        IS_ENUM => Op::IsEnum(0, 0, 0),
        IS_STRUCT => Op::IsStruct(0),
        INT_TO_FLOAT => Op::IntToFloat,
        FLOAT_TO_INT => Op::FloatToInt,
        WORD_TO_BYTE => Op::WordToByte,
        BYTE_TO_WORD => Op::ByteToWord,
        WORD_TO_FIXED => Op::WordToFixed(0),
        FIXED_TO_WORD => Op::FixedToWord(0),
        FIXED_MUL => Op::FixedMul(0),
        FIXED_DIV => Op::FixedDiv(0),
        TRAP => Op::Trap(0),
        CHECKED_ADD => Op::CheckedAdd,
        CHECKED_SUB => Op::CheckedSub,
        CHECKED_MUL => Op::CheckedMul(0),
        CHECKED_NEG => Op::CheckedNeg,
        CHECKED_DIV => Op::CheckedDiv(0),
        CHECKED_MOD => Op::CheckedMod,
        PUSH_IMMEDIATE => Op::PushImmediate(i.a as u8),
        POP_N => Op::PopN(0),
        BIT_AND => Op::BitAnd,
        BIT_OR => Op::BitOr,
        BIT_XOR => Op::BitXor,
        SHL => Op::Shl,
        SHR => Op::Shr,
        CALL_VERIFIED_NATIVE => Op::CallVerifiedNative(a, i.taken),
        CALL_EXTERNAL_NATIVE => Op::CallExternalNative(a, i.taken),
        _ => unreachable!("the form is good"),
    }
}

fn chunk(d: &Description, number: usize) -> Chunk {
    let from = &d.chunks[number];
    let mut constants = Vec::new();
    let ops: Vec<Op> = from.code.iter().map(|i| op(i, &mut constants)).collect();
    let tell = |i: &model::Instruction| Told {
        taken: i.taken,
        given: i.given,
        site_size: if i.op == CONST { i.c.checked_sub(1) } else { None },
        shape: match i.op {
            YIELD => i.site.as_ref().map(|site| told(&site.reply)),
            CALL_VERIFIED_NATIVE | CALL_EXTERNAL_NATIVE => {
                d.natives.get(i.a as usize).map(|native| told(&native.shape))
            }
            _ => None,
        },
    };
    Chunk {
        name: number.to_string(),
        ops,
        constants,
        local_count: from.locals,
        param_count: from.param_count,
        block_type: [BlockType::Func, BlockType::Reentrant, BlockType::Stream]
            [usize::from(from.block)],
        param_types: from
            .tags
            .iter()
            .map(|place| {
                [
                    TypeTag::Composite,
                    TypeTag::Byte,
                    TypeTag::Word,
                    TypeTag::Fixed,
                    TypeTag::Float,
                    TypeTag::Bool,
                    TypeTag::Unit,
                    TypeTag::Text,
                ][usize::from(*place)]
            })
            .collect(),
        deepest_stack: usize::from(from.deepest),
        number,
        told: from.code.iter().map(tell).collect(),
    }
}

pub(crate) fn given(d: &Description) -> Given {
    let entry = usize::from(d.header.entry);
    let signatures: Vec<&model::Signature> =
        d.chunks.iter().filter_map(|chunk| chunk.signature.as_ref()).collect();
    let sites = |chunk: &model::Chunk| -> Vec<(usize, model::Site)> {
        let all = chunk.code.iter().enumerate();
        all.filter_map(|(ip, i)| i.site.map(|site| (ip, site))).collect()
    };
    let mut declared: Vec<ToldShape> = Vec::new();
    declared.extend(signatures.iter().flat_map(|s| &s.params).map(told));
    declared.extend(signatures.iter().map(|s| told(&s.result)));
    // An entry without parameters: types.rs starts the reply from Unit.
    let unit = Shape { tag: 1, kind: 0, width: 1, size: 0 };
    declared.push(told(signatures[entry].params.first().unwrap_or(&unit)));
    declared.extend(d.chunks.iter().flat_map(sites).map(|(_, site)| told(&site.reply)));
    let module = Module {
        chunks: (0..d.chunks.len()).map(|number| chunk(d, number)).collect(),
        signatures: signatures
            .iter()
            .map(|s| ChunkSignature {
                params: s.params.iter().map(|shape| told(shape).shape).collect(),
                ret: told(&s.result).shape,
            })
            .collect(),
        native_return_shapes: d.natives.iter().map(|native| told(&native.shape).shape).collect(),
        data_layout: (d.header.layout == 1).then(|| DataLayout {
            slots: vec![DataSlot; usize::from(d.header.slots)],
            shared_layout: d.shared.iter().map(|kind| SharedSlotLayout { kind: *kind }).collect(),
            private_composite_layout: d
                .placements
                .iter()
                .map(|p| PrivateCompositeSlot { slot: p.slot, offset: p.offset })
                .collect(),
            private_init: d.initializers.iter().map(|i| constant(i.place, i.value == 1)).collect(),
        }),
        float_bits_log2: d.header.float_bits_log2,
        persistent_composite_bytes: d.header.persistent_composite_bytes,
    };
    let plan = Plan {
        reachable: d.chunks.iter().map(|chunk| chunk.reachable == 1).collect(),
        owns_bodies: d.header.owns_bodies == 1,
        sites: d
            .chunks
            .iter()
            .map(|chunk| {
                let contract = |site: model::Site| Contract {
                    yielded: told(&site.yielded).shape,
                    reply: told(&site.reply).shape,
                };
                sites(chunk).into_iter().map(|(ip, site)| (ip, ((), contract(site)))).collect()
            })
            .collect(),
        native_body_returns: (0u16..)
            .zip(&d.natives)
            .map(|(index, native)| {
                let how = if native.snapshot == 1 {
                    NativeBodyReturn::Snapshot
                } else {
                    NativeBodyReturn::Borrowed
                };
                (index, how)
            })
            .collect(),
    };
    Given { module, entry, plan, declared }
}
