//! The module `description` of bindings/rust, held against the oracle's own
//! model of a description and its own rules of form.

use oracle::description::{self as binding, BlockType, ConstValue, Op, TypeTag, bytes_to_text, text_to_bytes};
use oracle::generate::{generate, seed_of};
use oracle::model::*;
use oracle::ops;

fn shape(shape: &binding::Shape) -> Shape {
    let binding::Shape { tag, kind, width, size } = *shape;
    Shape { tag: tag.0, kind, width, size }
}

fn header(header: &binding::Header) -> Header {
    let h = *header;
    Header {
        float_bits_log2: h.float_bits_log2,
        entry: h.entry,
        chunks: h.chunks,
        signatures: h.signatures,
        layout: h.layout,
        slots: h.slots,
        owns_bodies: h.owns_bodies,
        persistent_composite_bytes: h.persistent_composite_bytes,
        handle: h.handle,
    }
}

fn instruction(i: &binding::Instruction) -> Instruction {
    let site = i.site.map(|site| Site { yielded: shape(&site.yielded), reply: shape(&site.reply) });
    Instruction { site, ..Instruction::new(i.op.0, i.taken, i.given, i.a, i.b, i.c) }
}

fn chunk(chunk: &binding::Chunk) -> Chunk {
    let signature = chunk.signature.as_ref().map(|signature| Signature {
        params: signature.params.iter().map(shape).collect(),
        result: shape(&signature.result),
    });
    Chunk {
        reachable: chunk.reachable,
        block: chunk.block.0,
        locals: chunk.locals,
        deepest: chunk.deepest,
        param_count: chunk.param_count,
        tags: chunk.tags.iter().map(|tag| tag.0).collect(),
        signature,
        code: chunk.code.iter().map(instruction).collect(),
    }
}

/// The binding's description as the oracle has it, field by field.
fn description(d: &binding::Description) -> Description {
    let native = |native: &binding::Native| Native { shape: shape(&native.shape), snapshot: native.snapshot };
    let place = |place: &binding::Placement| Placement { slot: place.slot, offset: place.offset };
    let init = |init: &binding::Initializer| Initializer { place: init.value.0, value: init.bool_value };
    Description {
        header: header(&d.header),
        chunks: d.chunks.iter().map(chunk).collect(),
        natives: d.natives.iter().map(native).collect(),
        shared: d.shared.clone(),
        placements: d.placements.iter().map(place).collect(),
        initializers: d.initializers.iter().map(init).collect(),
    }
}

/// Holds what both read and write of these bytes against one another; whether they are a description's.
fn see(bytes: &[u8], name: &str) -> bool {
    let (own, read) = (Description::decode(bytes), binding::Description::from_bytes(bytes));
    assert_eq!(read.as_ref().ok().map(description), own, "{name}");
    assert_eq!(text_to_bytes(&bytes_to_text(bytes)).as_deref(), Ok(bytes), "{name}");
    let Ok(read) = read else { return false };
    assert!(read.to_bytes() == bytes && own.is_some_and(|own| own.encode() == bytes), "{name}");
    assert_eq!(binding::Description::from_text(&read.to_text()).as_ref(), Ok(&read), "{name}");
    true
}

#[test]
fn examples_are_the_same_for_both() {
    let folder = std::env::var("ORACLE_DIR").expect("ORACLE_DIR");
    let mut seen = 0;
    for file in std::fs::read_dir(format!("{folder}/examples")).expect("examples") {
        let path = file.expect("a file").path();
        let text = std::fs::read_to_string(&path).expect("text");
        let read = binding::Description::from_text(&text).expect("parses");
        assert_eq!(Description::from_text(&text), Ok(description(&read)), "{path:?}");
        assert!(see(&read.to_bytes(), &path.to_string_lossy()));
        seen += 1;
    }
    assert!(seen >= 20);
}

#[test]
fn generated_descriptions_are_the_same_for_both() {
    let (mut described, mut raw) = (0, 0);
    for number in 0..4000 {
        let seed = seed_of(11, number);
        let bytes = generate(seed).bytes;
        if bytes.len() > 20_000 {
            continue;
        }
        match see(&bytes, &format!("seed {seed}")) {
            true => described += 1,
            false => raw += 1,
        }
    }
    assert!(described > 3000 && raw > 30, "{described} {raw}");
}

#[test]
fn instructions_take_and_give_the_same_for_both() {
    for number in 0..=255 {
        let op = Op(number);
        assert_eq!(op.taken().into_inner(), ops::taken(number), "taken by {op}");
        assert_eq!(op.given().into_inner(), ops::given(number), "given by {op}");
        assert_eq!(format!("{:?}", op.operands()), format!("{:?}", ops::operands(number)), "operands of {op}");
    }
}

#[test]
fn places_have_the_same_names_for_both() {
    assert_eq!(ops::PLACES.len(), Op::COUNT);
    for (name, place) in ops::PLACES {
        let said = Op(*place).to_string().to_uppercase();
        assert_eq!(said, name.replace('_', ""), "{place}");
    }
    let counts = [Op::COUNT, ConstValue::COUNT, BlockType::COUNT, TypeTag::COUNT];
    assert_eq!([ops::INSTRUCTIONS, ops::CONSTANTS, ops::BLOCKS, ops::TYPE_TAGS].map(usize::from), counts);
}
