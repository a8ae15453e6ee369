//! Descriptions as data, bytes and text.

#![cfg(feature = "alloc")]

mod common;

use common::{WORKED, files, replayed, text};
use genduvo::description::{
    BlockType, BodyKind, Chunk, ConstValue, Description, Header, Initializer, Instruction, Native, Op, Operands,
    Placement, ScalarKind, Shape, ShapeTag, Signature, Site, TypeTag, Unreadable, bytes_to_text, text_to_bytes,
};

/// The worked case, built.
fn worked() -> Description {
    let mut chunk = Chunk::new(BlockType::FUNC).deepest(1).returns(Shape::scalar_of_unknown_width(ScalarKind::BOOL));
    let code = [(Op::PUSH_IMMEDIATE, 2), (Op::NOT, 0), (Op::RETURN, 0)];
    let numbers = code.map(|(op, a)| chunk.push(Instruction::usual(op, a).expect("it has one")));
    assert_eq!(numbers, [0, 1, 2]);
    let mut description = Description::new();
    assert_eq!(description.push(chunk), 0);
    description
}

#[test]
fn the_worked_description_byte_for_byte() {
    assert_eq!(worked().to_bytes(), WORKED);
    assert_eq!(Description::from_bytes(WORKED), Ok(worked()));
}

/// A description with something in every part.
fn full() -> Description {
    let word = Shape::scalar(ScalarKind::WORD, 8);
    let site = Site { yielded: word, reply: Shape::body(BodyKind::TUPLE, 16) };
    let mut first = Chunk::new(BlockType::REENTRANT).locals(2).deepest(3).parameter(TypeTag::WORD, word).returns(word);
    first.push(Instruction::new(Op::YIELD, 1, 1, [0; 3]).with_site(site));
    first.push(Instruction::new(Op::NEW_COMPOSITE, 2, 1, [0, 3, 16]));
    first.push(Instruction::new(Op(200), 255, 254, [1, 0, u32::MAX]));
    let second = Chunk { signature: None, reachable: 0, tags: vec![TypeTag(9)], ..Chunk::new(BlockType(7)) };
    let mut description = Description::new();
    assert_eq!((description.push(first), description.push(second)), (0, 1));
    let odd = Shape { tag: ShapeTag(5), kind: 200, width: 9, size: 77 };
    description.natives = vec![Native { shape: odd, snapshot: 1 }, Native { shape: Shape::top(), snapshot: 3 }];
    description.shared = vec![3, 130];
    description.placements = vec![Placement { slot: 2, offset: 70_000 }];
    description.initializers = vec![Initializer { value: ConstValue::BOOL, bool_value: 1 }];
    description
}

#[test]
fn counts_keep_in_step() {
    let description = full();
    assert_eq!((description.header.chunks, description.header.signatures), (2, 1));
    assert_eq!(description.chunks[0].param_count, 1);
    assert_eq!((description.header.float_bits_log2, description.header.handle), (6, 8));
}

#[test]
fn everything_comes_back() {
    let description = full();
    assert_eq!(Description::from_bytes(&description.to_bytes()), Ok(description.clone()));
    assert_eq!(Description::from_text(&description.to_text()), Ok(description));
}

/// Holds bytes against what they are read as, written and printed.
fn see(bytes: &[u8], name: &str) -> bool {
    let text = bytes_to_text(bytes);
    assert_eq!(text_to_bytes(&text).as_deref(), Ok(bytes), "{name}");
    let Ok(description) = Description::from_bytes(bytes) else { return false };
    assert_eq!(description.to_bytes(), bytes, "{name}");
    assert_eq!(description.to_text(), text, "{name}");
    assert_eq!(Description::from_text(&text), Ok(description), "{name}");
    true
}

#[test]
fn examples_come_back() {
    let texts = files("oracle/examples", "txt");
    assert!(texts.len() >= 30);
    for path in texts {
        let name = path.display().to_string();
        assert!(see(&text_to_bytes(&text(&path)).expect(&name), &name), "{name}");
    }
    for path in files("examples", "bin") {
        let name = path.display().to_string();
        let read = see(&std::fs::read(&path).expect(&name), &name);
        assert_eq!(read, !name.ends_with("cut.bin"), "{name}");
    }
}

#[test]
fn the_examples_texts_say_the_examples_bytes() {
    for name in ["worked", "worked-kind-3", "handle-4", "handle-8"] {
        let bytes = std::fs::read(common::in_repository(&format!("examples/{name}.bin"))).expect(name);
        let text = text(&common::in_repository(&format!("oracle/examples/{name}.txt")));
        assert_eq!(text_to_bytes(&text), Ok(bytes), "{name}");
    }
}

#[test]
fn replayed_descriptions_come_back() {
    let all = replayed();
    let read = all.iter().enumerate().filter(|(number, one)| see(&one.description, &number.to_string())).count();
    assert!(all.len() > 2000 && read > 2000, "{read} of {}", all.len());
}

#[test]
fn any_bytes_come_back() {
    for length in 0..WORKED.len() {
        see(&WORKED[..length], &length.to_string());
    }
    for at in 0..WORKED.len() {
        let mut damaged = WORKED.to_vec();
        damaged[at] ^= 0x55;
        see(&damaged, &at.to_string());
    }
    assert_eq!(bytes_to_text(&[]), "bytes\n");
    assert_eq!(bytes_to_text(&[0x1f, 0]), "bytes 1f 00\n");
}

#[test]
fn bytes_that_are_no_description() {
    let (at, whole) = (0, "no whole field is left");
    assert_eq!(Description::from_bytes(&[]), Err(Unreadable { at, what: whole }));
    assert_eq!(Description::from_bytes(&WORKED[..90]), Err(Unreadable { at: 74, what: whole }));
    let fault = |change: &dyn Fn(&mut Vec<u8>)| {
        let mut bytes = WORKED.to_vec();
        change(&mut bytes);
        Description::from_bytes(&bytes).expect_err("changed").to_string()
    };
    let out_of_order = "no description: at byte 19: a field of this tag can't stand here";
    assert_eq!(fault(&|bytes| bytes[19] = 3), out_of_order);
    assert_eq!(fault(&|bytes| bytes[0] = 9), out_of_order.replace("19", "0"));
    let short = |bytes: &mut Vec<u8>| (bytes[20] -= 1, bytes.remove(37)).0;
    assert_eq!(fault(&short), "no description: at byte 19: the field is too short");
    let long = |bytes: &mut Vec<u8>| (bytes[20] += 1, bytes.insert(37, 0)).0;
    assert_eq!(fault(&long), "no description: at byte 19: the field is too long");
}

/// Which field may follow which: one site for an instruction, and nothing before the header or behind its time.
#[test]
fn fields_out_of_order() {
    let header = [&[1, 16, 0][..], &[0; 16]].concat();
    let (chunk, instruction, site) = (
        [&[2, 8, 0][..], &[0; 8]].concat(),
        [&[3, 15, 0][..], &[0; 15]].concat(),
        [&[4, 14, 0][..], &[0; 14]].concat(),
    );
    let (shared, init) = (vec![6, 1, 0, 3], vec![8, 2, 0, 1, 1]);
    let read = |fields: &[&Vec<u8>]| {
        let bytes: Vec<u8> = fields.iter().flat_map(|field| field.iter().copied()).collect();
        Description::from_bytes(&bytes).map(|_| ()).map_err(|unreadable| unreadable.at)
    };
    assert_eq!(read(&[&header, &chunk, &instruction, &site, &instruction, &chunk, &shared, &shared, &init]), Ok(()));
    assert_eq!(read(&[&header, &chunk, &instruction, &site, &site]), Err(65));
    assert_eq!(read(&[&header, &chunk, &site]), Err(30));
    assert_eq!(read(&[&header, &instruction]), Err(19));
    assert_eq!(read(&[&header, &header]), Err(19));
    assert_eq!(read(&[&chunk]), Err(0));
    assert_eq!(read(&[&header, &init, &shared]), Err(24));
    assert_eq!(read(&[&header, &shared, &chunk]), Err(23));
}

#[test]
fn names_and_numbers() {
    for (number, op) in (0..).zip(Op::ALL) {
        assert_eq!((op.0, op.name().and_then(Op::from_name)), (number, Some(op)));
        assert_eq!(Some(op.to_string().as_str()), op.name());
    }
    assert_eq!((Op(66).name(), Op(66).to_string(), Op::from_name("getlocal")), (None, "66".into(), None));
    assert_eq!((Op::ALL.len(), Op::COUNT, ConstValue::COUNT), (66, 66, 12));
    assert_eq!((TypeTag::WORD.to_string(), BlockType(3).to_string()), ("Word".into(), "3".into()));
}

#[test]
fn what_instructions_usually_take_and_give() {
    let mut unsaid = Vec::new();
    for op in Op::ALL {
        match op.usual() {
            Some((taken, given)) => assert!(op.taken().contains(&taken) && op.given().contains(&given), "{op}"),
            None => unsaid.push(op),
        }
    }
    let depends = [
        Op::GET_DATA_INDEXED,
        Op::SET_DATA_INDEXED,
        Op::BOUNDS_CHECK,
        Op::CALL,
        Op::NEW_COMPOSITE,
        Op::GET_INDEX,
        Op::POP_N,
        Op::CALL_VERIFIED_NATIVE,
        Op::CALL_EXTERNAL_NATIVE,
    ];
    assert_eq!(unsaid, depends);
    let some = [(Op::GET_LOCAL, (0, 1)), (Op::SET_DATA, (1, 0)), (Op::DUP, (1, 2)), (Op::RETURN, (0, 0))];
    let more = [(Op::ADD, (2, 1)), (Op::CHECKED_NEG, (1, 3)), (Op::FIXED_DIV, (2, 3)), (Op::IS_ENUM, (1, 2))];
    let others =
        [(Op::BIT_AND, (2, 1)), (Op::SHL, (2, 1)), (Op::CMP_GE, (2, 1)), (Op::LEN, (1, 1)), (Op::TRAP, (0, 0))];
    for (op, usual) in some.into_iter().chain(more).chain(others) {
        assert_eq!(op.usual(), Some(usual), "{op}");
    }
    assert_eq!((Op(66).usual(), Op(255).operands()), (None, Operands::None));
}

#[test]
fn what_a_text_may_leave_out() {
    let text = "header float=6\nchunk D=1 returns=Scalar:Bool:?\nPushImmediate 2\nNot\nReturn # all of it";
    assert_eq!(Description::from_text(text), Ok(worked()));
    let numbers = "header float=6\nchunk block=0 D=1 tags=- shapes=- returns=1:1:?\n57 2 : 0 1\n20 : 1 1\n31 : 0 0";
    assert_eq!(Description::from_text(numbers), Ok(worked()));
    let header = Description::from_text("").expect("a header alone").header;
    assert_eq!(header, Header { float_bits_log2: 0, ..Header::default() });
    let handle = |text: &str| Description::from_text(text).map(|description| description.header.handle);
    // Any byte may be told; the form says which are good.
    assert_eq!(
        [handle("header float=6"), handle("header handle=4"), handle("header handle=255")],
        [Ok(8), Ok(4), Ok(255)]
    );
    let chunks = Description::from_text("chunk\nchunk shapes=Top:0:?\nchunk signature=0").expect("three chunks");
    let signatures: Vec<Option<Signature>> = chunks.chunks.into_iter().map(|chunk| chunk.signature).collect();
    let one = Signature { params: vec![Shape::top()], result: Shape::top() };
    assert_eq!(signatures, [Some(Signature::default()), Some(one), None]);
    assert_eq!((chunks.header.chunks, chunks.header.signatures), (3, 2));
}

/// The only instruction of a text.
fn instruction(line: &str) -> Instruction {
    let description =
        Description::from_text(&format!("chunk\n{line}")).unwrap_or_else(|error| panic!("{line}: {error}"));
    description.chunks[0].code[0]
}

#[test]
fn operands_by_name() {
    let operands = |line| (instruction(line).a, instruction(line).b, instruction(line).c);
    assert_eq!(operands("Const Bool 1"), (1, 1, 0));
    assert_eq!(operands("Const Enum 0 17"), (10, 0, 17));
    assert_eq!(operands("NewComposite flat Enum 16 : 2 1"), (0, 3, 16));
    assert_eq!(operands("NewComposite boxed Array : 2 1"), (1, 1, 0));
    assert_eq!(operands("GetField flat Word"), (0, 3, 0));
    assert_eq!(operands("GetField nested Struct 8"), (1, 2, 8));
    assert_eq!(operands("GetIndex boxed : 2 1"), (2, 0, 0));
    assert_eq!(operands("GetDataIndexed 3 4 : 1 1"), (3, 4, 0));
    let printed =
        ["Const Bool 1", "NewComposite flat Enum 16", "GetField nested Struct 8", "GetLocal 0", "Return", "Not 3"];
    for line in printed {
        assert_eq!(instruction(&format!("{line} : 1 1")).to_string(), line);
    }
}

#[test]
fn shapes_in_texts() {
    let shape = |text: &str| {
        let description = Description::from_text(&format!("native {text} snapshot=0"));
        description.map(|description| description.natives[0].shape).map_err(|error| error.message)
    };
    for text in ["Top:0:?", "Scalar:Word:s8", "Flat:Enum:b16", "Scalar:9:?7", "Flat:4:b0", "Top:3:s1", "7:9:3.4"] {
        assert_eq!(shape(text).map(|shape| shape.to_string()), Ok(text.to_string()));
    }
    assert_eq!(shape("Scalar:3:s8"), Ok(Shape::scalar(ScalarKind::WORD, 8)));
    assert_eq!(shape("Scalar:Wrod:s8"), Err("no kind of scalar is named Wrod (Word?)".into()));
    assert_eq!(shape("Flat:Word:b8"), Err("no kind of body is named Word".into()));
    assert_eq!(shape("scalar:Word:s8"), Err("no shape is named scalar (Scalar?)".into()));
    assert_eq!(shape("Scalar:Word:8"), Err("not a width: 8 (?, s8 or b16, say)".into()));
}

/// Texts, and what is said of them.
const FAULTS: [(&str, &str); 30] = [
    ("header float=x", "line 1: not a number: x"),
    ("header flaot=6", "line 1: no part of a header is named flaot (float?)"),
    ("header float", "line 1: not a part name=value: float"),
    ("header handle=256", "line 1: too large: 256"),
    ("header\n\nheader", "line 3: a second header"),
    ("chunk\nPushImediate 2", "line 2: no instruction is named PushImediate (PushImmediate?)"),
    ("chunk\nnot", "line 2: no instruction is named not (Not?)"),
    ("chunk\nNope : 0 0", "line 2: no instruction is named Nope"),
    ("chnuk", "line 1: no instruction is named chnuk (chunk?)"),
    ("chunk blok=Func", "line 1: no part of a chunk is named blok (block?)"),
    ("chunk block=Fnuc", "line 1: no block type is named Fnuc (Func?)"),
    ("chunk tags=Word,Wird", "line 1: no type tag is named Wird (Word?)"),
    ("chunk L=70000", "line 1: too large: 70000"),
    ("chunk signature=0 returns=Top:0:?", "line 1: signature=0 and shapes= or returns=: only one of them"),
    ("chunk signature=2", "line 1: signature= is 0 or 1"),
    ("# two\nNot", "line 2: an instruction without chunk"),
    ("chunk\nNot : 1", "line 2: two numbers have to follow `:`, taken and given"),
    ("chunk\nNot 1 1", "line 2: more operands than Not has; what it takes and gives stands behind a `:`"),
    ("chunk\nPopN", "line 2: what PopN takes and gives has to be said: PopN .. : TAKEN GIVEN"),
    ("chunk\nConst Boole", "line 2: no constant is named Boole (Bool?)"),
    ("chunk\nGetField flatt Word", "line 2: no form of a read is named flatt (flat?)"),
    ("chunk\nAdd 1 2 3 4 : 2 1", "line 2: more than three operands"),
    ("chunk\n: 1 1", "line 2: no instruction before `:`"),
    ("site Top:0:? Top:0:?", "line 1: a site without instruction"),
    ("site Top:0:?", "line 1: site wants other words behind it: site YIELDED REPLY"),
    ("shared 1 2", "line 1: shared wants other words behind it: shared KIND"),
    ("native Top:0:? 1", "line 1: no snapshot= behind the shape"),
    ("init Boole 1", "line 1: no constant is named Boole (Bool?)"),
    ("place 1 -1", "line 1: not a number: -1"),
    ("header\nbytes 00", "line 2: bytes as they are stand alone, without other lines"),
];

#[test]
fn faults_in_a_text() {
    for (text, said) in FAULTS {
        let errors = [Description::from_text(text).map(|_| ()), text_to_bytes(text).map(|_| ())];
        assert_eq!(errors.map(|error| error.expect_err(text).to_string()), [said, said], "{text}");
    }
    let byte = text_to_bytes("bytes 00\nbytes 01 zz").expect_err("zz").to_string();
    assert_eq!(byte, "line 2: not a byte in hexadecimal: zz");
}

#[test]
fn lists_that_can_be_written() {
    let tags = |count: usize| format!("chunk tags={}", vec!["Word"; count].join(","));
    let most = text_to_bytes(&tags(255)).expect("255 tags");
    assert_eq!(Description::from_bytes(&most).map(|description| description.chunks[0].tags.len()), Ok(255));
    let error = text_to_bytes(&tags(256)).expect_err("256 tags").to_string();
    assert_eq!(error, "line 1: a list of 256; no more than 255 can be written");
}

#[test]
#[should_panic(expected = "a list of 255 at most")]
fn more_tags_than_their_count_says() {
    let mut description = Description::new();
    description.push(Chunk { tags: vec![TypeTag::WORD; 256], ..Chunk::new(BlockType::FUNC) });
    description.to_bytes();
}
