//! A description as lines of text.

use super::alloc::format;
use super::alloc::string::{String, ToString};
use super::alloc::vec::Vec;
use super::spelling::{Fault, Names, misspelt, number};
use super::{
    BlockType, BodyKind, Chunk, ConstValue, Description, Header, Initializer, Instruction, Native, Op, Operands,
    Placement, ScalarKind, Shape, ShapeTag, Signature, Site, TypeTag,
};
use core::fmt::{self, Write};

/// The forms of a construction and of a read, by their number.
const CONSTRUCTIONS: [&str; 2] = ["flat", "boxed"];
const READS: [&str; 3] = ["flat", "nested", "boxed"];
const FLAT_READ: u32 = 0;
const NESTED_READ: u32 = 1;

/// The word that bytes as they are begin with, and how many of them a line has.
const BYTES: &str = "bytes";
const BYTES_A_LINE: usize = 24;

/// How many a list may have: their number is a byte.
const MOST_LISTED: usize = 255;

/// What lines begin with, beside instructions.
const LINES: [&str; 8] = ["header", "chunk", "site", "native", "shared", "place", "init", BYTES];

/// The names of operand `k` of an instruction whose first operand is `a`.
fn operand_names(op: Op, k: usize, a: u32) -> Names {
    match (op.operands(), k, a) {
        (Operands::Constant, 0, _) => Names("constant", &ConstValue::NAMES),
        (Operands::Composite, 0, _) => Names("form of a construction", &CONSTRUCTIONS),
        (Operands::Read, 0, _) => Names("form of a read", &READS),
        (Operands::Composite, 1, _) | (Operands::Read, 1, NESTED_READ) => Names("kind of body", &BodyKind::NAMES),
        (Operands::Read, 1, FLAT_READ) => Names("kind of scalar", &ScalarKind::NAMES),
        _ => Names("", &[]),
    }
}

/// How many operands a text may have without what the instruction takes and gives.
fn most_operands(op: Op) -> usize {
    match op.operands() {
        Operands::None => 0,
        Operands::Constant | Operands::Composite | Operands::Read => 3,
        Operands::Slots => 2,
        _ => 1,
    }
}

// ---- printing ----

impl fmt::Display for Shape {
    /// As a text has it: `Scalar:Word:s8`.
    fn fmt(&self, f: &mut fmt::Formatter<'_>) -> fmt::Result {
        write!(f, "{}:", self.tag)?;
        match self.tag {
            ShapeTag::SCALAR => write!(f, "{}:", ScalarKind(self.kind))?,
            ShapeTag::FLAT => write!(f, "{}:", BodyKind(self.kind))?,
            _ => write!(f, "{}:", self.kind)?,
        }
        match (self.width, self.size) {
            (Shape::UNKNOWN, 0) => f.write_str("?"),
            (Shape::UNKNOWN, size) => write!(f, "?{size}"),
            (Shape::SCALAR, size) => write!(f, "s{size}"),
            (Shape::BODY, size) => write!(f, "b{size}"),
            (width, size) => write!(f, "{width}.{size}"),
        }
    }
}

impl fmt::Display for Instruction {
    /// Name and operands, as a text has them: `GetTupleField flat Word`.
    fn fmt(&self, f: &mut fmt::Formatter<'_>) -> fmt::Result {
        write!(f, "{}", self.op)?;
        let operands = [self.a, self.b, self.c];
        let used = operands.iter().rposition(|operand| *operand != 0).map_or(0, |last| last + 1);
        let least = usize::from(self.op.operands() != Operands::None);
        for (k, value) in operands.into_iter().enumerate().take(used.max(least)) {
            match operand_names(self.op, k, self.a).name(value) {
                Some(name) => write!(f, " {name}")?,
                None => write!(f, " {value}")?,
            }
        }
        Ok(())
    }
}

/// A list, `-` where it is empty.
struct List<'a, T>(&'a [T]);

impl<T: fmt::Display> fmt::Display for List<'_, T> {
    fn fmt(&self, f: &mut fmt::Formatter<'_>) -> fmt::Result {
        let Some((first, others)) = self.0.split_first() else {
            return f.write_str("-");
        };
        write!(f, "{first}")?;
        others.iter().try_for_each(|one| write!(f, ",{one}"))
    }
}

fn print_header(out: &mut String, h: &Header) -> fmt::Result {
    write!(out, "header float={} entry={} ", h.float_bits_log2, h.entry)?;
    write!(out, "chunks={} signatures={} ", h.chunks, h.signatures)?;
    write!(out, "layout={} slots={} owns={} ", h.layout, h.slots, h.owns_bodies)?;
    writeln!(out, "pool={} handle={}", h.persistent_composite_bytes, h.handle)
}

fn print_chunk(out: &mut String, number: usize, chunk: &Chunk) -> fmt::Result {
    write!(out, "chunk reachable={} block={} ", chunk.reachable, chunk.block)?;
    write!(out, "L={} D={} ", chunk.locals, chunk.deepest)?;
    write!(out, "params={} tags={} ", chunk.param_count, List(&chunk.tags))?;
    match &chunk.signature {
        Some(signature) => write!(out, "shapes={} returns={}", List(&signature.params), signature.result)?,
        None => out.push_str("signature=0"),
    }
    writeln!(out, "  # {number}")?;
    chunk.code.iter().enumerate().try_for_each(|(number, instruction)| print_instruction(out, number, instruction))
}

fn print_instruction(out: &mut String, number: usize, i: &Instruction) -> fmt::Result {
    writeln!(out, "  {i} : {} {}  # {number}", i.taken, i.given)?;
    match i.site {
        Some(site) => writeln!(out, "site {} {}", site.yielded, site.reply),
        None => Ok(()),
    }
}

fn print(out: &mut String, d: &Description) -> fmt::Result {
    print_header(out, &d.header)?;
    d.chunks.iter().enumerate().try_for_each(|(number, chunk)| print_chunk(out, number, chunk))?;
    d.natives.iter().try_for_each(|native| writeln!(out, "native {} snapshot={}", native.shape, native.snapshot))?;
    d.shared.iter().try_for_each(|kind| writeln!(out, "shared {kind}"))?;
    d.placements.iter().try_for_each(|place| writeln!(out, "place {} {}", place.slot, place.offset))?;
    d.initializers.iter().try_for_each(|init| writeln!(out, "init {} {}", init.value, init.bool_value))
}

/// The text of any bytes: that of the description, or lines `bytes` with hexadecimal numbers where they are none.
pub fn bytes_to_text(bytes: &[u8]) -> String {
    match Description::from_bytes(bytes) {
        Ok(description) => description.to_text(),
        Err(_) if bytes.is_empty() => format!("{BYTES}\n"),
        Err(_) => bytes.chunks(BYTES_A_LINE).map(bytes_line).collect(),
    }
}

fn bytes_line(bytes: &[u8]) -> String {
    let numbers: String = bytes.iter().map(|byte| format!(" {byte:02x}")).collect();
    format!("{BYTES}{numbers}\n")
}

// ---- reading ----

/// A text that says no description.
#[derive(Debug, Clone, PartialEq, Eq, Hash)]
pub struct TextError {
    /// The line, counted from 1.
    pub line: usize,
    /// What is wrong there.
    pub message: String,
}

impl fmt::Display for TextError {
    fn fmt(&self, f: &mut fmt::Formatter<'_>) -> fmt::Result {
        write!(f, "line {}: {}", self.line, self.message)
    }
}

impl core::error::Error for TextError {}

fn shape(text: &str) -> Result<Shape, Fault> {
    let parts: Vec<&str> = text.split(':').collect();
    let [tag, kind, width] = parts[..] else {
        return Err(format!("not a shape: {text} (tag:kind:width, as in Scalar:Word:s8, Flat:Tuple:b16 or Top:0:?)"));
    };
    let tag = ShapeTag(Names("shape", &ShapeTag::NAMES).number(tag)?);
    let kinds = match tag {
        ShapeTag::SCALAR => Names("kind of scalar", &ScalarKind::NAMES),
        ShapeTag::FLAT => Names("kind of body", &BodyKind::NAMES),
        _ => Names("", &[]),
    };
    let (width, size) = width_and_size(width)?;
    Ok(Shape { tag, kind: kinds.number(kind)?, width, size })
}

fn width_and_size(text: &str) -> Result<(u8, u32), Fault> {
    match text.split_at_checked(1) {
        Some(("?", "")) => Ok((Shape::UNKNOWN, 0)),
        Some(("?", size)) => Ok((Shape::UNKNOWN, number(size)?)),
        Some(("s", size)) => Ok((Shape::SCALAR, number(size)?)),
        Some(("b", size)) => Ok((Shape::BODY, number(size)?)),
        _ => {
            let parts = text.split_once('.').ok_or_else(|| format!("not a width: {text} (?, s8 or b16, say)"))?;
            Ok((number(parts.0)?, number(parts.1)?))
        }
    }
}

fn list<T>(text: &str, one: impl Fn(&str) -> Result<T, Fault>) -> Result<Vec<T>, Fault> {
    match text.split(',').count() {
        _ if text == "-" => Ok(Vec::new()),
        ..=MOST_LISTED => text.split(',').map(one).collect(),
        count => Err(format!("a list of {count}; no more than {MOST_LISTED} can be written")),
    }
}

/// A part `key=value`.
fn key_and_value(word: &str) -> Result<(&str, &str), Fault> {
    word.split_once('=').ok_or_else(|| format!("not a part name=value: {word}"))
}

/// The parts of a header.
const HEADER_PARTS: [&str; 9] = ["float", "entry", "chunks", "signatures", "layout", "slots", "owns", "pool", "handle"];

/// Which counts a header says itself.
#[derive(Default, Clone, Copy)]
struct Told {
    header: bool,
    chunks: bool,
    signatures: bool,
}

fn header_part(h: &mut Header, told: &mut Told, word: &str) -> Result<(), Fault> {
    let (key, value) = key_and_value(word)?;
    match key {
        "float" => h.float_bits_log2 = number(value)?,
        "entry" => h.entry = number(value)?,
        "chunks" => (told.chunks, h.chunks) = (true, number(value)?),
        "signatures" => (told.signatures, h.signatures) = (true, number(value)?),
        "layout" => h.layout = number(value)?,
        "slots" => h.slots = number(value)?,
        "owns" => h.owns_bodies = number(value)?,
        "pool" => h.persistent_composite_bytes = number(value)?,
        "handle" => h.handle = number(value)?,
        _ => return Err(misspelt("part of a header", key, HEADER_PARTS.into_iter())),
    }
    Ok(())
}

/// The parts of a chunk.
const CHUNK_PARTS: [&str; 9] = ["reachable", "block", "L", "D", "params", "tags", "shapes", "returns", "signature"];

/// What a chunk's line says of its signature.
#[derive(Default)]
struct Declared {
    there: Option<u8>,
    params: Option<Vec<Shape>>,
    result: Option<Shape>,
}

impl Declared {
    fn signature(self) -> Result<Option<Signature>, Fault> {
        match (self.there, self.params, self.result) {
            (Some(0), None, None) => Ok(None),
            (Some(0), ..) => Err("signature=0 and shapes= or returns=: only one of them".to_string()),
            (Some(2..), ..) => Err("signature= is 0 or 1".to_string()),
            (_, params, result) => {
                Ok(Some(Signature { params: params.unwrap_or_default(), result: result.unwrap_or_default() }))
            }
        }
    }
}

fn chunk_part(chunk: &mut Chunk, declared: &mut Declared, word: &str) -> Result<(), Fault> {
    let (key, value) = key_and_value(word)?;
    match key {
        "reachable" => chunk.reachable = number(value)?,
        "block" => chunk.block = BlockType(Names("block type", &BlockType::NAMES).number(value)?),
        "L" => chunk.locals = number(value)?,
        "D" => chunk.deepest = number(value)?,
        "params" => chunk.param_count = number(value)?,
        "tags" => chunk.tags = list(value, |text| Names("type tag", &TypeTag::NAMES).number(text).map(TypeTag))?,
        "shapes" => declared.params = Some(list(value, shape)?),
        "returns" => declared.result = Some(shape(value)?),
        "signature" => declared.there = Some(number(value)?),
        _ => return Err(misspelt("part of a chunk", key, CHUNK_PARTS.into_iter())),
    }
    Ok(())
}

fn chunk(words: &[&str]) -> Result<Chunk, Fault> {
    let mut chunk = Chunk { reachable: 1, ..Chunk::default() };
    let mut declared = Declared::default();
    words.iter().try_for_each(|word| chunk_part(&mut chunk, &mut declared, word))?;
    chunk.signature = declared.signature()?;
    Ok(chunk)
}

fn instruction(words: &[&str]) -> Result<Instruction, Fault> {
    let (before, effect) = match words.iter().position(|word| *word == ":") {
        Some(colon) => (&words[..colon], Some(&words[colon + 1..])),
        None => (words, None),
    };
    let Some((name, operands)) = before.split_first() else {
        return Err("no instruction before `:`".to_string());
    };
    let op = op(name)?;
    let operands = operand_values(op, operands)?;
    let (taken, given) = match effect {
        Some([taken, given]) => (number(taken)?, number(given)?),
        Some(_) => return Err("two numbers have to follow `:`, taken and given".to_string()),
        None => usual(op, before.len() - 1)?,
    };
    Ok(Instruction::new(op, taken, given, operands))
}

fn op(text: &str) -> Result<Op, Fault> {
    if let Some(op) = Op::from_name(text) {
        return Ok(op);
    }
    if text.starts_with(|first: char| first.is_ascii_digit()) {
        return number(text).map(Op);
    }
    Err(misspelt("instruction", text, Op::NAMES.into_iter().chain(LINES)))
}

fn operand_values(op: Op, words: &[&str]) -> Result<[u32; 3], Fault> {
    let mut operands = [0; 3];
    if words.len() > operands.len() {
        return Err("more than three operands".to_string());
    }
    for (k, word) in words.iter().enumerate() {
        operands[k] = operand_names(op, k, operands[0]).number(word)?;
    }
    Ok(operands)
}

/// What an instruction with so many operands takes and gives where its line doesn't say it.
fn usual(op: Op, operands: usize) -> Result<(u8, u8), Fault> {
    if operands > most_operands(op) {
        return Err(format!("more operands than {op} has; what it takes and gives stands behind a `:`"));
    }
    op.usual().ok_or_else(|| format!("what {op} takes and gives has to be said: {op} .. : TAKEN GIVEN"))
}

/// The description of a text, as far as it has been read.
struct Reading {
    description: Description,
    told: Told,
}

impl Reading {
    /// A text that doesn't say so has no floating-point numbers.
    fn new() -> Reading {
        let header = Header { float_bits_log2: 0, ..Header::default() };
        Reading { description: Description { header, ..Description::new() }, told: Told::default() }
    }

    fn header(&mut self, words: &[&str]) -> Result<(), Fault> {
        if self.told.header {
            return Err("a second header".to_string());
        }
        self.told.header = true;
        words.iter().try_for_each(|word| header_part(&mut self.description.header, &mut self.told, word))
    }

    fn site(&mut self, yielded: &str, reply: &str) -> Result<(), Fault> {
        let last = self.description.chunks.last_mut().and_then(|chunk| chunk.code.last_mut());
        let site = Site { yielded: shape(yielded)?, reply: shape(reply)? };
        last.ok_or("a site without instruction")?.site = Some(site);
        Ok(())
    }

    fn instruction(&mut self, words: &[&str]) -> Result<(), Fault> {
        let instruction = instruction(words)?;
        self.description.chunks.last_mut().ok_or("an instruction without chunk")?.code.push(instruction);
        Ok(())
    }

    fn data(&mut self, first: &str, words: &[&str]) -> Result<(), Fault> {
        let d = &mut self.description;
        match (first, words) {
            ("native", [text, snapshot]) => {
                let flag = snapshot.strip_prefix("snapshot=").ok_or("no snapshot= behind the shape")?;
                d.natives.push(Native { shape: shape(text)?, snapshot: number(flag)? });
            }
            ("shared", [kind]) => d.shared.push(Names("kind of scalar", &ScalarKind::NAMES).number(kind)?),
            ("place", [slot, offset]) => {
                d.placements.push(Placement { slot: number(slot)?, offset: number(offset)? });
            }
            ("init", [value, flag]) => {
                let value = ConstValue(Names("constant", &ConstValue::NAMES).number(value)?);
                d.initializers.push(Initializer { value, bool_value: number(flag)? });
            }
            _ => return Err(format!("{first} wants other words behind it: {}", wanted(first))),
        }
        Ok(())
    }

    fn line(&mut self, words: &[&str]) -> Result<(), Fault> {
        match words {
            [] => Ok(()),
            ["header", rest @ ..] => self.header(rest),
            ["chunk", rest @ ..] => chunk(rest).map(|chunk| self.description.chunks.push(chunk)),
            ["site", yielded, reply] => self.site(yielded, reply),
            [BYTES, ..] => Err("bytes as they are stand alone, without other lines".to_string()),
            [first, rest @ ..] if LINES.contains(first) => self.data(first, rest),
            _ => self.instruction(words),
        }
    }

    fn whole(mut self) -> Description {
        let count = |count: usize| u16::try_from(count).unwrap_or(u16::MAX);
        let chunks = &self.description.chunks;
        if !self.told.signatures {
            let signatures = chunks.iter().filter(|chunk| chunk.signature.is_some()).count();
            self.description.header.signatures = count(signatures);
        }
        if !self.told.chunks {
            self.description.header.chunks = count(chunks.len());
        }
        self.description
    }
}

/// What has to follow the first word of a line.
fn wanted(first: &str) -> &'static str {
    match first {
        "site" => "site YIELDED REPLY",
        "native" => "native SHAPE snapshot=0",
        "shared" => "shared KIND",
        "place" => "place SLOT OFFSET",
        _ => "init CONSTANT BOOLEAN",
    }
}

fn words(line: &str) -> Vec<&str> {
    line.split('#').next().unwrap_or_default().split_whitespace().collect()
}

/// The words of each line, without comments.
fn lines(text: &str) -> impl Iterator<Item = (usize, Vec<&str>)> {
    (1..).zip(text.lines().map(words))
}

/// The bytes of a text, of a description or of bytes as they are.
pub fn text_to_bytes(text: &str) -> Result<Vec<u8>, TextError> {
    let mut said = lines(text).filter(|(_, words)| !words.is_empty()).peekable();
    if said.peek().is_none() || !said.all(|(_, words)| words[0] == BYTES) {
        return Description::from_text(text).map(|description| description.to_bytes());
    }
    let numbers = lines(text).flat_map(|(line, words)| words.into_iter().skip(1).map(move |word| (line, word)));
    numbers.map(|(line, word)| byte(word).map_err(|message| TextError { line, message })).collect()
}

fn byte(text: &str) -> Result<u8, Fault> {
    u8::from_str_radix(text, 16).map_err(|_| format!("not a byte in hexadecimal: {text}"))
}

impl Description {
    /// Its text; the [module](super) explains it.
    pub fn to_text(&self) -> String {
        let mut out = String::new();
        print(&mut out, self).expect("a string takes all that is written");
        out
    }

    /// The description that a text says; the [module](super) explains it.
    ///
    /// ```
    /// use genduvo::description::Description;
    ///
    /// let error = Description::from_text("chunk\n  PushImediate 2").unwrap_err();
    /// assert_eq!(error.to_string(), "line 2: no instruction is named PushImediate (PushImmediate?)");
    /// ```
    pub fn from_text(text: &str) -> Result<Description, TextError> {
        let mut reading = Reading::new();
        for (line, words) in lines(text) {
            reading.line(&words).map_err(|message| TextError { line, message })?;
        }
        Ok(reading.whole())
    }
}
