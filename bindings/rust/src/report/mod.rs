//! A report, read where it stands: everything borrows, nothing is allocated.
//!
//! [`Report::read`] walks over the bytes once; then nothing can fail.
//!
//! ```
//! use genduvo::{Mask, report::Report};
//!
//! let description = include_bytes!("../../../../examples/worked.bin");
//! let (mut workspace, mut bytes) = (vec![0; 2000], vec![0; 500]);
//! let accepted = genduvo::check(description, &mut workspace, &mut bytes, 1_000_000)?;
//! let report = Report::read(&bytes[..accepted.length])?;
//! for record in report.records() {
//!     let stack: Vec<String> = record.stack().iter().map(|cell| cell.mask.to_string()).collect();
//!     println!("{} {}: {}", record.chunk(), record.instruction(), stack.join(" "));
//! }
//! let last = report.record(0, 2).expect("reached");
//! assert_eq!(last.stack().get(0).map(|cell| cell.mask), Some(Mask::TRUE));
//! # Ok::<(), Box<dyn std::error::Error>>(())
//! ```

mod bytes;
mod cell;
mod parts;

pub use cell::{CELL, Cell, Extent, Predicate, Width};
pub use parts::{Cells, Guard, Guards, Output, Outputs, Part, Parts, PartsIter};

use bytes::{flag_at, u16_at, u32_at};
use core::fmt;

/// The bytes of a field before its contents: tag and length.
const HEAD: usize = 3;
/// The bytes of a record before its cells: chunk, instruction and four counts.
const COUNTS: usize = 12;

/// The tags of a report's fields, in their order.
pub mod tag {
    /// The largest body of a reply; first, once.
    pub const REPLY: u8 = 16;
    /// What a chunk is given and gives back.
    pub const SIGNATURE: u8 = 17;
    /// What a data slot can hold.
    pub const SLOT: u8 = 18;
    /// What is known at an instruction.
    pub const RECORD: u8 = 19;
    /// An inspection that always says false.
    pub const INSPECTION: u8 = 20;
    /// A test that always goes one way.
    pub const BRANCH: u8 = 21;
}

/// What holds before an instruction, what it makes, and what has to be tested before it.
#[derive(Clone, Copy, PartialEq, Eq)]
pub struct Record<'a>(&'a [u8]);

/// Where the numbers of a record stand: its place and how many parts of each kind it has.
mod at {
    pub const CHUNK: usize = 0;
    pub const INSTRUCTION: usize = 2;
    pub const STACK: usize = 4;
    pub const LOCALS: usize = 6;
    pub const OUTPUTS: usize = 8;
    pub const GUARDS: usize = 10;
}

/// The bytes of a record's parts, after its counts.
#[derive(Clone, Copy)]
struct Lengths {
    stack: usize,
    locals: usize,
    outputs: usize,
    guards: usize,
}

impl<'a> Record<'a> {
    /// A whole field of tag 19, as [`lookup`](crate::lookup) answers it; `None` where it isn't one.
    pub fn read(field: &'a [u8]) -> Option<Record<'a>> {
        match split(field)? {
            (tag::RECORD, contents, []) => Record::of(contents).filter(|record| record.is_good()),
            _ => None,
        }
    }

    /// The record with these contents, where they have the length that its counts say.
    fn of(contents: &'a [u8]) -> Option<Record<'a>> {
        contents.get(..COUNTS)?;
        let record = Record(contents);
        let Lengths { stack, locals, outputs, guards } = record.lengths();
        (contents.len() == COUNTS + stack + locals + outputs + guards).then_some(record)
    }

    fn is_good(self) -> bool {
        self.stack().all_read() && self.locals().all_read() && self.outputs().all_read()
    }

    fn number(self, at: usize) -> u16 {
        u16_at(self.0, at).unwrap_or_default()
    }

    fn lengths(self) -> Lengths {
        let length = |at, size| usize::from(self.number(at)) * size;
        Lengths {
            stack: length(at::STACK, Cell::SIZE),
            locals: length(at::LOCALS, Cell::SIZE),
            outputs: length(at::OUTPUTS, Output::SIZE),
            guards: length(at::GUARDS, Guard::SIZE),
        }
    }

    /// So many bytes, with so many of the record's parts before them.
    fn part<P: Part>(self, before: usize, length: usize) -> Parts<'a, P> {
        Parts::new(self.0.get(COUNTS + before..).and_then(|rest| rest.get(..length)).unwrap_or_default())
    }

    /// The chunk.
    pub fn chunk(self) -> u16 {
        self.number(at::CHUNK)
    }

    /// The instruction.
    pub fn instruction(self) -> u16 {
        self.number(at::INSTRUCTION)
    }

    /// What each place of the stack can hold before the instruction, from the bottom.
    pub fn stack(self) -> Cells<'a> {
        self.part(0, self.lengths().stack)
    }

    /// What each local can hold before the instruction.
    pub fn locals(self) -> Cells<'a> {
        let Lengths { stack, locals, .. } = self.lengths();
        self.part(stack, locals)
    }

    /// What the instruction leaves on the stack.
    pub fn outputs(self) -> Outputs<'a> {
        let Lengths { stack, locals, outputs, .. } = self.lengths();
        self.part(stack + locals, outputs)
    }

    /// What has to be tested before the instruction, rising by stack place, then by mask.
    pub fn guards(self) -> Guards<'a> {
        let Lengths { stack, locals, outputs, guards } = self.lengths();
        self.part(stack + locals + outputs, guards)
    }
}

impl fmt::Debug for Record<'_> {
    fn fmt(&self, f: &mut fmt::Formatter<'_>) -> fmt::Result {
        f.debug_struct("Record")
            .field("chunk", &self.chunk())
            .field("instruction", &self.instruction())
            .field("stack", &self.stack())
            .field("locals", &self.locals())
            .field("outputs", &self.outputs())
            .field("guards", &self.guards())
            .finish()
    }
}

/// What a chunk is given, and what it gives back.
#[derive(Clone, Copy, PartialEq, Eq)]
pub struct Signature<'a>(&'a [u8], Cell);

impl<'a> Signature<'a> {
    /// The signature with these contents, where they are a chunk and cells, the last of which can be read.
    fn of(contents: &'a [u8]) -> Option<Signature<'a>> {
        let (before, result) = contents.split_last_chunk::<CELL>()?;
        let whole = before.len().checked_sub(2)? % CELL == 0;
        whole.then(|| Cell::read(result).map(|result| Signature(before, result)))?
    }

    /// The chunk.
    pub fn chunk(self) -> u16 {
        u16_at(self.0, 0).unwrap_or_default()
    }

    /// What each parameter can hold.
    pub fn inputs(self) -> Cells<'a> {
        Parts::new(self.0.get(2..).unwrap_or_default())
    }

    /// What it gives back.
    pub fn result(self) -> Cell {
        self.1
    }
}

impl fmt::Debug for Signature<'_> {
    fn fmt(&self, f: &mut fmt::Formatter<'_>) -> fmt::Result {
        f.debug_struct("Signature")
            .field("chunk", &self.chunk())
            .field("inputs", &self.inputs())
            .field("result", &self.result())
            .finish()
    }
}

/// An inspection (`IsEnum`, `IsStruct`) that always says false.
#[derive(Debug, Clone, Copy, PartialEq, Eq, Hash)]
pub struct Inspection {
    /// The chunk.
    pub chunk: u16,
    /// The instruction.
    pub instruction: u16,
}

/// A test (`If`, `BreakIf`) whose condition is always the same.
#[derive(Debug, Clone, Copy, PartialEq, Eq, Hash)]
pub struct Branch {
    /// The chunk.
    pub chunk: u16,
    /// The instruction.
    pub instruction: u16,
    /// The condition.
    pub value: bool,
}

/// A field of a report.
#[derive(Debug, Clone, Copy, PartialEq, Eq)]
pub enum Field<'a> {
    /// Tag 16: the largest body of a reply, in bytes.
    Reply(u32),
    /// Tag 17: what a chunk is given and gives back.
    Signature(Signature<'a>),
    /// Tag 18: what a data slot can hold.
    Slot(Cell),
    /// Tag 19: what is known at an instruction.
    Record(Record<'a>),
    /// Tag 20: an inspection that always says false.
    Inspection(Inspection),
    /// Tag 21: a test that always goes one way.
    Branch(Branch),
}

impl<'a> Field<'a> {
    /// The field with this tag and these contents, where they have its length; the cells of a record and the inputs
    /// of a signature aren't looked at.
    fn of(tag: u8, contents: &'a [u8]) -> Option<Field<'a>> {
        let exactly = |length| (contents.len() == length).then_some(());
        match tag {
            tag::REPLY => exactly(4).and_then(|()| u32_at(contents, 0)).map(Field::Reply),
            tag::SIGNATURE => Signature::of(contents).map(Field::Signature),
            tag::SLOT => Cell::read(contents.try_into().ok()?).map(Field::Slot),
            tag::RECORD => Record::of(contents).map(Field::Record),
            tag::INSPECTION => {
                exactly(4)?;
                let (chunk, instruction) = (u16_at(contents, 0)?, u16_at(contents, 2)?);
                Some(Field::Inspection(Inspection { chunk, instruction }))
            }
            tag::BRANCH => {
                exactly(5)?;
                let (chunk, instruction) = (u16_at(contents, 0)?, u16_at(contents, 2)?);
                Some(Field::Branch(Branch { chunk, instruction, value: flag_at(contents, 4)? }))
            }
            _ => None,
        }
    }

    /// Whether all cells can be read.
    fn is_good(self) -> bool {
        match self {
            Field::Signature(signature) => signature.inputs().all_read(),
            Field::Record(record) => record.is_good(),
            _ => true,
        }
    }
}

/// Tag, contents and what follows the first field; `None` where no whole one is there.
fn split(bytes: &[u8]) -> Option<(u8, &[u8], &[u8])> {
    let length = usize::from(u16_at(bytes, 1)?);
    let (contents, rest) = bytes.get(HEAD..)?.split_at_checked(length)?;
    Some((*bytes.first()?, contents, rest))
}

/// Bytes that are no report.
#[derive(Debug, Clone, Copy, PartialEq, Eq, Hash)]
pub struct Malformed {
    /// The place of the first byte of the field that isn't one of a report.
    pub at: usize,
}

impl fmt::Display for Malformed {
    fn fmt(&self, f: &mut fmt::Formatter<'_>) -> fmt::Result {
        write!(f, "no report: at byte {} there is no field that can follow", self.at)
    }
}

impl core::error::Error for Malformed {}

/// A report.
#[derive(Clone, Copy, PartialEq, Eq)]
pub struct Report<'a>(&'a [u8]);

impl<'a> Report<'a> {
    /// The report with these bytes. Walks over all of them once: the fields are whole, their tags are in order, the
    /// lengths fit, and the bytes have a meaning. All that is asked of a report then has an answer.
    pub fn read(bytes: &'a [u8]) -> Result<Report<'a>, Malformed> {
        let mut rest = bytes;
        let mut last = None;
        while !rest.is_empty() || last.is_none() {
            let malformed = Malformed { at: bytes.len() - rest.len() };
            let (tag, contents, after) = split(rest).ok_or(malformed)?;
            let follows = match last {
                None => tag == tag::REPLY,
                Some(last) => tag >= last && tag != tag::REPLY,
            };
            let good = follows && Field::of(tag, contents).is_some_and(Field::is_good);
            if !good {
                return Err(malformed);
            }
            (rest, last) = (after, Some(tag));
        }
        Ok(Report(bytes))
    }

    /// Its bytes.
    pub fn bytes(self) -> &'a [u8] {
        self.0
    }

    /// All fields, in their order.
    pub fn fields(self) -> Fields<'a> {
        Fields(self.0)
    }

    /// The largest body of a reply, in bytes.
    pub fn reply(self) -> u32 {
        u32_at(self.0, HEAD).unwrap_or_default()
    }

    /// What each chunk with a signature is given and gives back, rising by chunk.
    pub fn signatures(self) -> impl Iterator<Item = Signature<'a>> {
        self.from(tag::SIGNATURE).map_while(|field| match field {
            Field::Signature(signature) => Some(signature),
            _ => None,
        })
    }

    /// What a chunk is given and gives back.
    pub fn signature(self, chunk: u16) -> Option<Signature<'a>> {
        self.signatures().find(|signature| signature.chunk() == chunk)
    }

    /// What each data slot can hold, rising by slot.
    pub fn slots(self) -> impl Iterator<Item = Cell> {
        self.from(tag::SLOT).map_while(|field| match field {
            Field::Slot(cell) => Some(cell),
            _ => None,
        })
    }

    /// What a data slot can hold.
    pub fn slot(self, number: usize) -> Option<Cell> {
        self.slots().nth(number)
    }

    /// The records of all instructions that can be reached, rising by chunk, then instruction.
    pub fn records(self) -> impl Iterator<Item = Record<'a>> {
        self.from(tag::RECORD).map_while(|field| match field {
            Field::Record(record) => Some(record),
            _ => None,
        })
    }

    /// The record of an instruction; [`lookup`](crate::lookup) finds it, from the first byte on. `None` where it can't
    /// be reached.
    pub fn record(self, chunk: u16, instruction: u16) -> Option<Record<'a>> {
        Record::read(crate::lookup(self.0, chunk, instruction)?)
    }

    /// The inspections that always say false, rising by chunk, then instruction.
    pub fn inspections(self) -> impl Iterator<Item = Inspection> {
        self.from(tag::INSPECTION).map_while(|field| match field {
            Field::Inspection(inspection) => Some(inspection),
            _ => None,
        })
    }

    /// The tests that always go one way, rising by chunk, then instruction.
    pub fn branches(self) -> impl Iterator<Item = Branch> {
        self.from(tag::BRANCH).map_while(|field| match field {
            Field::Branch(branch) => Some(branch),
            _ => None,
        })
    }

    /// The fields from the first of this tag on; those of one tag stand together.
    fn from(self, tag: u8) -> Fields<'a> {
        let mut rests = core::iter::successors(Some(self.0), |rest| split(rest).map(|(_, _, after)| after));
        Fields(rests.find(|rest| rest.first() == Some(&tag)).unwrap_or_default())
    }
}

impl fmt::Debug for Report<'_> {
    fn fmt(&self, f: &mut fmt::Formatter<'_>) -> fmt::Result {
        f.debug_list().entries(self.fields()).finish()
    }
}

/// Goes over the fields of a report.
#[derive(Debug, Clone)]
pub struct Fields<'a>(&'a [u8]);

impl<'a> Iterator for Fields<'a> {
    type Item = Field<'a>;

    fn next(&mut self) -> Option<Field<'a>> {
        let (tag, contents, rest) = split(self.0)?;
        self.0 = rest;
        Field::of(tag, contents)
    }
}
