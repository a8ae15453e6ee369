//! Where the kinds at a place come from.

use super::slots;
use crate::facts::Facts;
use crate::flow::{Source, brought, sources};
use crate::show;
use genduvo::Mask;
use genduvo::description::{BlockType, Instruction, Op};
use genduvo::report::Cell;
use std::collections::BTreeSet;
use std::io::{self, Write};

/// So many origins of one sort, and no more.
const MOST: usize = 6;

/// Something that kinds come from, with the kinds where they are known.
#[derive(Debug, Clone)]
pub struct Origin {
    /// What it is, in words.
    pub text: String,
    /// The kinds that come from it alone.
    pub mask: Option<Mask>,
}

impl Origin {
    /// Words, and the cell that they speak of.
    pub fn of(text: String, cell: &Cell) -> Origin {
        Origin { text: format!("{text}: {}", show::cell(cell)), mask: Some(cell.mask) }
    }

    /// Words alone.
    pub fn said(text: String) -> Origin {
        Origin { text, mask: None }
    }
}

/// What an instruction on the way back says.
enum Look<T> {
    /// This is where it comes from.
    Found(T),
    /// It comes from before.
    On,
    /// It doesn't come this way.
    Lost,
}

/// A chunk with its control flow backwards.
pub struct Back<'a> {
    /// The report.
    pub facts: &'a Facts<'a>,
    /// The chunk.
    pub chunk: u16,
    /// From where control comes to each instruction.
    pub sources: Vec<Vec<Source<'a>>>,
}

impl<'a> Back<'a> {
    /// The control flow of a chunk.
    pub fn new(facts: &'a Facts<'a>, chunk: u16) -> Back<'a> {
        Back { facts, chunk, sources: sources(facts, chunk) }
    }

    /// An instruction of the chunk.
    pub fn instruction(&self, at: usize) -> &'a Instruction {
        self.facts.instruction(self.chunk, at)
    }

    /// An instruction of the chunk by number and name.
    pub fn named(&self, at: usize) -> String {
        format!("{at} {}", show::instruction(self.instruction(at)))
    }

    /// What each way to an instruction brings to a stack place, which instructions made it and, where that is a local
    /// or a slot, who set it.
    pub fn origins(&self, at: usize, place: usize) -> Vec<Origin> {
        let ways = &self.sources[at];
        let mut all = Vec::new();
        if ways.len() > 1 {
            let way = |source: &Source| {
                let (cell, _) = brought(source, self.instruction(source.at), place)?;
                Some(Origin::of(format!("by way of {}", self.named(source.at)), &cell))
            };
            all.extend(cut(ways.iter().filter_map(way).collect()));
        }
        let makers = self.makers(at, place);
        all.extend(cut(makers
            .iter()
            .map(|(at, cell)| Origin::of(format!("made by {}", self.named(*at)), cell))
            .collect()));
        let mut told = BTreeSet::new();
        for (at, _) in makers.iter().take(MOST) {
            let i = self.instruction(*at);
            if told.insert((i.op, i.a, i.b)) {
                all.extend(cut(self.before_maker(*at, i)));
            }
        }
        all
    }

    /// Writes where the kinds at a stack place come from.
    pub fn write(&self, out: &mut impl Write, at: usize, place: usize) -> io::Result<()> {
        self.origins(at, place).iter().try_for_each(|origin| writeln!(out, "      {}", origin.text))
    }

    /// Who set the local or wrote the slots that were read.
    fn before_maker(&self, at: usize, i: &Instruction) -> Vec<Origin> {
        match i.op {
            Op::GET_LOCAL => self.setters(at, i.a as usize),
            Op::GET_DATA | Op::GET_DATA_INDEXED => slots::writers(self.facts, i),
            _ => Vec::new(),
        }
    }

    /// Walks back over the open ways, on from where nothing is found; also says whether the chunk's begin was reached.
    fn walk<T>(&self, at: usize, look: impl Fn(&Source) -> Look<T>) -> (Vec<(usize, T)>, bool) {
        let (mut found, mut begun) = (Vec::new(), false);
        let mut seen = BTreeSet::new();
        let mut due = vec![at];
        while let Some(number) = due.pop() {
            begun |= number == 0;
            let fresh = self.sources[number].iter().filter(|source| seen.insert(source.at));
            fresh.for_each(|source| match look(source) {
                Look::Found(one) => found.push((source.at, one)),
                Look::On => due.push(source.at),
                Look::Lost => {}
            });
        }
        found.sort_by_key(|(number, _)| *number);
        (found, begun)
    }

    /// The instructions that made what stands at the place.
    fn makers(&self, at: usize, place: usize) -> Vec<(usize, Cell)> {
        let look = |source: &Source| match brought(source, self.instruction(source.at), place) {
            Some((cell, true)) => Look::Found(cell),
            Some((_, false)) => Look::On,
            None => Look::Lost,
        };
        self.walk(at, look).0
    }

    /// What set the local last, and what it is where the chunk begins.
    fn setters(&self, at: usize, local: usize) -> Vec<Origin> {
        let look = |source: &Source| self.setting(source, local).map_or(Look::On, Look::Found);
        let (found, begun) = self.walk(at, look);
        let first = begun.then(|| self.begun(local));
        first.into_iter().chain(found.into_iter().map(|(_, origin)| origin)).collect()
    }

    /// What a local is where its chunk begins.
    fn begun(&self, local: usize) -> Origin {
        let input = self.facts.report.signature(self.chunk).and_then(|signature| signature.inputs().get(local));
        match input {
            Some(cell) => Origin::of(format!("local {local} comes in as parameter {local}"), &cell),
            None => Origin { text: format!("local {local} begins as UNIT"), mask: Some(Mask::UNIT) },
        }
    }

    /// How an instruction sets a local, if it does.
    fn setting(&self, source: &Source, local: usize) -> Option<Origin> {
        let i = self.instruction(source.at);
        let at = source.at;
        match i.op {
            Op::SET_LOCAL if i.a as usize == local => {
                let stack = source.record.stack();
                let cell = stack.get(stack.len().checked_sub(i.taken.into())?)?;
                Some(Origin::of(format!("local {local} is set at {at}"), &cell))
            }
            Op::RESET if local == 0 => Some(Origin::said(format!("local 0 is set at {at}, Reset: the reply, or UNIT"))),
            Op::RESET => {
                Some(Origin { text: format!("local {local} is set at {at}, Reset: UNIT"), mask: Some(Mask::UNIT) })
            }
            Op::YIELD if local == 0 && self.is_stream_entry() => {
                Some(Origin::said(format!("local 0 is set at {at}, Yield: the reply")))
            }
            _ => None,
        }
    }

    /// The entry of a stream has the last reply in its first parameter.
    fn is_stream_entry(&self) -> bool {
        let of = self.facts.chunk(self.chunk);
        self.facts.description.header.entry == self.chunk && of.block == BlockType::STREAM && of.param_count > 0
    }
}

/// The first ones, and how many more there would be.
fn cut(mut origins: Vec<Origin>) -> Vec<Origin> {
    let more = origins.len().saturating_sub(MOST);
    origins.truncate(MOST);
    origins.extend((more > 0).then(|| Origin::said(format!("and {more} more"))));
    origins
}
