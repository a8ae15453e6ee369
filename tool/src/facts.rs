//! A description beside the report on it, with each record at hand by its place.

use crate::stop::{Stop, failed};
use genduvo::description::{Chunk, Description, Instruction};
use genduvo::report::{Record, Report};
use std::collections::{BTreeMap, BTreeSet};

/// A description and its report.
pub struct Facts<'a> {
    /// The description.
    pub description: &'a Description,
    /// The report.
    pub report: Report<'a>,
    /// By chunk and instruction.
    records: Vec<Vec<Option<Record<'a>>>>,
    branches: BTreeMap<(u16, u16), bool>,
    inspections: BTreeSet<(u16, u16)>,
    /// Instructions that were refused and have a stand-in in this report, with the refusal's number.
    pub refused: BTreeMap<(u16, usize), u8>,
    /// Those of them whose stand-in is a `Trap`: no way leaves them.
    pub stopped: BTreeSet<(u16, usize)>,
}

impl<'a> Facts<'a> {
    /// Reads the report and sorts its records by their place.
    pub fn new(description: &'a Description, report: &'a [u8]) -> Result<Facts<'a>, Stop> {
        let report = Report::read(report).or_else(|error| failed(format!("the library's report: {error}")))?;
        let mut records: Vec<Vec<_>> = description.chunks.iter().map(|chunk| vec![None; chunk.code.len()]).collect();
        for record in report.records() {
            let row = records.get_mut(usize::from(record.chunk()));
            if let Some(place) = row.and_then(|row| row.get_mut(usize::from(record.instruction()))) {
                *place = Some(record);
            }
        }
        let branches = report.branches().map(|one| ((one.chunk, one.instruction), one.value)).collect();
        let inspections = report.inspections().map(|one| (one.chunk, one.instruction)).collect();
        let (refused, stopped) = (BTreeMap::new(), BTreeSet::new());
        Ok(Facts { description, report, records, branches, inspections, refused, stopped })
    }

    /// The record of an instruction; None where it is never reached.
    pub fn record(&self, chunk: u16, instruction: usize) -> Option<Record<'a>> {
        *self.records.get(usize::from(chunk))?.get(instruction)?
    }

    /// The condition of a test that always goes one way.
    pub fn known(&self, chunk: u16, instruction: usize) -> Option<bool> {
        self.branches.get(&(chunk, u16::try_from(instruction).ok()?)).copied()
    }

    /// Whether an inspection always says false.
    pub fn never(&self, chunk: u16, instruction: usize) -> bool {
        u16::try_from(instruction).is_ok_and(|instruction| self.inspections.contains(&(chunk, instruction)))
    }

    /// A chunk of the description.
    pub fn chunk(&self, chunk: u16) -> &'a Chunk {
        &self.description.chunks[usize::from(chunk)]
    }

    /// An instruction of the description.
    pub fn instruction(&self, chunk: u16, instruction: usize) -> &'a Instruction {
        &self.chunk(chunk).code[instruction]
    }

    /// The numbers of the chunks, or the one that is asked for.
    pub fn numbers(&self, only: Option<u16>) -> Result<Vec<u16>, Stop> {
        let all = 0..self.description.chunks.len() as u16;
        match only {
            None => Ok(all.collect()),
            Some(number) if all.contains(&number) => Ok(vec![number]),
            Some(number) => failed(format!("there is no chunk {number}: the description has {}", all.end)),
        }
    }
}
