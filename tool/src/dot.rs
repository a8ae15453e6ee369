//! The control flow as Graphviz text: a cluster for each chunk, a node for each basic block.

use crate::facts::Facts;
use crate::flow::{Passage, passage, ways};
use crate::list::marks;
use crate::show;
use genduvo::description::{Instruction, Op};
use std::io::{self, Write};

/// How code that is never reached, and a way that is never taken, are drawn.
const UNREACHED: &str = "style=dashed, color=gray50, fontcolor=gray50";

/// Instructions that follow one another with nothing between.
struct Block {
    first: usize,
    last: usize,
    reached: bool,
}

/// Writes the graph of some chunks.
pub fn write(out: &mut impl Write, facts: &Facts, numbers: &[u16]) -> io::Result<()> {
    writeln!(out, "digraph genduvo {{")?;
    writeln!(out, "  node [shape=box, fontname=monospace, fontsize=10];")?;
    writeln!(out, "  edge [fontname=monospace, fontsize=9];")?;
    numbers.iter().try_for_each(|number| chunk(out, facts, *number))?;
    numbers.iter().try_for_each(|number| calls(out, facts, *number, numbers))?;
    writeln!(out, "}}")
}

fn chunk(out: &mut impl Write, facts: &Facts, number: u16) -> io::Result<()> {
    let chunk = facts.chunk(number);
    let entry = if facts.description.header.entry == number { ", entry" } else { "" };
    let unreachable = if chunk.reachable == 0 { ", not reachable" } else { "" };
    writeln!(out, "  subgraph cluster_{number} {{")?;
    writeln!(out, "    label=\"chunk {number}: {}{entry}{unreachable}\";", chunk.block)?;
    writeln!(out, "    fontname=monospace; fontsize=11; color=gray;")?;
    let blocks = blocks(facts, number);
    blocks.iter().try_for_each(|block| node(out, facts, number, block))?;
    blocks.iter().try_for_each(|block| edges(out, facts, number, block))?;
    writeln!(out, "  }}")
}

/// Where a block begins: at a target, behind a branch, and where code is reached or no longer reached.
fn blocks(facts: &Facts, chunk: u16) -> Vec<Block> {
    let code = &facts.chunk(chunk).code;
    let mut begins = vec![false; code.len() + 1];
    for at in 0..code.len() {
        let ways = ways(code, at);
        let straight = ways.len() == 1 && ways[0].to == at + 1 && !is_test(&code[at]);
        begins[at + 1] |= !straight || facts.record(chunk, at).is_some() != facts.record(chunk, at + 1).is_some();
        ways.iter().filter(|way| !straight && way.to != at + 1).for_each(|way| begins[way.to] = true);
    }
    let mut firsts: Vec<usize> = (0..code.len()).filter(|at| *at == 0 || begins[*at]).collect();
    firsts.push(code.len());
    let block =
        |pair: &[usize]| Block { first: pair[0], last: pair[1] - 1, reached: facts.record(chunk, pair[0]).is_some() };
    firsts.windows(2).map(block).collect()
}

fn is_test(i: &Instruction) -> bool {
    matches!(i.op, Op::IF | Op::BREAK_IF)
}

/// A text inside quotes.
fn escaped(text: &str) -> String {
    text.replace('\\', "\\\\").replace('"', "\\\"")
}

fn node(out: &mut impl Write, facts: &Facts, chunk: u16, block: &Block) -> io::Result<()> {
    let mut label = String::new();
    let mut guarded = false;
    for at in block.first..=block.last {
        let record = facts.record(chunk, at);
        let marks = record.map_or(String::new(), |record| marks(facts, chunk, at, record));
        guarded |= record.is_some_and(|record| !record.guards().is_empty());
        let line = format!("{at:>3}  {}  {marks}", show::instruction(facts.instruction(chunk, at)));
        // `\l` ends a line that stands at the left.
        label += &format!("{}\\l", escaped(line.trim_end()));
    }
    let style = match (block.reached, guarded) {
        (false, _) => format!(", {UNREACHED}"),
        (true, true) => ", color=red, penwidth=2".to_string(),
        _ => String::new(),
    };
    writeln!(out, "    c{chunk}_{} [label=\"{label}\"{style}];", block.first)
}

fn edges(out: &mut impl Write, facts: &Facts, chunk: u16, block: &Block) -> io::Result<()> {
    let code = &facts.chunk(chunk).code;
    for way in ways(code, block.last) {
        let closed = facts.record(chunk, block.last).is_none_or(|record| passage(record, way) == Passage::Closed);
        let mut style: Vec<String> = way.condition.map(|condition| format!("label={condition}")).into_iter().collect();
        style.extend(closed.then(|| UNREACHED.to_string()));
        let style = if style.is_empty() { String::new() } else { format!(" [{}]", style.join(", ")) };
        writeln!(out, "    c{chunk}_{} -> c{chunk}_{}{style};", block.first, way.to)?;
    }
    Ok(())
}

/// Calls as dotted edges; a callee that isn't drawn is named in its instruction.
fn calls(out: &mut impl Write, facts: &Facts, chunk: u16, drawn: &[u16]) -> io::Result<()> {
    let blocks = blocks(facts, chunk);
    let places = blocks.iter().flat_map(|block| (block.first..=block.last).map(|at| (block.first, at)));
    for (from, at) in places {
        let i = facts.instruction(chunk, at);
        let to = i.a as u16;
        if i.op == Op::CALL && drawn.contains(&to) && !facts.chunk(to).code.is_empty() {
            writeln!(out, "  c{chunk}_{from} -> c{to}_0 [style=dotted, constraint=false, label=\"call at {at}\"];")?;
        }
    }
    Ok(())
}
