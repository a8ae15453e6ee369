//! lend COUNT [SEED]: what a host has to lend, measured on the proved static
//! library: the words beyond the least that runs of generated descriptions
//! need, the report beside its bound, and the largest descriptions.

mod shapes;

use genduvo::raw;
use oracle::generate::{generate, seed_of};
use oracle::model::*;
use oracle::ops::*;
use std::collections::BTreeMap;
use std::time::Instant;

const QUEUE_FULL: u32 = 8;
const LARGEST: usize = 1_048_576;
const MOST_LOCALS: u16 = 256;
const MOST_STACK: u16 = 64;
const MOST_INSTRUCTIONS: usize = 4096;
/// Twelve bytes of operands, three of taken, given and number, and the field's head.
const INSTRUCTION_FIELD: usize = 18;

/// The least words and the report's bound; None where the form isn't good.
fn sizes(description: &[u8]) -> Option<(usize, usize)> {
    let mut sizes = [0; 2];
    // SAFETY: the slice is valid for the whole call, and `sizes` is borrowed for it alone.
    let number = unsafe { raw::facts_sizes(description.as_ptr(), description.len(), &mut sizes) };
    (number == 0).then(|| (sizes[0] as usize, sizes[1] as usize))
}

/// Number, chunk, instruction, steps and length.
fn call(description: &[u8], workspace: &mut [u32], report: &mut [u8], limit: u32) -> [u32; 5] {
    let mut answer = [0; 5];
    // SAFETY: the slices are valid for the whole call, and what is written is borrowed for it alone.
    unsafe {
        raw::facts_check(
            description.as_ptr(),
            description.len(),
            workspace.as_mut_ptr(),
            workspace.len(),
            report.as_mut_ptr(),
            report.len(),
            limit,
            &mut answer,
        )
    };
    answer
}

/// What a run takes beyond the least workspace, and what comes of it.
struct Need {
    beyond: usize,
    answer: [u32; 5],
    bound: usize,
}

/// Tried with one word more until the queue isn't full.
fn need(description: &[u8], limit: u32) -> Option<Need> {
    let (least, bound) = sizes(description)?;
    let mut report = vec![0; bound];
    let mut beyond = 0;
    loop {
        let mut workspace = vec![0; least + beyond];
        let answer = call(description, &mut workspace, &mut report, limit);
        if answer[0] != QUEUE_FULL {
            return Some(Need { beyond, answer, bound });
        }
        beyond += 1;
    }
}

fn generated(count: u64, seed: u64) {
    let mut words: BTreeMap<usize, usize> = BTreeMap::new();
    let (mut reports, mut bounds) = (0, 0);
    for number in 0..count {
        let description = generate(seed_of(seed, number)).bytes;
        let Some(need) = need(&description, 20_000) else { continue };
        *words.entry(need.beyond).or_default() += 1;
        if need.answer[0] == 0 {
            reports += u64::from(need.answer[4]);
            bounds += need.bound as u64;
        }
    }
    println!("words beyond the least | descriptions");
    for (beyond, descriptions) in words {
        println!("{beyond} | {descriptions}");
    }
    println!("accepted reports: {reports} bytes, bounds {bounds}");
}

fn timed_shapes(seed: u64) {
    println!("shape | bytes | least words | beyond | steps | report | bound");
    for group in shapes::all(seed) {
        for description in group.descriptions.iter().take(3) {
            let need = need(description, u32::MAX).expect("good form");
            let (least, _) = sizes(description).expect("good form");
            let [_, _, _, steps, length] = need.answer;
            let (name, bytes) = (group.name, description.len());
            println!("{name} | {bytes} | {least} | {} | {steps} | {length} | {}", need.beyond, need.bound);
        }
    }
}

/// A description of nearly the largest length with so many locals, its stack
/// at D from the last of `before` on, where this instruction is repeated.
fn largest(locals: u16, deepest: u16, before: &[Instruction], repeated: Instruction) -> Vec<u8> {
    let shape = Shape { tag: 0, kind: 0, width: 0, size: 0 };
    let mut left = LARGEST - 100;
    let mut d = Description::default();
    while left > 200 + before.len() * INSTRUCTION_FIELD {
        left -= 40;
        let count = MOST_INSTRUCTIONS.min(left / INSTRUCTION_FIELD);
        left -= count * INSTRUCTION_FIELD;
        let mut code = before.to_vec();
        code.resize(count - 1, repeated);
        code.push(Instruction::new(RETURN, 0, 0, 0, 0, 0));
        let signature = Some(Signature { params: Vec::new(), result: shape });
        d.chunks.push(Chunk { reachable: 1, locals, deepest, signature, code, ..Chunk::default() });
    }
    d.header = Header { float_bits_log2: 6, chunks: d.chunks.len() as u16, ..Header::default() };
    d.header.signatures = d.header.chunks;
    d.encode()
}

fn worst(name: &str, description: &[u8]) {
    let (least, bound) = sizes(description).expect("good form");
    let mut workspace = vec![0; least + 1000];
    let mut report = vec![0; bound];
    for turn in ["fresh memory", "used again"] {
        let start = Instant::now();
        let [number, chunk, instruction, steps, length] = call(description, &mut workspace, &mut report, u32::MAX);
        let time = start.elapsed();
        println!(
            "{name}: {} bytes, least {least} words, bound {bound}, {number} {chunk} {instruction}, {steps} steps, \
             report {length}, {turn}: {:.3} s, {:.2} microseconds a step",
            description.len(),
            time.as_secs_f64(),
            time.as_secs_f64() * 1e6 / f64::from(steps.max(1))
        );
    }
}

fn main() {
    let mut args = std::env::args().skip(1).map(|text| text.parse::<u64>().expect("a number"));
    let (count, seed) = (args.next().unwrap_or(20_000), args.next().unwrap_or(1));
    generated(count, seed);
    timed_shapes(seed);
    let push = Instruction::new(PUSH_IMMEDIATE, 0, 1, 4, 0, 0);
    let bounds_check = Instruction::new(BOUNDS_CHECK, 4, 4, 0, 0, 0);
    let pushes = vec![push; usize::from(MOST_STACK)];
    worst("most locals and stack", &largest(MOST_LOCALS, MOST_STACK, &pushes, bounds_check));
    let truth = Instruction::new(PUSH_IMMEDIATE, 0, 1, 2, 0, 0);
    worst("no locals, stack of one", &largest(0, 1, &[truth], Instruction::new(NOT, 1, 1, 0, 0, 0)));
}
