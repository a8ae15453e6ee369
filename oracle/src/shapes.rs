//! The descriptions that are timed: five shapes, each made from a seed.

use oracle::generate::random::Random;
use oracle::generate::{generate, seed_of};
use oracle::judged::judged;
use oracle::model::*;
use oracle::ops::*;
use oracle::run::{self, Outcome};

pub struct Group {
    pub name: &'static str,
    pub descriptions: Vec<Vec<u8>>,
}

pub fn all(seed: u64) -> Vec<Group> {
    vec![
        Group { name: "small scripts", descriptions: small(seed, 200) },
        Group { name: "one large chunk", descriptions: vec![large(seed, 16, 4000)] },
        Group { name: "many locals", descriptions: vec![large(seed, 250, 1000)] },
        Group { name: "deep calls", descriptions: vec![chain(seed, 40)] },
        Group { name: "many yields", descriptions: vec![stream(seed, 150)] },
    ]
}

/// The first generated descriptions that types.rs judges and accepts: one to six
/// chunks, few instructions each.
fn small(seed: u64, count: usize) -> Vec<Vec<u8>> {
    let mut made = Vec::new();
    let mut number = 0;
    while made.len() < count {
        let bytes = generate(seed_of(seed, number)).bytes;
        number += 1;
        let Some(d) = Description::decode(&bytes) else { continue };
        let instructions: usize = d.chunks.iter().map(|chunk| chunk.code.len()).sum();
        if d.chunks.len() > 6 || !(12..=100).contains(&instructions) || !judged(&d) {
            continue;
        }
        let outcome = run::check(&bytes, d.least_words() + 1000, usize::MAX, 20_000);
        if matches!(outcome, Outcome::Accepted { .. }) {
            made.push(bytes);
        }
    }
    made
}

const WORD: Shape = Shape { tag: 1, kind: 3, width: 1, size: 8 };
const ANY_BODY: Shape = Shape { tag: 2, kind: 4, width: 2, size: 16 };

/// Code with its heights followed.
#[derive(Default)]
struct Code {
    code: Vec<Instruction>,
    height: usize,
    deepest: usize,
}

impl Code {
    fn put(&mut self, op: u8, taken: usize, given: usize, abc: [u32; 3]) -> usize {
        self.height = self.height - taken + given;
        self.deepest = self.deepest.max(self.height);
        self.code.push(Instruction::new(op, taken as u8, given as u8, abc[0], abc[1], abc[2]));
        self.code.len() - 1
    }
    fn local(&mut self, local: usize) {
        self.put(GET_LOCAL, 0, 1, [local as u32, 0, 0]);
    }
    fn set(&mut self, local: usize) {
        self.put(SET_LOCAL, 1, 0, [local as u32, 0, 0]);
    }
    fn word(&mut self) {
        self.put(PUSH_IMMEDIATE, 0, 1, [4, 0, 0]);
    }
    fn drop(&mut self, count: usize) {
        self.put(POP_N, count, 0, [0; 3]);
    }
    /// A branch that stands already goes to what comes next.
    fn aim(&mut self, at: usize) {
        self.code[at].a = self.code.len() as u32;
    }
    fn chunk(self, block: u8, locals: usize, params: Vec<Shape>, result: Shape) -> Chunk {
        Chunk {
            reachable: 1,
            block,
            locals: locals as u16,
            deepest: self.deepest as u16,
            param_count: params.len() as u8,
            tags: vec![0; params.len()],
            signature: Some(Signature { params, result }),
            code: self.code,
        }
    }
}

fn description(chunks: Vec<Chunk>, entry: usize) -> Vec<u8> {
    let count = chunks.len() as u16;
    let header = Header {
        float_bits_log2: 6,
        entry: entry as u16,
        chunks: count,
        signatures: count,
        ..Header::default()
    };
    Description { header, chunks, ..Description::default() }.encode()
}

/// Statements over locals: 0 is any body, then words, values of one kind after
/// another, structs, enums.
struct Writer<'a> {
    c: Code,
    r: &'a mut Random,
    locals: usize,
    most: usize,
}

impl Writer<'_> {
    /// A local of the class: 0 words, 1 mixed, 2 structs, 3 enums.
    fn some(&mut self, class: usize) -> usize {
        let quarter = (self.locals - 1) / 4;
        1 + quarter * class + self.r.below(quarter)
    }
    fn full(&self) -> bool {
        self.c.code.len() >= self.most
    }
    fn start(&mut self, used: usize) {
        for local in 1..used {
            match (local - 1) / ((self.locals - 1) / 4) {
                2 => self.body(2),
                3 => self.body(3),
                _ => self.c.word(),
            }
            self.c.set(local);
        }
    }
    fn body(&mut self, kind: u32) {
        self.c.word();
        self.c.word();
        self.c.put(NEW_COMPOSITE, 2, 1, [0, kind, 16]);
    }
    fn sum(&mut self) {
        let (a, b, to) = (self.some(0), self.some(0), self.some(0));
        self.c.local(a);
        self.c.local(b);
        self.c.put(CHECKED_ADD, 2, 3, [0; 3]);
        self.c.drop(2);
        self.c.set(to);
    }
    /// A local takes another kind: what comes after is taken again.
    fn mix(&mut self) {
        let to = self.some(1);
        match self.r.below(4) {
            0 => drop(self.c.put(CONST, 0, 1, [3, 0, 0])),
            1 => drop(self.c.put(CONST, 0, 1, [5, 0, 0])),
            2 => {
                let a = self.some(0);
                self.c.local(a)
            }
            _ => {
                let a = self.some(2);
                self.c.local(a)
            }
        }
        self.c.set(to);
    }
    fn field(&mut self) {
        let (from, to) = (self.some(2), self.some(0));
        self.c.local(from);
        self.c.put(GET_FIELD, 1, 1, [0, 3, 0]);
        self.c.set(to);
    }
    fn fill(&mut self) {
        let kind = self.r.between(2, 3);
        self.body(kind as u32);
        let to = self.some(kind);
        self.c.set(to);
    }
    fn condition(&mut self) {
        if self.r.often(500) {
            let (a, b) = (self.some(0), self.some(0));
            self.c.local(a);
            self.c.local(b);
            self.c.put(CMP_LT, 2, 1, [0; 3]);
        } else {
            let (a, b) = (self.some(1), self.some(1));
            self.c.local(a);
            self.c.local(b);
            self.c.put(CMP_EQ, 2, 1, [0; 3]);
        }
    }
    fn branch(&mut self, depth: usize) {
        self.condition();
        let at = self.c.put(IF, 1, 0, [0; 3]);
        self.block(depth);
        let over = self.c.put(ELSE, 0, 0, [0; 3]);
        self.c.aim(at);
        self.block(depth);
        self.c.aim(over);
        self.c.put(END_IF, 0, 0, [0; 3]);
    }
    /// The parameter is narrowed where it is an enum.
    fn test(&mut self, depth: usize) {
        let local = if self.r.often(500) { 0 } else { self.some(3) };
        self.c.local(local);
        self.c.put(IS_ENUM, 1, 2, [0; 3]);
        let at = self.c.put(IF, 1, 0, [0; 3]);
        self.c.drop(1);
        self.block(depth);
        self.c.word();
        self.c.aim(at);
        self.c.drop(1);
    }
    fn turn(&mut self, depth: usize) {
        let at = self.c.put(LOOP, 0, 0, [0; 3]);
        self.condition();
        let out = self.c.put(BREAK_IF, 1, 0, [0; 3]);
        self.block(depth);
        self.c.put(END_LOOP, 0, 0, [at as u32 + 1, 0, 0]);
        self.c.aim(at);
        self.c.aim(out);
    }
    fn block(&mut self, depth: usize) {
        for _ in 0..self.r.between(2, 5) {
            if self.full() {
                return;
            }
            self.statement(depth);
        }
    }
    fn statement(&mut self, depth: usize) {
        let nests = if depth > 0 { 1 } else { 0 };
        match self.r.weighted(&[30, 10, 14, 14, 12 * nests, 10 * nests, 8 * nests]) {
            0 => self.sum(),
            1 => self.mix(),
            2 => self.field(),
            3 => self.fill(),
            4 => self.branch(depth - 1),
            5 => self.turn(depth - 1),
            _ => self.test(depth - 1),
        }
    }
}

/// One chunk of about so many instructions, loops and branches to depth 4.
fn large(seed: u64, locals: usize, instructions: usize) -> Vec<u8> {
    let mut r = Random::new(seed);
    let mut w = Writer { c: Code::default(), r: &mut r, locals, most: instructions - 2 };
    // With many locals the statements use those that were set.
    let used = locals.min(45);
    w.locals = used;
    w.start(used);
    while !w.full() {
        w.statement(4);
    }
    let mut c = w.c;
    c.word();
    c.put(RETURN, 0, 0, [0; 3]);
    description(vec![c.chunk(0, locals, vec![ANY_BODY], WORD)], 0)
}

/// Each chunk hands its inputs to the one before it, which was seen before in
/// the round: what the entry, the last, hands on moves one chunk a round.
fn chain(seed: u64, chunks: usize) -> Vec<u8> {
    let mut r = Random::new(seed);
    let made = |number: usize| {
        let mut c = Code::default();
        c.local(0);
        c.set(2);
        for _ in 0..r.between(1, 3) {
            c.local(1);
            c.local(2);
            c.put(CMP_EQ, 2, 1, [0; 3]);
            let at = c.put(IF, 1, 0, [0; 3]);
            c.local(1);
            c.set(3);
            c.aim(at);
        }
        if number == 0 {
            c.local(2);
        } else {
            if number + 1 == chunks {
                c.put(CONST, 0, 1, [3, 0, 0]);
                c.put(CONST, 0, 1, [5, 0, 0]);
            } else {
                c.local(0);
                c.local(1);
            }
            c.put(CALL, 2, 1, [number as u32 - 1, 0, 0]);
        }
        let entry = number + 1 == chunks;
        if entry {
            c.set(3);
            c.word();
        }
        c.put(RETURN, 0, 0, [0; 3]);
        c.chunk(0, 4, vec![WORD, WORD], WORD)
    };
    description((0..chunks).map(made).collect(), chunks - 1)
}

/// A streaming entry with so many yields, between them sums, branches and
/// calls of two chunks that yield.
fn stream(seed: u64, yields: usize) -> Vec<u8> {
    let mut r = Random::new(seed);
    let mut w = Writer { c: Code::default(), r: &mut r, locals: 17, most: usize::MAX };
    w.c.put(STREAM, 0, 0, [0; 3]);
    w.start(17);
    for _ in 0..yields {
        ask(&mut w.c);
        let to = w.some(1);
        w.c.set(to);
        match w.r.below(4) {
            0 => w.branch(0),
            1 => w.test(0),
            2 => {
                w.c.word();
                let callee = w.r.between(1, 2) as u32;
                w.c.put(CALL, 1, 1, [callee, 0, 0]);
                w.c.drop(1);
            }
            _ => w.sum(),
        }
    }
    w.c.put(RESET, 0, 0, [0; 3]);
    let entry = w.c.chunk(2, 17, vec![ANY_BODY], WORD);
    let helper = |times: usize| {
        let mut c = Code::default();
        for _ in 0..times {
            ask(&mut c);
            c.drop(1);
        }
        c.local(0);
        c.put(RETURN, 0, 0, [0; 3]);
        c.chunk(1, 1, vec![WORD], WORD)
    };
    description(vec![entry, helper(3), helper(1)], 0)
}

/// A word is yielded, a body comes back.
fn ask(c: &mut Code) {
    c.word();
    let at = c.put(YIELD, 1, 1, [0; 3]);
    c.code[at].site = Some(Site { yielded: WORD, reply: ANY_BODY });
}
