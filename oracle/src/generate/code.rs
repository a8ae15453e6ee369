//! Structured code of one chunk: heights are followed exactly, kinds as they
//! will likely be.

use super::random::Random;
use super::world::*;
use crate::model::*;
use crate::ops::*;

pub struct Code<'a> {
    pub r: &'a mut Random,
    pub w: &'a World,
    pub chunk: usize,
    pub code: Vec<Instruction>,
    /// The height before each instruction.
    pub heights: Vec<usize>,
    pub stack: Vec<Likely>,
    pub locals: Vec<Likely>,
    pub deepest: usize,
    /// The breaks of each loop around the place at work, and its height.
    loops: Vec<(usize, Vec<usize>)>,
    left: isize,
}

/// How much code: statements, and how deep they nest.
#[derive(Clone, Copy)]
pub struct Size {
    pub statements: usize,
    pub depth: usize,
}

pub fn chunk(r: &mut Random, w: &World, number: usize, size: Size) -> Chunk {
    let from = &w.d.chunks[number];
    let mut locals = vec![likely(UNIT); usize::from(from.locals)];
    if let Some(signature) = &from.signature {
        for (local, shape) in locals.iter_mut().zip(&signature.params) {
            *local = of_shape(shape);
        }
    }
    let mut code = Code {
        r,
        w,
        chunk: number,
        code: Vec::new(),
        heights: Vec::new(),
        stack: Vec::new(),
        locals,
        deepest: 0,
        loops: Vec::new(),
        left: 12 * size.statements as isize + 8,
    };
    code.whole(size);
    let mut chunk = from.clone();
    (chunk.deepest, chunk.code) = (code.deepest as u16, code.code);
    chunk.deepest = (chunk.deepest + r.weighted(&[70, 10, 10, 10]) as u16).min(64);
    if chunk.deepest > 0 && r.often(8) {
        chunk.deepest -= 1;
    }
    // A site size beside a scalar changes its width only.
    for i in chunk.code.iter_mut().filter(|i| i.op == CONST && i.c == 0) {
        if r.often(20) {
            i.c = body_size(r) + 1;
        }
    }
    chunk.code.truncate(4096);
    chunk
}

impl Code<'_> {
    pub fn reckless(&mut self) -> bool {
        self.w.reckless > 0 && self.r.often(self.w.reckless)
    }

    pub fn put(&mut self, op: u8, taken: u8, given: u8, abc: [u32; 3], outs: &[Likely]) {
        self.heights.push(self.stack.len());
        self.code.push(Instruction::new(op, taken, given, abc[0], abc[1], abc[2]));
        let keep = self.stack.len().saturating_sub(usize::from(taken));
        self.stack.truncate(keep);
        self.stack.extend((0..usize::from(given)).map(|k| outs.get(k).copied().unwrap_or(likely(UNKNOWN))));
        self.deepest = self.deepest.max(self.stack.len());
        self.left -= 1;
    }
    pub fn drop_top(&mut self, count: usize) {
        if count > 0 {
            self.put(POP_N, count as u8, 0, [0; 3], &[]);
        }
    }
    pub fn here(&self) -> u32 {
        self.code.len() as u32
    }
    fn aim(&mut self, at: usize) {
        self.code[at].a = self.here();
    }

    fn whole(&mut self, size: Size) {
        let from = &self.w.d.chunks[self.chunk];
        let streams = from.block == 2 && self.r.often(900);
        let result = from.signature.as_ref().map_or(UNKNOWN, |s| mask_of(&s.result));
        if streams {
            self.put(STREAM, 0, 0, [0; 3], &[]);
        }
        if self.w.next_branches && self.r.often(800) {
            self.next_branch(size.depth);
        }
        self.block(size.statements, size.depth);
        if streams && self.r.often(850) {
            if self.r.often(100) {
                self.value(PLAIN, 1);
            }
            let taken = if self.r.often(200) { self.stack.len() as u8 } else { 0 };
            self.put(RESET, taken, 0, [0; 3], &[]);
            return;
        }
        match self.r.weighted(&[90, 3, 3, 4, if self.w.next_branches { 12 } else { 0 }]) {
            0 => self.give_back(result, 2),
            1 => self.put(TRAP, 0, 0, [0; 3], &[]),
            2 => {}
            3 => self.back(),
            _ => self.next_of_last(),
        }
    }
    fn give_back(&mut self, result: u16, depth: usize) {
        self.value(result, depth);
        let given = u8::from(self.r.often(15));
        self.put(RETURN, 0, given, [0; 3], &[]);
    }
    /// A jump back to a place of the same height.
    fn back(&mut self) {
        let height = self.stack.len();
        let places: Vec<usize> = (0..self.heights.len()).filter(|at| self.heights[*at] == height).collect();
        if !places.is_empty() {
            let a = self.r.pick(&places) as u32;
            let op = self.r.pick(&[END_LOOP, BREAK, ELSE]);
            self.put(op, 0, 0, [a, 0, 0], &[]);
        }
    }

    pub fn block(&mut self, statements: usize, depth: usize) {
        for _ in 0..self.r.between(statements.div_ceil(2), statements) {
            if self.left <= 0 {
                return;
            }
            if self.statement(depth) {
                return;
            }
        }
    }

    /// Leaves the height as it was. True where nothing follows.
    fn statement(&mut self, depth: usize) -> bool {
        let nests = depth > 0 && self.left > 10;
        let weights = [
            22,
            8,
            if self.w.placed.is_empty() { usize::from(self.r.often(20)) } else { 14 },
            if nests { 14 } else { 0 },
            if nests { 8 } else { 0 },
            if nests && !self.locals.is_empty() { 12 } else { 0 },
            if self.w.dialogue.is_some() { 11 } else { 0 },
            8,
            4,
            if self.loops.is_empty() { 0 } else { 6 },
            if nests { 4 } else { 0 },
            3,
            if nests { 2 } else { 0 },
            if nests && !self.locals.is_empty() { 9 } else { 0 },
            if self.w.next_branches { 30 } else { 0 },
        ];
        match self.r.weighted(&weights) {
            0 => self.store(),
            1 => {
                let base = self.stack.len();
                self.value(UNKNOWN, 3);
                if self.r.often(200) {
                    self.value(UNKNOWN, 1);
                }
                let count = self.stack.len() - base;
                self.drop_top(count);
            }
            2 => self.write(),
            3 => self.branch(depth),
            4 => self.turn(depth),
            5 => self.inspect(depth),
            6 => self.dialogue(),
            7 => {
                if self.call_for(UNKNOWN, 2) {
                    self.settle();
                }
            }
            8 => {
                if self.native_for(UNKNOWN, 2) {
                    self.settle();
                }
            }
            9 => return self.leave(),
            10 => self.known_branch(depth),
            11 => self.rare(),
            12 => return self.finish(),
            14 => self.next_branch(depth),
            _ => {
                let kinds = self.r.bit(PLAIN) | self.r.bit(PLAIN);
                let at = self.r.below(self.locals.len());
                let last = self.mix(at, kinds);
                if self.r.often(700) {
                    self.consume(at, last);
                }
            }
        }
        false
    }
    /// The top of the stack goes into a local or away.
    fn settle(&mut self) {
        if !self.locals.is_empty() && self.r.often(600) {
            self.set_local();
        } else {
            self.drop_top(1);
        }
    }
    fn set_local(&mut self) {
        let at = self.r.below(self.locals.len());
        let top = *self.stack.last().expect("a value");
        self.put(SET_LOCAL, 1, 0, [at as u32, 0, 0], &[]);
        self.locals[at] = top;
    }
    fn store(&mut self) {
        if self.locals.is_empty() {
            self.value(UNKNOWN, 3);
            self.drop_top(1);
            return;
        }
        let wanted = match self.r.weighted(&[40, 25, 20, 15]) {
            0 => UNKNOWN,
            1 => BODY,
            2 => ENUM | STRUCT,
            _ => self.locals[self.r.below(self.locals.len())].mask,
        };
        self.value(wanted, 3);
        self.set_local();
    }

    fn branch(&mut self, depth: usize) {
        self.truth(BOOL, 2);
        self.test(depth, 0);
    }
    /// `If` on the top of the stack; both arms begin by dropping what an
    /// inspection left, or neither does and the end drops it.
    pub fn test(&mut self, depth: usize, under: usize) {
        let at = self.code.len();
        self.put(IF, 1, 0, [0; 3], &[]);
        let early = self.r.often(600);
        let base = self.stack.clone();
        let before = self.locals.clone();
        if early {
            self.drop_top(under);
        }
        if !self.w.next_branches || self.r.often(700) {
            self.block(2, depth - 1);
        }
        let after = std::mem::replace(&mut self.locals, before.clone());
        if early && under > 0 || self.r.often(450) {
            let skip = self.code.len();
            self.put(ELSE, 0, 0, [0; 3], &[]);
            self.aim(at);
            self.stack = base.clone();
            if early {
                self.drop_top(under);
            }
            self.block(2, depth - 1);
            self.aim(skip);
        } else {
            self.end_arm(at);
        }
        for (local, other) in self.locals.iter_mut().zip(after) {
            *local = local.join(other);
        }
        self.stack.truncate(base.len() - if early { under } else { 0 });
        if self.r.often(900) {
            self.put(END_IF, 0, 0, [0; 3], &[]);
        }
        if !early {
            self.drop_top(under);
        }
    }
    /// The test's way past its arm goes on here. An empty arm makes it a branch to
    /// the very next instruction: where none is to be made, something comes in.
    fn end_arm(&mut self, at: usize) {
        if at + 1 == self.code.len() && !self.w.next_branches {
            self.put(POP_N, 0, 0, [0; 3], &[]);
        }
        self.aim(at);
    }
    /// One kind on one way and another on the other, into a local. Answers a
    /// kind of the way that likely arrives first.
    fn mix(&mut self, at: usize, kinds: u16) -> u16 {
        self.truth(BOOL, 0);
        let test = self.code.len();
        self.put(IF, 1, 0, [0; 3], &[]);
        let first = self.r.bit(kinds);
        self.value(first, 1);
        let one = *self.stack.last().expect("a value");
        self.put(SET_LOCAL, 1, 0, [at as u32, 0, 0], &[]);
        let skip = self.code.len();
        self.put(ELSE, 0, 0, [0; 3], &[]);
        self.aim(test);
        let old = self.locals[at].mask;
        let last = if old == 0 || self.r.often(700) {
            let second = if kinds == first { kinds } else { kinds & !first };
            self.value(second, 1);
            let other = *self.stack.last().expect("a value");
            self.put(SET_LOCAL, 1, 0, [at as u32, 0, 0], &[]);
            self.locals[at] = one.join(other);
            second
        } else {
            self.locals[at] = self.locals[at].join(one);
            self.r.bit(old)
        };
        self.aim(skip);
        self.put(END_IF, 0, 0, [0; 3], &[]);
        last
    }
    /// Reads a local and consumes it as one kind: a guard, where the way of
    /// that kind arrives first. A number is now and then read twice, for an
    /// instruction of two operands: two guards.
    pub fn consume(&mut self, at: usize, kind: u16) {
        self.get_local(at);
        let base = self.stack.len() - 1;
        if kind & NUMERIC != 0 && self.r.often(400) {
            self.get_local(at);
            self.consume_pair(kind);
        } else {
            self.consume_top(at, kind);
        }
        let count = self.stack.len() - base;
        self.drop_top(count);
    }
    fn consume_pair(&mut self, kind: u16) {
        let op = match kind {
            WORD => self.r.pick(&[BIT_AND, BIT_OR, BIT_XOR, SHL, SHR, CMP_LT, MOD, CHECKED_ADD]),
            BYTE => self.r.pick(&[ADD, SUB, CMP_GT, CHECKED_MOD]),
            FIXED => self.r.pick(&[FIXED_MUL, FIXED_DIV, CMP_GE, CHECKED_SUB]),
            _ => self.r.pick(&[MUL, DIV, CMP_LE]),
        };
        self.put(op, 2, given(op).0, [0; 3], &[]);
    }
    /// An index into a local's array: a word, or another local that may be more.
    fn index_into(&mut self, array: usize) {
        let at = self.r.below(self.locals.len());
        if at == array || self.r.often(500) {
            self.value(WORD, 0);
            return;
        }
        let kinds = WORD | self.r.bit(PLAIN);
        self.mix(at, kinds);
        self.get_local(at);
    }
    fn consume_top(&mut self, at: usize, kind: u16) {
        let (op, taken, abc) = match kind {
            WORD => (self.r.pick(&[WORD_TO_BYTE, INT_TO_FLOAT, WORD_TO_FIXED, BIT_OR, BOUNDS_CHECK]), 1, [0; 3]),
            BYTE => (self.r.pick(&[BYTE_TO_WORD, NEG, ADD]), 1, [0; 3]),
            FIXED => (self.r.pick(&[FIXED_TO_WORD, FIXED_MUL, NEG]), 1, [0; 3]),
            FLOAT => (self.r.pick(&[FLOAT_TO_INT, NEG, MUL]), 1, [0; 3]),
            FALSE | TRUE if self.may_break(1) && self.r.often(500) => return self.break_if(),
            FALSE | TRUE => (NOT, 1, [0; 3]),
            TUPLE => (GET_TUPLE_FIELD, 1, [0, 3, 0]),
            STRUCT => (GET_FIELD, 1, [1, 3, 8]),
            ENUM => (GET_ENUM_FIELD, 1, [0, 3, 0]),
            ARRAY => {
                self.index_into(at);
                (GET_INDEX, 2, [0, 3, 0])
            }
            _ => {
                self.value(WORD, 0);
                (CMP_EQ, 2, [0; 3])
            }
        };
        self.put(op, taken, 1, abc, &[]);
    }
    fn known_branch(&mut self, depth: usize) {
        self.known();
        self.test(depth, 0);
    }
    /// A condition that is known.
    pub fn known(&mut self) {
        let a = self.r.pick(&[1, 2]);
        self.put(PUSH_IMMEDIATE, 0, 1, [a, 0, 0], &[likely(if a == 1 { TRUE } else { FALSE })]);
    }

    fn turn(&mut self, depth: usize) {
        let start = self.code.len();
        self.put(LOOP, 0, 0, [0; 3], &[]);
        let height = self.stack.len();
        let before = self.locals.clone();
        self.loops.push((height, Vec::new()));
        if self.r.often(500) {
            self.truth(BOOL, 2);
            self.break_if();
        }
        self.block(3, depth - 1);
        if self.r.often(500) {
            self.truth(BOOL, 1);
            self.break_if();
        }
        if self.w.next_branches && self.r.often(300) {
            self.next_of_last();
        }
        self.put(END_LOOP, 0, 0, [start as u32 + 1, 0, 0], &[]);
        let (_, breaks) = self.loops.pop().expect("a loop");
        for at in breaks {
            self.aim(at);
        }
        self.aim(start);
        for (local, other) in self.locals.iter_mut().zip(before) {
            *local = local.join(other);
        }
    }
    /// Whether the stack, less so many values, is at the loop's height.
    fn may_break(&self, less: usize) -> bool {
        self.loops.last().is_some_and(|(height, _)| *height + less == self.stack.len())
    }
    fn break_if(&mut self) {
        let at = self.code.len();
        self.put(BREAK_IF, 1, 0, [0; 3], &[]);
        self.loops.last_mut().expect("a loop").1.push(at);
    }
    /// A break at the loop's height; `Break` ends the block.
    fn leave(&mut self) -> bool {
        if !self.may_break(0) {
            return false;
        }
        if self.r.often(700) {
            self.truth(BOOL, 2);
            self.break_if();
            return false;
        }
        let at = self.code.len();
        self.put(BREAK, 0, 0, [0; 3], &[]);
        self.loops.last_mut().expect("a loop").1.push(at);
        true
    }

    /// Inspects a local that may be an enum, mostly; answers how many values lie
    /// under the test.
    fn inspection(&mut self) -> usize {
        let at = self.receiver();
        self.inspect_local(at);
        1
    }
    /// A local that may be an enum, mostly; or, for a way that is cut, one that has no
    /// kind in the first round.
    pub fn receiver(&mut self) -> usize {
        if self.r.often(300)
            && let Some(at) = self.unset()
        {
            return at;
        }
        let maybe: Vec<usize> =
            (0..self.locals.len()).filter(|at| self.locals[*at].mask & ENUM != 0).collect();
        let any = self.r.below(self.locals.len());
        let at = if !maybe.is_empty() && self.r.often(850) { self.r.pick(&maybe) } else { any };
        if maybe.is_empty() && self.r.often(750) {
            let kinds = ENUM | self.r.bit(PLAIN);
            self.mix(at, kinds);
        }
        at
    }
    /// Leaves the local and the test, plain or negated.
    pub fn inspect_local(&mut self, at: usize) {
        self.get_local(at);
        let held = self.locals[at];
        let truth = likely(if held.mask & ENUM == 0 { FALSE } else { BOOL });
        self.put(IS_ENUM, 1, 2, [0; 3], &[held, truth]);
        for _ in 0..self.r.weighted(&[60, 30, 10]) {
            self.put(NOT, 1, 1, [0; 3], &[likely(BOOL)]);
        }
        if self.r.often(150) {
            // The test goes through a local and back.
            let through = self.r.below(self.locals.len());
            self.put(SET_LOCAL, 1, 0, [through as u32, 0, 0], &[]);
            self.locals[through] = likely(BOOL);
            self.get_local(through);
        }
        if self.r.often(80) {
            let top = *self.stack.last().expect("a test");
            self.put(DUP, 1, 1, [0; 3], &[top]);
        }
    }
    /// Puts the test into a local, drops the receiver under it and gets the test back.
    pub fn test_alone(&mut self, under: usize) {
        let at = self.r.below(self.locals.len());
        self.put(SET_LOCAL, 1, 0, [at as u32, 0, 0], &[]);
        self.locals[at] = likely(BOOL);
        self.drop_top(under);
        self.get_local(at);
    }
    fn inspect(&mut self, depth: usize) {
        if self.r.often(150) {
            let kind = self.r.pick(&[STRUCT, STRUCT, STRUCT, STRUCT, STRUCT, STRUCT, WORD, WORD, WORD | STRUCT, BODY]);
            if self.r.often(60) {
                self.put(PUSH_IMMEDIATE, 0, 1, [20, 0, 0], &[likely(UNKNOWN)]);
            } else {
                self.value(kind, 2);
            }
            let held = *self.stack.last().expect("a value");
            self.put(IS_STRUCT, 1, 2, [0; 3], &[held, likely(BOOL)]);
            self.test(depth, 1);
            return;
        }
        let under = self.inspection();
        if !self.loops.is_empty() && self.r.often(250) {
            // Out of the loop with the receiver put away first.
            self.test_alone(under);
            let (height, _) = self.loops.last().expect("a loop");
            if self.stack.len() == height + 1 {
                self.break_if();
            } else {
                self.drop_top(1);
            }
            return;
        }
        self.test(depth, under);
    }

    fn dialogue(&mut self) {
        let reply = self.w.dialogue.expect("a dialogue");
        let site = site(self.r, self.w, reply);
        self.value(mask_of(&site.yielded), 2);
        let got = of_shape(&site.reply);
        let given = if self.r.often(30) { 2 } else { 1 };
        self.put(YIELD, 1, given, [0; 3], &[got]);
        self.code.last_mut().expect("the Yield").site = Some(site);
        let from = &self.w.d.chunks[self.chunk];
        if self.chunk == usize::from(self.w.d.header.entry) && from.block == 2 && from.param_count > 0 && !self.locals.is_empty() {
            self.locals[0] = got;
        }
        if given == 2 {
            self.drop_top(1);
        }
        self.settle();
    }
    fn rare(&mut self) {
        match self.r.weighted(&[30, 20, 10, 10, 8, 6, 16]) {
            0 => self.put(END_IF, 0, 0, [0; 3], &[]),
            1 => self.put(POP_N, 0, 0, [0; 3], &[]),
            2 => {
                let a = self.r.below(40) as u32;
                self.put(LOOP, 0, 0, [a, 0, 0], &[]);
            }
            3 => self.put(STREAM, 0, 0, [0; 3], &[]),
            4 => {
                if let (Some(reply), Some(last)) = (self.w.dialogue, self.code.last()) {
                    if last.site.is_none() {
                        let one = site(self.r, self.w, reply);
                        self.code.last_mut().expect("an instruction").site = Some(one);
                    }
                }
            }
            5 => {
                let height = self.stack.len() as u8;
                let taken = if height > 0 && self.r.often(500) { 1 } else { 0 };
                if self.r.often(150) {
                    self.put(LEN, taken, taken, [0; 3], &[likely(WORD)]);
                }
            }
            _ => {
                let count = self.r.between(1, 4);
                self.put(END_IF, 0, count as u8, [0; 3], &[]);
                self.drop_top(count);
            }
        }
    }
    /// Ends this way: `Return`, `Trap`, `Reset`, a jump back or past the end.
    fn finish(&mut self) -> bool {
        let from = &self.w.d.chunks[self.chunk];
        let result = from.signature.as_ref().map_or(UNKNOWN, |s| mask_of(&s.result));
        let base = self.stack.len();
        match self.r.weighted(&[50, 20, if self.heights.get(1) == Some(&0) { 15 } else { 0 }, 10, 5]) {
            0 => self.give_back(result, 2),
            1 => self.put(TRAP, 0, 0, [0; 3], &[]),
            2 => self.put(RESET, 0, 0, [0; 3], &[]),
            3 => self.back(),
            _ => {
                let a = self.r.pick(&[4096, 5000, 65535]);
                self.put(BREAK, 0, 0, [a, 0, 0], &[]);
            }
        }
        self.stack.resize(base, likely(UNKNOWN));
        true
    }
}
