//! Code that leaves one value of a wanted kind.

use super::code::Code;
use super::world::*;
use crate::ops::*;

impl Code<'_> {
    /// Puts one value on the stack, of a kind out of `wanted` where it can.
    pub fn value(&mut self, wanted: u16, depth: usize) {
        let wanted = if self.reckless() { UNKNOWN } else { wanted };
        let wanted = if wanted == 0 { UNKNOWN } else { wanted };
        if self.r.often(330) && self.local(wanted) {
            return;
        }
        if depth > 0 {
            if self.r.often(120) && self.slot_read(wanted, depth) {
                return;
            }
            if self.r.often(100) && self.call_for(wanted, depth) {
                return;
            }
            if self.r.often(100) && self.native_for(wanted, depth) {
                return;
            }
            if wanted == UNKNOWN && self.r.often(30) {
                self.put(PUSH_IMMEDIATE, 0, 1, [3, 0, 0], &[likely(UNKNOWN)]);
                return;
            }
        }
        let kind = self.r.bit(wanted);
        match kind {
            UNIT => self.unit(),
            FALSE | TRUE => self.truth(wanted & BOOL, depth),
            BYTE | WORD | FIXED | FLOAT => self.numeral(kind, depth),
            TEXT => self.put(CONST, 0, 1, [6, 0, 0], &[likely(TEXT)]),
            OPAQUE => self.handle(depth),
            _ => self.body(kind, depth),
        }
    }

    /// Reads a local whose kinds fit; some that fit in part only.
    pub fn local(&mut self, wanted: u16) -> bool {
        if self.locals.is_empty() {
            return false;
        }
        for _ in 0..3 {
            let at = self.r.below(self.locals.len());
            let held = self.locals[at].mask;
            let fits = held != 0 && held & !wanted == 0;
            if fits || held & wanted != 0 && held & !PLAIN == 0 && self.r.often(400) {
                self.get_local(at);
                return true;
            }
        }
        false
    }
    pub fn get_local(&mut self, at: usize) {
        let held = self.locals[at];
        self.put(GET_LOCAL, 0, 1, [at as u32, 0, 0], &[held]);
    }

    fn unit(&mut self) {
        if self.r.often(500) {
            self.put(PUSH_IMMEDIATE, 0, 1, [0, 0, 0], &[likely(UNIT)]);
        } else {
            self.put(CONST, 0, 1, [0, 0, 0], &[likely(UNIT)]);
        }
    }

    pub fn truth(&mut self, wanted: u16, depth: usize) {
        if depth == 0 && self.r.often(800) {
            // Something that may be either.
            if !self.local(BOOL) {
                self.numeral(WORD, 0);
                self.numeral(WORD, 0);
                self.put(CMP_LT, 2, 1, [0; 3], &[likely(BOOL)]);
            }
            return;
        }
        let choice = if depth == 0 { self.r.below(2) } else { self.r.weighted(&[4, 2, 35, 12, 12, 10]) };
        let holds = self.r.below(2);
        match choice {
            0 => {
                let mask = if holds == 1 { TRUE } else { FALSE };
                let mask = if wanted & mask == 0 { BOOL & !mask } else { mask };
                let a = if mask == TRUE { 1 } else { 2 };
                self.put(PUSH_IMMEDIATE, 0, 1, [a, 0, 0], &[likely(mask)]);
            }
            1 => {
                let mask = [FALSE, TRUE][holds];
                self.put(CONST, 0, 1, [1, holds as u32, 0], &[likely(mask)]);
            }
            2 => {
                let op = self.r.pick(&[CMP_LT, CMP_GT, CMP_LE, CMP_GE]);
                let kind = self.r.pick(&[BYTE, WORD, WORD, FIXED, FLOAT]);
                let taken = if self.r.often(40) { 3 } else { 2 };
                for _ in 0..taken {
                    self.value(kind, depth - 1);
                }
                self.put(op, taken, 1, [0; 3], &[likely(BOOL)]);
            }
            3 => {
                let op = self.r.pick(&[CMP_EQ, CMP_NE]);
                self.value(PLAIN, depth - 1);
                self.value(PLAIN, depth - 1);
                self.put(op, 2, 1, [0; 3], &[likely(BOOL)]);
            }
            4 => {
                self.value(BOOL, depth - 1);
                let held = self.stack.last().map_or(0, |top| top.mask);
                let mask = if held & TRUE != 0 { FALSE } else { 0 } | if held & FALSE != 0 { TRUE } else { 0 };
                self.put(NOT, 1, 1, [0; 3], &[likely(mask)]);
            }
            _ => {
                // An inspection leaves its receiver; compare the two.
                let receiver = if self.r.often(700) { ENUM } else { PLAIN };
                self.value(receiver, depth - 1);
                let held = *self.stack.last().expect("a value");
                self.put(IS_ENUM, 1, 2, [0; 3], &[held, likely(BOOL)]);
                self.put(CMP_NE, 2, 1, [0; 3], &[likely(BOOL)]);
            }
        }
    }

    /// Operands of one kind; mostly two.
    fn operands(&mut self, kind: u16, usual: u8, depth: usize) -> u8 {
        let taken = if self.r.often(40) { self.r.between(1, 3) as u8 } else { usual };
        for _ in 0..taken {
            self.value(kind, depth - 1);
        }
        taken
    }
    /// Gives back the first of several outputs.
    fn keep_first(&mut self, given: u8) {
        if given > 1 {
            self.put(POP_N, given - 1, 0, [0; 3], &[]);
        }
    }

    fn numeral(&mut self, kind: u16, depth: usize) {
        let place = match kind {
            BYTE => 3,
            WORD => 2,
            FIXED => 4,
            _ => 5,
        };
        if depth == 0 || self.r.often(420) {
            if kind == WORD && self.r.often(600) {
                let a = self.r.between(4, 19) as u32;
                self.put(PUSH_IMMEDIATE, 0, 1, [a, 0, 0], &[likely(WORD)]);
            } else {
                self.put(CONST, 0, 1, [place, 0, 0], &[likely(kind)]);
            }
            return;
        }
        match self.r.weighted(&[30, 16, 22, 14, 18]) {
            0 => {
                let op = self.r.pick(&[CHECKED_ADD, CHECKED_SUB, CHECKED_MUL, CHECKED_DIV, DIV, MOD, CHECKED_MOD, CHECKED_NEG]);
                let op = match (op, kind) {
                    (CHECKED_NEG, BYTE | FLOAT) => CHECKED_ADD,
                    (CHECKED_MOD, FLOAT) => MOD,
                    _ => op,
                };
                let taken = self.operands(kind, if op == CHECKED_NEG { 1 } else { 2 }, depth);
                let k = likely(kind);
                self.put(op, taken, 3, [0; 3], &[k, k, likely(WORD)]);
                self.keep_first(3);
            }
            1 if kind != WORD => {
                let op = self.r.pick(&[ADD, SUB, MUL, NEG]);
                let taken = self.operands(kind, if op == NEG { 1 } else { 2 }, depth);
                self.put(op, taken, 1, [0; 3], &[likely(kind)]);
            }
            1 => {
                let op = self.r.pick(&[BIT_AND, BIT_OR, BIT_XOR, SHL, SHR]);
                let taken = if op >= SHL { 2 } else { self.r.pick(&[2, 2, 2, 1, 3]) };
                for _ in 0..taken {
                    self.value(WORD, depth - 1);
                }
                self.put(op, taken, 1, [0; 3], &[likely(WORD)]);
            }
            2 => match kind {
                BYTE => self.convert(WORD_TO_BYTE, WORD, BYTE, depth),
                FIXED if self.r.often(400) => {
                    let taken = self.operands(FIXED, 2, depth);
                    if self.r.often(500) {
                        self.put(FIXED_MUL, taken, 1, [0; 3], &[likely(FIXED)]);
                    } else {
                        let f = likely(FIXED);
                        self.put(FIXED_DIV, taken, 3, [0; 3], &[f, f, likely(WORD)]);
                        self.keep_first(3);
                    }
                }
                FIXED => self.convert(WORD_TO_FIXED, WORD, FIXED, depth),
                FLOAT => self.convert(INT_TO_FLOAT, WORD, FLOAT, depth),
                _ => match self.r.below(4) {
                    0 => self.convert(FIXED_TO_WORD, FIXED, WORD, depth),
                    1 => self.convert(FLOAT_TO_INT, FLOAT, WORD, depth),
                    2 => self.convert(BYTE_TO_WORD, BYTE, WORD, depth),
                    _ => {
                        self.value(WORD, depth - 1);
                        let given = self.r.between(1, 4) as u8;
                        self.put(BOUNDS_CHECK, 1, given, [0; 3], &vec![likely(WORD); usize::from(given)]);
                        self.keep_first(given);
                    }
                },
            },
            3 => self.read(kind, depth),
            _ => {
                // A duplicate of a value, dropped again.
                self.value(kind, depth - 1);
                let top = *self.stack.last().expect("a value");
                let given = self.r.pick(&[1, 2, 2, 3]);
                self.put(DUP, 1, given, [0; 3], &vec![top; usize::from(given)]);
                self.keep_first(given);
            }
        }
    }

    fn convert(&mut self, op: u8, from: u16, to: u16, depth: usize) {
        self.value(from, depth - 1);
        self.put(op, 1, 1, [0; 3], &[likely(to)]);
    }

    fn handle(&mut self, depth: usize) {
        if !self.native_for(OPAQUE, depth) {
            self.read(OPAQUE, depth.max(1));
        }
    }

    /// A field or element of a body, flat for scalars and nested for bodies.
    fn read(&mut self, kind: u16, depth: usize) {
        let (op, receiver) = self.r.pick(&[
            (GET_FIELD, STRUCT),
            (GET_TUPLE_FIELD, TUPLE),
            (GET_ENUM_FIELD, ENUM),
            (GET_INDEX, ARRAY),
        ]);
        self.value(receiver, depth - 1);
        let mut taken = 1;
        if op == GET_INDEX {
            self.value(WORD, depth - 1);
            taken = 2;
        }
        let size = size_for(self.r, kind);
        let boxed = self.r.often(15) || self.reckless() && self.r.often(200);
        let (operands, first) = if boxed {
            ([2, 0, 0], likely(UNKNOWN))
        } else if kind & BODY != 0 {
            let place = (kind & BODY).trailing_zeros() - 8;
            ([1, place, size], Likely { mask: kind, size })
        } else {
            let place = if kind & BOOL != 0 { 1 } else { kind.trailing_zeros() };
            ([0, place, 0], likely(if place == 1 { BOOL } else { kind }))
        };
        let given = if op == GET_INDEX { self.r.pick(&[1, 1, 2, 4]) } else { 1 };
        let mut outs = vec![likely(WORD); usize::from(given)];
        outs[0] = first;
        self.put(op, taken, given, operands, &outs);
        self.keep_first(given);
    }

    fn body(&mut self, kind: u16, depth: usize) {
        let place = kind.trailing_zeros() - 8;
        if depth == 0 || self.r.often(220) {
            let size = size_for(self.r, kind);
            let told = !self.r.often(100);
            let c = if told { size + 1 } else { 0 };
            let size = if told { size } else { UNSIZED };
            self.put(CONST, 0, 1, [place + 7, 0, c], &[Likely { mask: kind, size }]);
            return;
        }
        if self.r.often(180) {
            self.read(kind, depth);
            return;
        }
        let mut taken = self.r.weighted(&[10, 25, 30, 20, 10, 5]);
        let base = self.stack.len();
        if kind == ENUM && taken > 0 {
            self.value(WORD, depth - 1);
            taken -= 1;
        }
        for _ in 0..taken {
            self.value(PLAIN | OPAQUE, depth - 1);
            let top = *self.stack.last().expect("a value");
            let packs = top.mask & TEXT == 0 && (top.mask & BODY == 0 || top.size != UNSIZED);
            if !packs && !self.reckless() {
                self.drop_top(1);
                self.value(WORD, 0);
            }
        }
        let taken = (self.stack.len() - base) as u8;
        if self.r.often(60) {
            self.put(NEW_COMPOSITE, taken, 1, [1, place, 0], &[likely(kind)]);
            return;
        }
        let need: u32 = self.stack[base..].iter().map(|v| v.bytes(self.w.sizes)).fold(0, u32::saturating_add);
        let spare = self.r.weighted(&[740, 120, 8, 120, 12]);
        let size = match spare {
            0 => need,
            1 => need.saturating_add(self.r.below(9) as u32),
            2 => need.saturating_sub(1),
            3 => need.max(8),
            _ => 65535,
        };
        let size = size.min(65535);
        self.put(NEW_COMPOSITE, taken, 1, [0, place, size], &[Likely { mask: kind, size }]);
    }
}
