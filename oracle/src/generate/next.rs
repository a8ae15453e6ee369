//! Branches to the very next instruction: the empty arms that the script
//! formatter leaves.

use super::code::Code;
use super::world::*;
use crate::ops::*;

/// A condition on the stack.
struct Condition {
    /// How many values lie under it.
    under: usize,
    /// The local that it inspects.
    receiver: Option<usize>,
}

impl Code<'_> {
    /// One such branch and what follows it; leaves the height as it was.
    pub fn next_branch(&mut self, depth: usize) {
        let Condition { under, receiver } = self.condition();
        let top = *self.stack.last().expect("a condition");
        if depth > 0 && self.r.often(150) {
            // The same condition once more, for a branch that has two ways.
            self.put(DUP, 1, 2, [0; 3], &[top, top]);
            self.to_next();
            self.test(depth, under);
            return;
        }
        self.to_next();
        let early = self.r.often(400);
        if early {
            self.drop_top(under);
        }
        self.arm(depth);
        if !early {
            self.drop_top(under);
        }
        if let Some(at) = receiver {
            self.used(at);
        }
    }

    /// Such a branch as the last instruction of a loop or a chunk, with nothing
    /// under its condition.
    pub fn next_of_last(&mut self) {
        let Condition { under, .. } = self.condition();
        if under > 0 {
            self.test_alone(under);
        }
        self.to_next();
    }

    /// Inspections of what may be an enum and of what can't be one, conditions that
    /// are known and others.
    fn condition(&mut self) -> Condition {
        let inspects = usize::from(!self.locals.is_empty());
        let receiver = match self.r.weighted(&[45 * inspects, 20 * inspects, 15, 20]) {
            0 => Some(self.receiver()),
            1 => Some(self.no_enum()),
            2 => {
                self.known();
                None
            }
            _ => {
                self.truth(BOOL, 1);
                None
            }
        };
        let Some(at) = receiver else { return Condition { under: 0, receiver } };
        self.inspect_local(at);
        Condition { under: 1, receiver }
    }

    /// A local that can't be an enum.
    fn no_enum(&mut self) -> usize {
        let all: Vec<usize> = (0..self.locals.len()).filter(|at| self.locals[*at].mask & ENUM == 0).collect();
        if !all.is_empty() {
            return self.r.pick(&all);
        }
        let at = self.r.below(self.locals.len());
        self.value(PLAIN & !ENUM, 1);
        let top = *self.stack.last().expect("a value");
        self.put(SET_LOCAL, 1, 0, [at as u32, 0, 0], &[]);
        self.locals[at] = top;
        at
    }

    fn to_next(&mut self) {
        let op = self.r.pick(&[IF, BREAK_IF]);
        self.put(op, 1, 0, [self.here() + 1, 0, 0], &[]);
    }

    /// What follows the branch: nothing, the end of an empty arm, an `Else` beside
    /// it, or the other arm with the `Else` left out.
    fn arm(&mut self, depth: usize) {
        match self.r.weighted(&[40, 25, 15, if depth > 0 { 20 } else { 0 }]) {
            0 => return,
            1 => {}
            2 => self.put(ELSE, 0, 0, [self.here() + 1, 0, 0], &[]),
            _ => self.block(2, depth - 1),
        }
        self.put(END_IF, 0, 0, [0; 3], &[]);
    }

    /// The receiver is taken for an enum, which only a narrowing would have proved,
    /// or for one of the other kinds that it keeps.
    fn used(&mut self, at: usize) {
        let held = self.locals[at].mask;
        if held == 0 || self.r.often(500) {
            return;
        }
        let kind = if held & ENUM != 0 && self.r.often(600) { ENUM } else { self.r.bit(held) };
        self.consume(at, kind);
    }
}
