//! Code that reaches past its chunk: calls, natives and data slots.

use super::code::Code;
use super::world::*;
use crate::ops::*;

impl Code<'_> {
    /// A call whose result likely fits; false where there is none.
    pub fn call_for(&mut self, wanted: u16, depth: usize) -> bool {
        let w = self.w;
        let count = usize::from(w.d.header.signatures).min(w.d.chunks.len());
        let callee = self.r.below(count.max(1));
        let Some(signature) = w.d.chunks.get(callee).and_then(|chunk| chunk.signature.as_ref()) else {
            return false;
        };
        let result = of_shape(&signature.result);
        if result.mask & wanted == 0 || result.mask & !wanted != 0 && !self.r.often(200) {
            return false;
        }
        let mut params: Vec<u16> = signature.params.iter().map(mask_of).collect();
        if self.r.often(40) {
            let keep = self.r.below(params.len() + 1);
            params.truncate(keep);
        }
        for param in &params {
            self.value(*param, depth - 1);
        }
        self.put(CALL, params.len() as u8, 1, [callee as u32, 0, 0], &[result]);
        true
    }

    pub fn native_for(&mut self, wanted: u16, depth: usize) -> bool {
        let w = self.w;
        let index = self.r.below(w.d.natives.len() + 1);
        let result = match w.d.natives.get(index) {
            Some(native) => of_shape(&native.shape),
            None if self.r.often(40) => likely(UNKNOWN),
            None => return false,
        };
        if result.mask & wanted == 0 || result.mask & !wanted != 0 && !self.r.often(150) {
            return false;
        }
        let taken = self.r.weighted(&[50, 30, 20]);
        for _ in 0..taken {
            self.value(UNKNOWN, depth.saturating_sub(1));
        }
        let given = self.r.pick(&[1, 1, 2, 2, 3]);
        let op = self.r.pick(&[CALL_VERIFIED_NATIVE, CALL_EXTERNAL_NATIVE]);
        self.put(op, taken as u8, given, [index as u32, 0, 0], &[result, likely(WORD)]);
        if given > 1 {
            self.drop_top(usize::from(given) - 1);
        }
        true
    }

    /// Some slots from a place on, alike in being placed, and what they hold.
    fn some_slots(&mut self) -> (usize, usize, Likely) {
        let w = self.w;
        let all = w.slots.len().min(w.placed.len());
        if all == 0 {
            return (self.r.below(3), self.r.below(2), likely(UNKNOWN));
        }
        let first = self.r.below(all);
        let shared = w.d.shared.len();
        let crosses = self.r.often(60);
        let mut count = 1;
        while first + count < all
            && count < 4
            && (w.placed[first + count] == w.placed[first] || crosses || first < shared)
            && self.r.often(500)
        {
            count += 1;
        }
        let mut held = likely(0);
        for slot in &w.slots[first..first + count] {
            held = held.join(*slot);
        }
        if self.reckless() {
            count += self.r.below(3);
        }
        if self.r.often(12) {
            count = 0;
        }
        (first, count, held)
    }

    pub fn slot_read(&mut self, wanted: u16, depth: usize) -> bool {
        if self.w.d.header.layout == 0 && !self.r.often(3) {
            return false;
        }
        let (first, count, held) = self.some_slots();
        if held.mask & wanted == 0 || held.mask & !wanted & !UNIT != 0 && !self.r.often(150) {
            return false;
        }
        if count == 1 && self.r.often(700) {
            self.put(GET_DATA, 0, 1, [first as u32, 0, 0], &[held]);
            return true;
        }
        self.value(WORD, depth.saturating_sub(1));
        self.value(UNIT | BYTE | WORD, 0);
        let given = self.r.pick(&[1, 2, 4]);
        let mut outs = vec![likely(WORD); usize::from(given)];
        outs[0] = held;
        self.put(GET_DATA_INDEXED, 2, given, [first as u32, count as u32, 0], &outs);
        if given > 1 {
            self.drop_top(usize::from(given) - 1);
        }
        true
    }

    pub fn write(&mut self) {
        let (first, mut count, mut held) = self.some_slots();
        if first < self.w.d.shared.len() && count > 1 && !self.r.often(200) {
            // Shared slots of unlike kinds take no common value.
            (count, held) = (1, self.w.slots[first]);
        }
        let placed = self.w.placed.get(first).copied().unwrap_or(false);
        let shared = first < self.w.d.shared.len();
        let wanted = if shared {
            held.mask
        } else if placed {
            if self.r.often(700) { held.mask & BODY } else { PLAIN }
        } else if self.r.often(600) {
            held.mask
        } else {
            UNIT | BOOL | BYTE | WORD | FIXED | FLOAT
        };
        let base = self.stack.len();
        self.value(wanted, 3);
        if count == 1 && self.r.often(600) {
            let taken = if base > 0 && self.r.often(10) { 2 } else { 1 };
            let given = if self.r.often(50) { self.r.below(3) as u8 } else { 0 };
            self.put(SET_DATA, taken, given, [first as u32, 0, 0], &[likely(WORD); 4]);
        } else {
            self.value(WORD, 1);
            let given = self.r.pick(&[0, 1, 1, 4]);
            self.put(SET_DATA_INDEXED, 2, given, [first as u32, count as u32, 0], &[likely(WORD); 4]);
        }
        let height = self.stack.len();
        if height > base {
            self.drop_top(height - base);
        } else if height < base {
            self.value(UNKNOWN, 0);
        }
    }

    /// A local takes what a slot without initializer holds: it has no kind in the first
    /// round, and then that of a write. None where every slot has an initializer.
    pub fn unset(&mut self) -> Option<usize> {
        let w = self.w;
        let first = w.d.shared.len() + w.d.initializers.len();
        let count = w.slots.len().checked_sub(first).filter(|count| *count > 0)?;
        let slot = first + self.r.below(count);
        let at = self.r.below(self.locals.len());
        let held = w.slots[slot];
        self.value(held.mask, 1);
        self.put(SET_DATA, 1, 0, [slot as u32, 0, 0], &[]);
        self.put(GET_DATA, 0, 1, [slot as u32, 0, 0], &[held]);
        self.put(SET_LOCAL, 1, 0, [at as u32, 0, 0], &[]);
        self.locals[at] = held;
        Some(at)
    }
}
