//! The contents of one field, taken part by part, and what is wrong with them.

use std::fmt::Display;

/// A number of a field: where it stands and what it is.
#[derive(Debug, Clone, Copy)]
pub(super) struct Part {
    pub at: usize,
    pub size: usize,
    pub value: u32,
    pub name: &'static str,
}

/// Something that a field has wrong, with the refusal that it stands for.
#[derive(Debug, Clone)]
pub(super) struct Note {
    pub number: u8,
    pub at: usize,
    pub size: usize,
    pub part: &'static str,
    pub rule: String,
}

/// A field: its first byte, its contents, how far they are read, what was noted.
pub(super) struct Contents<'a> {
    bytes: &'a [u8],
    pub first: usize,
    at: usize,
    end: usize,
    notes: Vec<Note>,
}

/// Tag and length of a field.
pub(super) const HEAD: usize = 3;

impl<'a> Contents<'a> {
    /// The field whose tag stands at `first` and whose contents end before `end`.
    pub fn new(bytes: &'a [u8], first: usize, end: usize) -> Self {
        Contents { bytes, first, at: first + HEAD, end, notes: Vec::new() }
    }

    /// The field's own tag.
    pub fn tag(&self) -> Part {
        Part { at: self.first, size: 1, value: self.bytes[self.first].into(), name: "the tag" }
    }

    fn length(&self) -> Part {
        let value = (self.end - self.first - HEAD) as u32;
        Part { at: self.first + 1, size: 2, value, name: "the length" }
    }

    fn take(&mut self, size: usize, name: &'static str) -> Option<Part> {
        if self.end - self.at < size {
            let length = self.length();
            self.refuse(1, length, format_args!("the contents end before or within {name}"));
            return None;
        }
        let at = self.at;
        self.at += size;
        Some(Part { at, size, value: number(&self.bytes[at..self.at]), name })
    }

    pub fn u8(&mut self, name: &'static str) -> Option<Part> {
        self.take(1, name)
    }

    pub fn u16(&mut self, name: &'static str) -> Option<Part> {
        self.take(2, name)
    }

    pub fn u32(&mut self, name: &'static str) -> Option<Part> {
        self.take(4, name)
    }

    /// Takes a shape; its tag and its width have three meanings each.
    pub fn shape(&mut self, name: &'static str) -> Option<()> {
        let tag = self.u8(name)?;
        self.hold(1, tag, tag.value <= 2, "a shape's tag is 0 Top, 1 Scalar or 2 Flat");
        self.u8(name)?;
        let width = self.u8(name)?;
        self.hold(1, width, width.value <= 2, "a shape's width is 0 unknown, 1 scalar or 2 body");
        self.u32(name)?;
        Some(())
    }

    /// Notes a fault of a part.
    pub fn refuse(&mut self, number: u8, part: Part, rule: impl Display) {
        let Part { at, size, name, .. } = part;
        self.notes.push(Note { number, at, size, part: name, rule: rule.to_string() });
    }

    /// Notes a fault where the rule doesn't hold.
    pub fn hold(&mut self, number: u8, part: Part, holds: bool, rule: impl Display) {
        if !holds {
            self.refuse(number, part, rule);
        }
    }

    /// A flag is 0 or 1.
    pub fn flag(&mut self, part: Part) {
        self.hold(1, part, part.value <= 1, "a flag is 0 or 1");
    }

    /// All parts are read: nothing may be left over.
    pub fn finish(&mut self) -> Option<()> {
        let length = self.length();
        let left = self.end - self.at;
        self.hold(1, length, left == 0, format_args!("the field's parts have {left} bytes less"));
        Some(())
    }

    /// The note that counts: the lowest number, then the first byte.
    pub fn worst(self) -> Option<Note> {
        self.notes.into_iter().min_by_key(|note| (note.number, note.at))
    }
}

/// A number of up to four bytes, the least first.
pub(super) fn number(bytes: &[u8]) -> u32 {
    bytes.iter().rev().fold(0, |value, byte| value << 8 | u32::from(*byte))
}
