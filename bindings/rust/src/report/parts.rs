//! Parts of a record that stand one behind another.

use super::bytes::u16_at;
use super::cell::{CELL, Cell};
use crate::mask::Mask;
use core::fmt;
use core::marker::PhantomData;

/// The bytes of a place in the stack, which outputs and guards begin with.
const PLACE: usize = 2;
/// What an instruction leaves in one place of the stack.
#[derive(Debug, Clone, Copy, PartialEq, Eq)]
pub struct Output {
    /// The stack place, counted from the bottom.
    pub slot: u16,
    /// What is known of it.
    pub cell: Cell,
}

/// A test that has to come before an instruction.
#[derive(Debug, Clone, Copy, PartialEq, Eq)]
pub struct Guard {
    /// The stack place, counted from the bottom.
    pub place: u16,
    /// The kinds that it must hold.
    pub mask: Mask,
}

mod sealed {
    pub trait Sealed {}
}

/// A part of a record that stands there several times, each as long as the others.
pub trait Part: sealed::Sealed + Sized {
    /// Its bytes.
    const SIZE: usize;

    /// The part with these bytes, of which there are [`SIZE`](Part::SIZE).
    #[doc(hidden)]
    fn read(bytes: &[u8]) -> Option<Self>;
}

impl sealed::Sealed for Cell {}
impl Part for Cell {
    const SIZE: usize = CELL;

    fn read(bytes: &[u8]) -> Option<Cell> {
        Cell::read(bytes.first_chunk()?)
    }
}

impl sealed::Sealed for Output {}
impl Part for Output {
    const SIZE: usize = PLACE + CELL;

    fn read(bytes: &[u8]) -> Option<Output> {
        Some(Output { slot: u16_at(bytes, 0)?, cell: <Cell as Part>::read(&bytes[PLACE..])? })
    }
}

impl sealed::Sealed for Guard {}
impl Part for Guard {
    const SIZE: usize = PLACE + 2;

    fn read(bytes: &[u8]) -> Option<Guard> {
        Some(Guard { place: u16_at(bytes, 0)?, mask: Mask(u16_at(bytes, PLACE)?) })
    }
}

/// Parts that stand one behind another.
#[derive(PartialEq, Eq)]
pub struct Parts<'a, P>(&'a [u8], PhantomData<P>);

/// The cells of a stack, of locals or of inputs.
pub type Cells<'a> = Parts<'a, Cell>;
/// The outputs of a record.
pub type Outputs<'a> = Parts<'a, Output>;
/// The guards of a record.
pub type Guards<'a> = Parts<'a, Guard>;

impl<P> Clone for Parts<'_, P> {
    fn clone(&self) -> Self {
        *self
    }
}

impl<P> Copy for Parts<'_, P> {}

impl<'a, P: Part> Parts<'a, P> {
    pub(super) fn new(bytes: &'a [u8]) -> Self {
        Parts(bytes, PhantomData)
    }

    /// How many there are.
    pub fn len(self) -> usize {
        self.0.len() / P::SIZE
    }

    /// Whether there is none.
    pub fn is_empty(self) -> bool {
        self.0.is_empty()
    }

    /// The one of this number, counted from 0.
    pub fn get(self, number: usize) -> Option<P> {
        let first = number.checked_mul(P::SIZE)?;
        P::read(self.0.get(first..)?.get(..P::SIZE)?)
    }

    /// All of them, in their order.
    pub fn iter(self) -> PartsIter<'a, P> {
        PartsIter(self)
    }

    /// Whether each can be read.
    pub(super) fn all_read(self) -> bool {
        self.0.chunks_exact(P::SIZE).all(|part| P::read(part).is_some())
    }
}

impl<P: Part + fmt::Debug> fmt::Debug for Parts<'_, P> {
    fn fmt(&self, f: &mut fmt::Formatter<'_>) -> fmt::Result {
        f.debug_list().entries(self.iter()).finish()
    }
}

impl<'a, P: Part> IntoIterator for Parts<'a, P> {
    type Item = P;
    type IntoIter = PartsIter<'a, P>;

    fn into_iter(self) -> PartsIter<'a, P> {
        self.iter()
    }
}

/// Goes over [`Parts`].
#[derive(Clone)]
pub struct PartsIter<'a, P>(Parts<'a, P>);

impl<P: Part + fmt::Debug> fmt::Debug for PartsIter<'_, P> {
    fn fmt(&self, f: &mut fmt::Formatter<'_>) -> fmt::Result {
        f.debug_tuple("PartsIter").field(&self.0).finish()
    }
}

impl<P: Part> Iterator for PartsIter<'_, P> {
    type Item = P;

    fn next(&mut self) -> Option<P> {
        let (part, rest) = self.0.0.split_at_checked(P::SIZE)?;
        self.0 = Parts::new(rest);
        P::read(part)
    }

    fn size_hint(&self) -> (usize, Option<usize>) {
        (self.0.len(), Some(self.0.len()))
    }
}

impl<P: Part> ExactSizeIterator for PartsIter<'_, P> {}
