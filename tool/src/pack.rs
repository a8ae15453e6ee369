//! How many bytes values take in a body.

use crate::show::BODIES;
use genduvo::Mask;
use genduvo::description::Description;
use genduvo::report::{Cell, Extent};

/// The fewest and the most bytes that a value takes in a body, or why it can't be packed.
pub fn packed(d: &Description, cell: &Cell) -> Result<(u32, u32), String> {
    if cell.mask.is_none() {
        return Err("no kind at all can arrive".to_string());
    }
    if cell.mask.meets(Mask::TEXT) {
        return Err("it may be TEXT, which can't be packed".to_string());
    }
    let mut sizes: Vec<(u32, u32)> =
        scalars(d).iter().filter(|(kind, _)| cell.mask.meets(*kind)).map(|(_, bytes)| (*bytes, *bytes)).collect();
    for ((_, name), extent) in BODIES.iter().zip(cell.extents).filter(|((body, _), _)| cell.mask.meets(*body)) {
        let Extent::Range { min, max } = extent else {
            return Err(format!("it may be {name}, whose bytes aren't known"));
        };
        sizes.push((min, max));
    }
    Ok(sizes.iter().fold((u32::MAX, 0), |(min, max), (least, most)| (min.min(*least), max.max(*most))))
}

/// The bytes of each scalar kind; those of a float and of a handle are the description's.
fn scalars(d: &Description) -> [(Mask, u32); 7] {
    let float = (1u32 << d.header.float_bits_log2) >> 3;
    [
        (Mask::UNIT, 0),
        (Mask::BOOL, 1),
        (Mask::BYTE, 1),
        (Mask::WORD, 8),
        (Mask::FIXED, 8),
        (Mask::FLOAT, float),
        (Mask::OPAQUE, d.header.handle.into()),
    ]
}

/// The fewest and the most bytes of values one after the other; None where one of them can't be packed.
pub fn together(d: &Description, cells: &[Cell]) -> Option<(u64, u64)> {
    let sizes: Option<Vec<(u32, u32)>> = cells.iter().map(|cell| packed(d, cell).ok()).collect();
    let add = |(min, max): (u64, u64), (least, most): &(u32, u32)| (min + u64::from(*least), max + u64::from(*most));
    Some(sizes?.iter().fold((0, 0), add))
}
