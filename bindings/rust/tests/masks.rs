//! Masks and their names.

#![cfg(feature = "alloc")]

use genduvo::Mask;
use genduvo::description::{BodyKind, ConstValue, ScalarKind, Shape};

#[test]
fn names_of_masks() {
    let names = [
        (Mask::NONE, "NONE"),
        (Mask::UNIT, "UNIT"),
        (Mask::WORD | Mask::TRUE, "WORD|TRUE"),
        (Mask::WORD | Mask::BOOL, "BOOL|WORD"),
        (Mask::FALSE | Mask::BYTE, "FALSE|BYTE"),
        (Mask::BODY | Mask::OPAQUE, "OPAQUE|BODY"),
        (Mask::TUPLE | Mask::ENUM, "TUPLE|ENUM"),
        (Mask::UNKNOWN, "UNKNOWN"),
        (Mask::UNKNOWN.without(Mask::TEXT), "UNIT|BOOL|BYTE|WORD|FIXED|FLOAT|OPAQUE|BODY"),
        (Mask(0x2000), "0x2000"),
        (Mask(0x2000 | 8), "WORD|0x2000"),
        (Mask(0xffff), "UNKNOWN|0xe000"),
    ];
    for (mask, name) in names {
        assert_eq!(mask.to_string(), name);
    }
    assert_eq!(Mask::NONE.names().count(), 0);
    assert_eq!(Mask(0x2000).names().count(), 0);
}

#[test]
fn every_bit_is_named_once() {
    for bits in 0..=Mask::UNKNOWN.bits() {
        let named = Mask(bits).names().map(|name| named(name).bits());
        assert_eq!(named.sum::<u16>(), bits);
    }
}

/// The mask of a name.
fn named(name: &str) -> Mask {
    let wholes = [Mask::BOOL, Mask::BODY, Mask::UNKNOWN];
    let all = (0..13).map(|bit| Mask(1 << bit)).chain(wholes);
    all.into_iter().find(|mask| mask.to_string() == name).unwrap_or_else(|| panic!("{name}"))
}

#[test]
fn sets_of_kinds() {
    let (word, number) = (Mask::WORD, Mask::WORD | Mask::BYTE);
    assert!(number.contains(word) && !word.contains(number) && word.meets(number) && !word.meets(Mask::BYTE));
    assert!(word.contains(Mask::NONE) && !word.meets(Mask::NONE) && Mask::NONE.is_none() && !word.is_none());
    assert_eq!((number.without(word), number.intersection(word), number & Mask::TEXT), (Mask::BYTE, word, Mask::NONE));
    assert_eq!(Mask::default(), Mask::NONE);
}

/// The cases that document 01 marks.
#[test]
fn kinds_as_masks() {
    assert_eq!([1, 7, 8].map(Mask::scalar), [Mask(4098), Mask(128), Mask(8191)]);
    assert_eq!([0, 3, 4].map(Mask::body), [Mask(256), Mask(2048), Mask(3840)]);
    assert_eq!((Mask(4096).folded(), Mask(4098).folded(), Mask(8).folded()), (Mask(2), Mask(2), Mask(8)));
    assert_eq!(Mask::scalar(255), Mask::UNKNOWN);
}

#[test]
fn constants_as_masks() {
    let constant = |value: ConstValue, flag| Mask::constant(value.0, flag);
    assert_eq!(constant(ConstValue::BOOL, true), Mask::TRUE);
    assert_eq!(constant(ConstValue::BOOL, false), Mask::FALSE);
    assert_eq!(constant(ConstValue::INT, true), Mask::WORD);
    assert_eq!(constant(ConstValue::NONE, false), Mask::UNKNOWN);
    assert_eq!(Mask::constant(12, false), Mask::UNKNOWN);
    let others = ["Unit", "Byte", "Fixed", "Float", "Tuple", "Array", "Struct", "Enum"];
    for name in others {
        let value = ConstValue::from_name(name).expect(name);
        assert_eq!(constant(value, false).to_string(), name.to_uppercase());
    }
    assert_eq!(constant(ConstValue::STATIC_STR, false), Mask::TEXT);
}

#[test]
fn shapes_as_masks() {
    assert_eq!(Shape::top().mask(), Mask::UNKNOWN);
    assert_eq!(Shape::body(BodyKind::ENUM, 16).mask(), Mask::ENUM);
    for kind in ScalarKind::ALL {
        assert_eq!(Shape::scalar(kind, 8).mask().to_string(), kind.to_string().to_uppercase());
        assert_eq!(Shape::scalar_of_unknown_width(kind).mask(), Shape::scalar(kind, 8).mask());
    }
}
