//! The classes of operands: what types.rs says, by hand, and as the stored list of the program `operandlist` has it.

use oracle::operands::listed;

#[test]
fn the_stored_list_is_what_types_rs_says() {
    let folder = std::env::var("ORACLE_DIR").expect("ORACLE_DIR");
    let path = format!("{folder}/../crates/operandlist/stdout");
    assert_eq!(std::fs::read_to_string(&path).expect(&path), listed());
}

/// A single bit, TRUE folded into FALSE: 4096 and 4098 fold to 2; the bits above UNKNOWN count like any other.
#[test]
fn every_single_bit_has_a_class_and_no_other_mask() {
    let bits = (0..16).map(|place| 1u16 << place);
    let mut masks: Vec<u16> = bits.chain([2 | 4096]).collect();
    masks.sort();
    let class = |mask| match mask {
        16 => "Fixed",
        32 => "Float",
        _ => "Int",
    };
    let expected: String = masks.iter().map(|&mask| format!("{mask} {}\n", class(mask))).collect();
    assert_eq!(listed(), format!("{expected}{} masks are Unknown\n", 65536 - masks.len()));
}
