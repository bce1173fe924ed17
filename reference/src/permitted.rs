//! The permitted values of each half of the first n bytes, as sets of 16 marks.

use crate::grammar::{Field, Part, Step};

/// Bit v is set if the value v is permitted.
pub type Values = u16;

pub const ANY: Values = 0xFFFF;
pub const DIGIT: Values = 0x03FF;
pub const SIGN: Values = 0xFC00;
pub const ZONE: Values = 0x8000;

/// The values that one field permits in the half `half` of its input, counted from 0.
fn of_field(field: &Field, half: usize) -> Values {
    let last_high = 2 * field.input - 2;
    let last_low = 2 * field.input - 1;
    match field.step {
        Step::Copy => ANY,
        Step::Pack if half == last_high => SIGN,
        Step::Pack if half.is_multiple_of(2) => ZONE,
        Step::Pack => DIGIT,
        Step::Unpack if half == last_low => SIGN,
        Step::Unpack => DIGIT,
    }
}

/// The values permitted in each half of the first `length` bytes of a part: those that all fields permit that read it.
fn in_part(fields: &[Field], part: Part, length: usize) -> Vec<Values> {
    let mut values = vec![ANY; 2 * length];
    for field in fields.iter().filter(|field| field.part == part) {
        let start = 2 * (field.r - 1);
        for half in 0..2 * field.input {
            values[start + half] &= of_field(field, half);
        }
    }
    values
}

/// The values permitted in each half, of a key of `key` bytes and then of the first `data` bytes of the data.
pub fn permitted(fields: &[Field], key: usize, data: usize) -> Vec<Values> {
    [in_part(fields, Part::Key, key), in_part(fields, Part::Data, data)].concat()
}

/// Whether every half of `halves` that has permitted values holds one of them.
pub fn all_permitted(values: &[Values], halves: &[u8]) -> bool {
    values.iter().zip(halves).all(|(values, half)| values >> half & 1 == 1)
}
