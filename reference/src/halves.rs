//! Half bytes: pack, unpack, and the finished output record made of halves.
//!
//! The steps are written over any kind of half, so that the same words tell both
//! what value stands in an output half and from which input half it was taken.

use crate::grammar::{Field, Step};
use crate::parts::Parts;

/// Half 2i is the high half of byte i, half 2i+1 the low.
pub fn halves(bytes: &[u8]) -> Vec<u8> {
    bytes.iter().flat_map(|byte| [byte >> 4, byte & 15]).collect()
}

/// The bytes of these halves.
pub fn bytes(halves: &[u8]) -> Vec<u8> {
    halves.chunks(2).map(|pair| pair[0] << 4 | pair[1]).collect()
}

/// The last byte's halves, their places changed, and the bytes before it.
fn sign_and_rest<H: Copy>(input: &[H]) -> ([H; 2], &[H]) {
    let (rest, last) = input.split_at(input.len() - 2);
    ([last[1], last[0]], rest)
}

/// Pack to `m` bytes: the other low halves follow leftwards, two to a byte; fill is 0.
pub fn pack_halves<H: Copy>(input: &[H], m: usize, made: impl Fn(u8) -> H) -> Vec<H> {
    let (sign, rest) = sign_and_rest(input);
    let low_leftwards = rest.chunks(2).rev().map(|pair| pair[1]);
    let leftwards = low_leftwards.chain(std::iter::repeat_with(|| made(0)));
    let mut output: Vec<H> = leftwards.take(2 * m - 2).collect();
    output.reverse();
    output.extend(sign);
    output
}

/// Unpack to `m` bytes: every other half, going left, has F before it; fill is F0.
pub fn unpack_halves<H: Copy>(input: &[H], m: usize, made: impl Fn(u8) -> H) -> Vec<H> {
    let (sign, rest) = sign_and_rest(input);
    let half_leftwards = rest.iter().rev().copied();
    let leftwards = half_leftwards.chain(std::iter::repeat_with(|| made(0)));
    let mut digits: Vec<H> = leftwards.take(m - 1).collect();
    digits.reverse();
    let mut output: Vec<H> = digits.into_iter().flat_map(|half| [made(15), half]).collect();
    output.extend(sign);
    output
}

/// Pack `src` (at least 1 byte) to `m` (at least 1) bytes.
pub fn pack(src: &[u8], m: usize) -> Vec<u8> {
    bytes(&pack_halves(&halves(src), m, |value| value))
}

/// Unpack `src` (at least 1 byte) to `m` (at least 1) bytes.
pub fn unpack(src: &[u8], m: usize) -> Vec<u8> {
    bytes(&unpack_halves(&halves(src), m, |value| value))
}

/// The halves that a field writes, from the halves of the part that it reads.
fn written<H: Copy>(field: &Field, record: Parts<H>, made: impl Fn(u8) -> H) -> Vec<H> {
    let start = 2 * (field.r - 1);
    let read = &record.of(field.part)[start..start + 2 * field.input];
    match field.step {
        Step::Copy => read.to_vec(),
        Step::Pack => pack_halves(read, field.output, made),
        Step::Unpack => unpack_halves(read, field.output, made),
    }
}

/// What stands in the halves `output` once the fields were written over it in order.
pub fn written_over<H: Copy>(
    mut output: Vec<H>,
    fields: &[Field],
    record: Parts<H>,
    made: impl Fn(u8) -> H + Copy,
) -> Vec<H> {
    for field in fields {
        let start = 2 * (field.t - 1);
        let part = &mut output[start..start + 2 * field.output];
        part.copy_from_slice(&written(field, record, made));
    }
    output
}

/// The first `n` bytes of the output record: hex 40, then the fields in order.
pub fn finished<H: Copy>(
    fields: &[Field],
    n: usize,
    record: Parts<H>,
    made: impl Fn(u8) -> H + Copy,
) -> Vec<H> {
    let blanks = (0..n).flat_map(|_| [made(4), made(0)]).collect();
    written_over(blanks, fields, record, made)
}
