//! Blocks of FS filled with records (document 02, order 6).

use crate::blocks::{behind_word, Record};
use crate::spanned::Code;

/// The bytes of a record that stand in one block.
#[derive(Clone, Debug)]
struct Segment {
    record: usize,
    block: usize,
    data: Vec<u8>,
}

/// The records byte by byte: a byte goes behind the one before it in its record where their block is not full; else it begins a segment, for which a block has 5 bytes left
/// or a new one is started.
fn segments(longest: usize, records: &[Record]) -> Vec<Segment> {
    let mut segments: Vec<Segment> = Vec::new();
    let (mut block, mut left) = (0, 0);
    for Record { number, data, .. } in records {
        for byte in data {
            if let Some(open) = segments.last_mut().filter(|open| open.record == *number && left > 0) {
                open.data.push(*byte);
                left -= 1;
                continue;
            }
            if left < 5 {
                (block, left) = (block + 1, longest - 4);
            }
            segments.push(Segment { record: *number, block, data: vec![*byte] });
            left -= 5;
        }
    }
    segments
}

/// What the segments of a record are, by their count.
fn codes(count: usize) -> Vec<Code> {
    if count == 1 {
        return vec![Code::Whole];
    }
    let middle = vec![Code::Middle; count - 2];
    [vec![Code::First], middle, vec![Code::Last]].concat()
}

/// The blocks, of at most so many bytes, that hold these records.
pub fn filled(longest: usize, records: &[Record]) -> Vec<Vec<u8>> {
    let segments = segments(longest, records);
    let codes = segments.chunk_by(|one, next| one.record == next.record).flat_map(|record| codes(record.len()));
    let worded = segments.iter().zip(codes).map(|(segment, code)| (segment.block, behind_word(code as u8, &segment.data)));
    let worded: Vec<(usize, Vec<u8>)> = worded.collect();
    let block = |segments: &[(usize, Vec<u8>)]| {
        let bytes: Vec<u8> = segments.iter().flat_map(|(_, bytes)| bytes.clone()).collect();
        behind_word(0, &bytes)
    };
    worded.chunk_by(|(one, _), (next, _)| one == next).map(block).collect()
}
