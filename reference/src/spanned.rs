//! Spanned records, format FS (document 02, order 6): the records that the segments of all blocks make, or the block that is refused.

use crate::blocks::{worded, Record};

/// A record's data are at most this many bytes.
pub const LONGEST: usize = 32_752;

/// What a segment is of its record. The third byte of its word is 0 for whole, and so on in this order.
#[derive(Clone, Copy, Debug, PartialEq, Eq)]
pub enum Code {
    Whole,
    First,
    Last,
    Middle,
}

impl Code {
    fn of(third: u8) -> Option<Code> {
        [Code::Whole, Code::First, Code::Last, Code::Middle].get(usize::from(third)).copied()
    }

    fn begins_record(self) -> bool {
        matches!(self, Code::Whole | Code::First)
    }

    fn ends_record(self) -> bool {
        matches!(self, Code::Whole | Code::Last)
    }
}

#[derive(Clone, Copy, Debug)]
struct Segment<'a> {
    /// The number of its block, from 1.
    block: usize,
    code: Code,
    data: &'a [u8],
}

/// The segments of a block by itself; nothing if a word in it is bad or it is longer than it may be.
fn in_block<'a>(longest: usize, block: usize, bytes: &'a [u8]) -> Option<Vec<Segment<'a>>> {
    let segment = |(third, data)| Some(Segment { block, code: Code::of(third)?, data });
    worded(longest, bytes)?.into_iter().map(segment).collect()
}

/// The block of the first segment that is out of turn. One that begins a record stands at the reel's start or behind one that ends a record; every other stands elsewhere.
fn out_of_turn(segments: &[Segment]) -> Option<usize> {
    let none_open = |at: usize| at == 0 || segments[at - 1].code.ends_record();
    let wrong = |at: &usize| segments[*at].code.begins_record() != none_open(*at);
    (0..segments.len()).find(wrong).map(|at| segments[at].block)
}

/// The segments record by record: cut behind each that ends one.
fn by_record<'s, 'a>(segments: &'s [Segment<'a>]) -> impl Iterator<Item = &'s [Segment<'a>]> {
    segments.split_inclusive(|segment| segment.code.ends_record())
}

/// The block of the segment that takes a record past its longest.
fn too_long(record: &[Segment]) -> Option<usize> {
    let mut bytes = 0;
    let passes = |segment: &&Segment| {
        bytes += segment.data.len();
        bytes > LONGEST
    };
    record.iter().find(passes).map(|segment| segment.block)
}

/// The last block, if the last record has no end.
fn unfinished(segments: &[Segment], blocks: usize) -> Option<usize> {
    segments.last().filter(|segment| !segment.code.ends_record()).map(|_| blocks)
}

/// The record that these segments are.
fn joined(number: usize, record: &[Segment]) -> Record {
    let data = record.iter().flat_map(|segment| segment.data).copied().collect();
    Record { number, block: record[record.len() - 1].block, data }
}

/// The records of blocks of at most so many bytes, or the lowest block with a fault. Segments behind a fault may be cut into the wrong records, but what is found
/// wrong with those stands in the same block or in a later one.
pub fn records(longest: usize, blocks: &[&[u8]]) -> Result<Vec<Record>, usize> {
    let read: Vec<Option<Vec<Segment>>> =
        (1..).zip(blocks).map(|(number, bytes)| in_block(longest, number, bytes)).collect();
    let bad = read.iter().position(Option::is_none).map(|index| index + 1);
    let segments: Vec<Segment> = read.into_iter().flatten().flatten().collect();
    let long = by_record(&segments).find_map(too_long);
    let faults = [bad, out_of_turn(&segments), long, unfinished(&segments, blocks.len())];
    match faults.into_iter().flatten().min() {
        Some(block) => Err(block),
        None => Ok((1..).zip(by_record(&segments)).map(|(number, record)| joined(number, record)).collect()),
    }
}
