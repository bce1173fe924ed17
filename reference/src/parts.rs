//! The parts of an input record: its key, and the data behind it (document 02, order 5). Without keys all of it is data.

use crate::grammar::{Part, Sizes};
use crate::plan::record_length;

/// How many bytes a part has.
pub fn length(sizes: Sizes, part: Part) -> usize {
    match (sizes, part) {
        (Sizes::Keyed(k, _), Part::Key) => k,
        (Sizes::Keyed(_, d), Part::Data) => d,
        (_, Part::Key) => 0,
        (_, Part::Data) => record_length(sizes),
    }
}

/// The halves of a record, or what stands for them, cut into its parts.
#[derive(Clone, Copy, Debug)]
pub struct Parts<'a, H> {
    key: &'a [H],
    data: &'a [H],
}

impl<'a, H> Parts<'a, H> {
    pub fn of(&self, part: Part) -> &'a [H] {
        match part {
            Part::Key => self.key,
            Part::Data => self.data,
        }
    }
}

/// The parts of a record of which all halves are given, key and data joined. Halves are numbered through the key first.
pub fn halves_of<H>(sizes: Sizes, halves: &[H]) -> Parts<'_, H> {
    let (key, data) = halves.split_at(2 * length(sizes, Part::Key));
    Parts { key, data }
}
