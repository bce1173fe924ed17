//! The rule of a block in each format (refusal 12, and 18 of a reel from elsewhere), and the records of a reel.

use crate::grammar::{Format, Part, Sizes};
use crate::plan::{longest_block, record_length, Plan};
use crate::{parts, spanned};

/// A record of a reel: its number from 1, its block's, which in FS is the one where it ends, and its data.
#[derive(Clone, Debug, PartialEq, Eq)]
pub struct Record {
    pub number: usize,
    pub block: usize,
    pub data: Vec<u8>,
}

/// The word that starts a block of FV and FS and each record or segment in it: the length in 2 bytes, a third byte, and a zero byte. Its length and its third byte.
fn word(bytes: &[u8]) -> Option<(usize, u8)> {
    match bytes {
        [high, low, third, 0, ..] => Some((256 * usize::from(*high) + usize::from(*low), *third)),
        _ => None,
    }
}

/// Bytes behind their word, whose length is of both.
pub fn behind_word(third: u8, bytes: &[u8]) -> Vec<u8> {
    let length = (bytes.len() + 4) as u16;
    [&length.to_be_bytes()[..], &[third, 0], bytes].concat()
}

/// What stands in a block of FV or FS of at most so many bytes: records or segments that fill it exactly, at least one, each with 1 byte of data or more; the third
/// byte of its word, and its data.
pub fn worded(longest: usize, block: &[u8]) -> Option<Vec<(u8, &[u8])>> {
    if word(block)? != (block.len(), 0) || block.len() > longest {
        return None;
    }
    let mut rest = &block[4..];
    let mut found = Vec::new();
    while !rest.is_empty() {
        let (length, third) = word(rest)?;
        if length < 5 || length > rest.len() {
            return None;
        }
        found.push((third, &rest[4..length]));
        rest = &rest[length..];
    }
    (!found.is_empty()).then_some(found)
}

/// FF: a positive multiple of n, at most m, wherever the block stands (document 02, order 2).
fn fixed(sizes: Sizes, block: &[u8]) -> Option<Vec<&[u8]>> {
    let (n, m) = (record_length(sizes), longest_block(sizes));
    let right = (1..=m).contains(&block.len()) && block.len().is_multiple_of(n);
    right.then(|| block.chunks(n).collect())
}

/// Keys: the block is one record, the key and the data behind it (document 02, order 5).
fn keyed(sizes: Sizes, block: &[u8]) -> Option<Vec<&[u8]>> {
    let (key, data) = (parts::length(sizes, Part::Key), parts::length(sizes, Part::Data));
    (block.len() == key + data).then(|| vec![block])
}

/// FV: the third byte of each record's word is zero; with TF or TRF its data is at least n.
fn variable(selects: bool, sizes: Sizes, block: &[u8]) -> Option<Vec<&[u8]>> {
    let records = worded(longest_block(sizes), block)?;
    let shortest = if selects { record_length(sizes) } else { 1 };
    let right = records.iter().all(|(third, data)| *third == 0 && data.len() >= shortest);
    right.then(|| records.into_iter().map(|(_, data)| data).collect())
}

/// FU: 1 to g bytes; the block is the record.
fn undefined(sizes: Sizes, block: &[u8]) -> Option<Vec<&[u8]>> {
    (1..=longest_block(sizes)).contains(&block.len()).then(|| vec![block])
}

/// The records of blocks each of which is asked by itself, or the number of the first that breaks its rule.
fn one_by_one<'a>(blocks: &[&'a [u8]], rule: impl Fn(&'a [u8]) -> Option<Vec<&'a [u8]>>) -> Result<Vec<Record>, usize> {
    let mut all = Vec::new();
    for (block, bytes) in (1..).zip(blocks) {
        for data in rule(bytes).ok_or(block)? {
            all.push(Record { number: all.len() + 1, block, data: data.to_vec() });
        }
    }
    Ok(all)
}

/// The records of all blocks in order, or the number of the first block that breaks its rule: of our input under A's numbers, of a reel from elsewhere under B's.
pub fn records(plan: &Plan, sizes: Sizes, blocks: &[&[u8]]) -> Result<Vec<Record>, usize> {
    match plan.format {
        Format::FF if matches!(sizes, Sizes::Keyed(..)) => one_by_one(blocks, |block| keyed(sizes, block)),
        Format::FF => one_by_one(blocks, |block| fixed(sizes, block)),
        Format::FV => one_by_one(blocks, |block| variable(plan.selects(), sizes, block)),
        Format::FU => one_by_one(blocks, |block| undefined(sizes, block)),
        Format::FS => spanned::records(longest_block(sizes), blocks),
    }
}
