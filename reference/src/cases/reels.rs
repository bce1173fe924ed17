//! Reels that fit a plan, and faults of records, blocks and the reel's own numbers.

use reference::grammar::Format;
use reference::halves::{bytes, halves};
use reference::plan::{longest_block, record_length, Plan};

use crate::chance::Chance;

/// The blocks of a reel, each a list of the data of its records.
pub type Records = Vec<Vec<Vec<u8>>>;

/// A permitted value of a half, or one that is not.
fn value(chance: &mut Chance, values: u16, right: bool) -> Option<u8> {
    let fit: Vec<u8> = (0..16).filter(|v| (values >> v & 1 == 1) == right).collect();
    (!fit.is_empty()).then(|| chance.pick(&fit))
}

/// Data of `length` bytes whose halves are permitted.
fn data(chance: &mut Chance, plan: &Plan, length: usize) -> Vec<u8> {
    let mut all: Vec<u8> = (0..2 * length).map(|_| chance.below(16) as u8).collect();
    for (half, values) in all.iter_mut().zip(&plan.values) {
        *half = value(chance, *values, true).unwrap_or(0);
    }
    bytes(&all)
}

fn fixed(chance: &mut Chance, plan: &Plan, room: usize) -> Records {
    let (n, m) = (record_length(plan.a), longest_block(plan.a));
    let blocks = chance.pick(&[0, 1, 1, 2, 2, 2, 3, 3, 4, 4]).min(1 + room / (m + 4));
    let mut reel = Vec::new();
    for _ in 0..blocks {
        let most = if m > room { (room / n).clamp(1, m / n) } else { m / n };
        let count = if chance.one_in(2) { most } else { chance.range(1, most) };
        reel.push((0..count).map(|_| data(chance, plan, n)).collect());
    }
    reel
}

fn variable(chance: &mut Chance, plan: &Plan, room: usize) -> Records {
    let (least, m) = (record_length(plan.a).max(1), longest_block(plan.a).min(room.max(20)));
    let mut reel = Vec::new();
    let mut used = 0;
    for _ in 0..chance.pick(&[0, 1, 1, 2, 2, 2, 3, 3, 4, 4]) {
        let mut left = m.max(least + 8) - 4;
        let mut block = Vec::new();
        let wanted = chance.range(1, 4);
        while block.len() < wanted && left >= least + 4 && (used < room || block.is_empty()) {
            let long = chance.one_in(6);
            let most = if long { left - 4 } else { (least + chance.below(7)).min(left - 4) };
            let length = if long { most } else { chance.range(least, most) };
            block.push(data(chance, plan, length));
            (left, used) = (left - length - 4, used + length + 4);
        }
        if used < room || reel.is_empty() {
            reel.push(block);
        }
    }
    reel
}

/// Records of FS, not yet in blocks; some are longer than one. Blocks of `g` bytes have `g` less 8 of them for data, and 4 more in the reel's header.
fn spanned(chance: &mut Chance, plan: &Plan, room: usize) -> Records {
    let g = longest_block(plan.a);
    let mut left = room.min(60_000 * (g - 8) / (g + 4));
    let mut records = Vec::new();
    for _ in 0..chance.pick(&[0, 1, 1, 2, 2, 2, 3, 3, 4, 5]) {
        let long = chance.pick(&[g - 8, g - 7, 3 * g, 32_752, 32_753]);
        let length = if chance.one_in(3) { long.min(left) } else { chance.range(1, left.min(14)).min(left) };
        if length > 0 {
            records.push(data(chance, plan, length));
        }
        left -= length;
    }
    vec![records]
}

/// Records for a plan, in blocks, of about `room` bytes at most.
pub fn records(chance: &mut Chance, plan: &Plan, room: usize) -> Records {
    match plan.format {
        Format::FF => fixed(chance, plan, room),
        Format::FV => variable(chance, plan, room),
        Format::FS => spanned(chance, plan, room),
        Format::FU => {
            let g = longest_block(plan.a).min(30);
            let blocks = chance.pick(&[0, 1, 1, 2, 2, 3, 4]);
            (0..blocks).map(|_| vec![any_bytes(chance, g)]).collect()
        }
    }
}

fn any_bytes(chance: &mut Chance, most: usize) -> Vec<u8> {
    let length = if chance.one_in(4) { most } else { chance.range(1, most) };
    (0..length).map(|_| chance.byte()).collect()
}

fn any_record<'a>(chance: &mut Chance, reel: &'a mut Records) -> Option<&'a mut Vec<u8>> {
    let count = reel.iter().flatten().count();
    let at = chance.below(count);
    reel.iter_mut().flatten().nth(at)
}

/// A half that is not permitted, in one or two records.
pub fn bad_half(chance: &mut Chance, plan: &Plan, reel: &mut Records) {
    let bound: Vec<usize> = (0..plan.values.len()).filter(|h| plan.values[*h] != 0xFFFF).collect();
    for _ in 0..chance.pick(&[1, 1, 1, 2]) {
        let Some(record) = any_record(chance, reel) else { return };
        let mut all = halves(record);
        let half = if bound.is_empty() { chance.below(all.len()) } else { chance.pick(&bound) };
        let values = plan.values.get(half).copied().unwrap_or(0xFFFF);
        if half < all.len() {
            all[half] = value(chance, values, false).unwrap_or(all[half] ^ 1);
        }
        *record = bytes(&all);
    }
}

/// Records longer or shorter, dropped or added: blocks of the wrong size.
pub fn bad_records(chance: &mut Chance, reel: &mut Records) {
    let at = chance.below(reel.len());
    let extra = chance.byte();
    match chance.below(6) {
        0 | 1 => {
            if let Some(record) = any_record(chance, reel) {
                record.pop();
            }
        }
        2 => {
            if let Some(record) = any_record(chance, reel) {
                record.push(extra);
            }
        }
        3 if !reel.is_empty() && reel[at].len() > 1 => drop(reel[at].pop()),
        4 if !reel.is_empty() && !reel[at].is_empty() => {
            let again = chance.pick(&reel[at]);
            reel[at].push(again);
        }
        _ if reel.len() > 1 => {
            let last = reel.len() - 1;
            reel.swap(at, last);
        }
        _ => {}
    }
}

fn word(length: usize) -> [u8; 4] {
    [(length >> 8) as u8, length as u8, 0, 0]
}

/// The blocks in bytes.
pub fn blocks(plan: &Plan, reel: &Records) -> Vec<Vec<u8>> {
    if plan.format != Format::FV {
        return reel.iter().map(|block| block.concat()).collect();
    }
    let record = |data: &Vec<u8>| [&word(data.len() + 4)[..], data].concat();
    let block = |records: &Vec<Vec<u8>>| {
        let all: Vec<u8> = records.iter().flat_map(record).collect();
        [&word(all.len() + 4)[..], &all].concat()
    };
    reel.iter().map(block).collect()
}

/// A block's own bytes damaged; in FV and FS mostly a length word.
pub fn bad_block(chance: &mut Chance, plan: &Plan, blocks: &mut Vec<Vec<u8>>) {
    if blocks.is_empty() {
        blocks.push(vec![0; chance.range(1, 9)]);
        return;
    }
    let at = chance.below(blocks.len());
    let block = &mut blocks[at];
    if matches!(plan.format, Format::FV | Format::FS) && !chance.one_in(4) && block.len() > 8 {
        let place = chance.below(8);
        block[place] = match chance.below(4) {
            0 => block[place].wrapping_add(1),
            1 => block[place].wrapping_sub(1),
            2 => chance.pick(&[0, 4, 5, 255]),
            _ => block[place] ^ 1 << chance.below(8),
        };
        return;
    }
    match chance.below(5) {
        0 => drop(block.pop()),
        1 => block.push(chance.byte()),
        2 => block.truncate(chance.range(1, block.len())),
        3 => block.extend((0..longest_block(plan.a).min(60)).map(|i| i as u8)),
        _ => block.extend(block.clone()),
    }
    if block.is_empty() && chance.one_in(2) {
        blocks.remove(at);
    }
}

/// The reel's numbers off, or the reel cut short or made longer.
pub fn bad_reel(chance: &mut Chance, reel: &mut Vec<u8>) {
    let words = reel.len().min(8 + 4 * usize::from(reel[3])) / 4;
    let at = 4 * chance.below(words) + 3;
    match chance.below(10) {
        0 | 1 => reel[at] = reel[at].wrapping_add(1),
        2 => reel[at] = reel[at].wrapping_sub(1),
        3 => reel[at - chance.range(1, 3)] ^= 1 << chance.below(8),
        4 => drop(reel.pop()),
        5 => reel.push(chance.byte()),
        6 => reel.truncate(chance.below(reel.len())),
        7 => *reel = [&[0x40, 0, 0, 0, 0, 0, 0, 8][..], &reel[8..]].concat(),
        8 if words > 2 => {
            let other = 4 * chance.range(1, words - 1);
            let from = reel[other..other + 4].to_vec();
            reel[at - 3..=at].copy_from_slice(&from);
        }
        _ => reel.truncate(chance.below(9)),
    }
}
