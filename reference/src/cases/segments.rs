//! Blocks of FS: records cut into segments by chance, and segments put out of turn.

use crate::chance::Chance;

/// A segment: the third byte of its word, and its data.
#[derive(Clone, Debug)]
struct Segment {
    code: u8,
    data: Vec<u8>,
}

/// The code of a segment, by whether it begins its record and whether it ends it.
fn code(begins: bool, ends: bool) -> u8 {
    match (begins, ends) {
        (true, true) => 0,
        (true, false) => 1,
        (false, true) => 2,
        (false, false) => 3,
    }
}

/// Records cut into segments in blocks of at most `g` bytes: now and then filled as TR fills them, else with blocks closed early, or with several segments of a record in one.
fn cut(chance: &mut Chance, g: usize, records: &[Vec<u8>]) -> Vec<Vec<Segment>> {
    let mut blocks: Vec<Vec<Segment>> = Vec::new();
    let mut left = 0;
    let filled = chance.one_in(3);
    for record in records {
        let mut at = 0;
        loop {
            if left < 5 || (!filled && chance.one_in(4)) {
                blocks.push(Vec::new());
                left = g - 4;
            }
            let most = (left - 4).min(record.len() - at);
            let length = if filled || chance.one_in(2) { most } else { chance.range(1, most).min(most) };
            let ends = at + length == record.len();
            blocks.last_mut().expect("an open block").push(Segment { code: code(at == 0, ends), data: record[at..at + length].to_vec() });
            (at, left) = (at + length, left - length - 4);
            if ends {
                break;
            }
        }
    }
    blocks.retain(|block| !block.is_empty());
    blocks
}

/// A segment with another code, dropped, doubled, added or moved; a block dropped or moved.
fn disturb(chance: &mut Chance, blocks: &mut Vec<Vec<Segment>>) {
    let added = Segment { code: chance.below(4) as u8, data: vec![chance.byte(); chance.range(1, 4)] };
    if blocks.iter().all(Vec::is_empty) {
        return blocks.push(vec![added]);
    }
    blocks.retain(|block| !block.is_empty());
    let (at, other, last) = (chance.below(blocks.len()), chance.below(blocks.len()), blocks.len() - 1);
    let place = chance.below(blocks[at].len());
    match chance.below(9) {
        0 | 1 => blocks[at][place].code = chance.below(4) as u8,
        2 => blocks[at][place].code = chance.pick(&[4, 5, 0x80, 0x83, 255]),
        3 => drop(blocks[at].remove(place)),
        4 => {
            let again = blocks[at][place].clone();
            blocks[at].insert(place, again);
        }
        5 => blocks[at].insert(place, added),
        6 => blocks[last].push(added),
        7 => drop(blocks.remove(at)),
        _ => blocks.swap(at, other),
    }
}

/// Bytes behind a word of their length and a third byte.
fn behind_word(code: u8, bytes: &[u8]) -> Vec<u8> {
    let length = bytes.len() + 4;
    [&[(length >> 8) as u8, length as u8, code, 0], bytes].concat()
}

/// The blocks of these records in bytes; `wrong` says that some are to be out of turn.
pub fn blocks(chance: &mut Chance, g: usize, records: &[Vec<u8>], wrong: bool) -> Vec<Vec<u8>> {
    let mut blocks = cut(chance, g, records);
    if wrong {
        (0..chance.pick(&[1, 1, 2])).for_each(|_| disturb(chance, &mut blocks));
    }
    let segment = |segment: &Segment| behind_word(segment.code, &segment.data);
    let block = |segments: &Vec<Segment>| behind_word(0, &segments.iter().flat_map(segment).collect::<Vec<u8>>());
    blocks.iter().map(block).collect()
}

#[cfg(test)]
mod tests {
    use super::*;
    use reference::spanned;

    /// Records that were cut are read again; of those put out of turn many are not.
    #[test]
    fn what_is_cut_is_read() {
        let mut chance = Chance::new(31);
        let mut refused = 0;
        for turn in 0..4_000 {
            let (g, count) = (chance.range(9, 40), chance.below(5));
            let records: Vec<Vec<u8>> = (0..count).map(|_| (0..chance.range(1, 60)).map(|_| chance.byte()).collect()).collect();
            let made = blocks(&mut chance, g, &records, turn % 2 == 1);
            let lent: Vec<&[u8]> = made.iter().map(Vec::as_slice).collect();
            let read = spanned::records(g, &lent).map(|all| all.into_iter().map(|record| record.data).collect::<Vec<_>>());
            refused += usize::from(read.is_err());
            assert!(turn % 2 == 1 || read == Ok(records));
        }
        assert!((1_000..2_000).contains(&refused), "{refused}");
    }
}
