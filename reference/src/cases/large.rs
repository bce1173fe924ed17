//! Large cases: records of 4,096 bytes, spanned ones of 32,752, outputs over 65,536 bytes, reels near that length.

use reference::plan::accepted;

use crate::chance::Chance;
use crate::draft::{field, taken_from, Draft, Piece};
use crate::{aim, reels};

/// Fields at the ends of a part of `n` bytes and of an output of `p`.
fn ends(chance: &mut Chance, n: usize, p: usize) -> Vec<Piece> {
    let size = chance.range(1, n.min(p));
    let copies = [field('C', n + 1 - size, size, size, 1), field('C', 1, 1, 1, p)];
    let pack = field('P', 1, n.min(16), p.min(9), p + 1 - p.min(9));
    copies.into_iter().chain([pack]).collect()
}

/// A draft of spanned records in blocks of any length.
fn spanned(chance: &mut Chance) -> Draft {
    let mode = chance.pick(&["TC", "TR", "TR"]);
    let mut g = || chance.pick(&[9, 10, 20, 100, 4_096, 32_759, 32_760]);
    let (a, b) = (g(), g());
    let b = if mode == "TC" { a } else { b };
    Draft { mode, format: "FS", keyed: false, a: vec![a], b: vec![b], first: None, pieces: vec![], one_a_card: false }
}

/// A draft of long records, fields at their ends.
fn draft(chance: &mut Chance) -> Draft {
    let n = chance.pick(&[1, 2, 8, 500, 4_095, 4_096]);
    let p = chance.pick(&[1, 9, 1_000, 4_095, 4_096]);
    let mode = chance.pick(&["TC", "TF", "TR", "TRF", "TRF"]);
    let format = chance.pick(&["FF", "FV"]);
    let selects = mode == "TF" || mode == "TRF";
    let count = chance.range(1, (32_760 / n).min(32_760 / p).min(40));
    let (mut a, mut b) = match (format, selects) {
        ("FF", true) => (vec![n, n * count], vec![p, p * count]),
        ("FF", false) => (vec![n, n * count], vec![n, n * count]),
        (_, true) => (vec![n, (n + 8) * count], vec![p, (p + 8) * count]),
        _ => (vec![(n + 8) * count], vec![(n + 8) * count]),
    };
    for sizes in [&mut a, &mut b] {
        let last = sizes.len() - 1;
        sizes[last] = sizes[last].min(32_760);
    }
    let mut pieces = ends(chance, n, p);
    let keyed = format == "FF" && selects && n > 1 && chance.one_in(2);
    if keyed {
        let k = chance.pick(&[1, n / 2, n - 1]);
        a = vec![k, n - k];
        b = vec![p, if mode == "TF" { p } else { b[1] }];
        let of_key = ends(chance, k, p).into_iter().map(|piece| taken_from(true, piece));
        pieces = of_key.chain(ends(chance, n - k, p)).collect();
        chance.shuffle(&mut pieces);
    }
    pieces.truncate(if selects { chance.range(1, if keyed { 6 } else { 3 }) } else { 0 });
    Draft { mode, format, keyed, a, b, first: None, pieces, one_a_card: false }
}

/// A large deck.
pub fn deck(chance: &mut Chance) -> Vec<u8> {
    let draft = if chance.one_in(4) { spanned(chance) } else { draft(chance) };
    aim::deck(chance, &draft, &[])
}

/// Reels of one undefined block size whose length is at, or past, 65,536.
fn longest(chance: &mut Chance) -> (Vec<u8>, Vec<u8>) {
    let last = chance.pick(&[32_742, 32_743, 32_744, 32_745, 32_746]);
    let reel = reference::reel::write(&[vec![7; 32_700], vec![9; last], vec![1; 72]]);
    (b"// U TC,FU,A=(32760),B=(32760)\n// END\n".to_vec(), reel)
}

/// A large deck and a reel for it.
pub fn case(chance: &mut Chance) -> (Vec<u8>, Vec<u8>) {
    if chance.one_in(8) {
        return longest(chance);
    }
    let deck = deck(chance);
    let Ok(plan) = accepted(&deck) else { return (deck, vec![0, 0, 0, 0, 0, 0, 0, 8]) };
    let room = chance.pick(&[200, 3_000, 20_000, 60_000]);
    let records = reels::records(chance, &plan, room);
    let aim = chance.pick(&[0, 0, 0, 12, 13]);
    let reel = aim::reel(chance, &plan, &records, aim);
    (deck, reel)
}
