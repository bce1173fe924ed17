//! Decks for twins: fields over one another, of which most lose, and the room that is lent.

use reference::grammar::{Field, Part, Step};
use reference::permitted::permitted;
use reference::{twins, Twins};

use crate::aim;
use crate::chance::Chance;
use crate::draft::{self, field, taken_from, Draft, Lengths, Piece};

/// A field as the paper has it; CV is none.
fn as_field(piece: &Piece) -> Option<Field> {
    let Piece::Field { step, key, r, input, output, t } = *piece else { return None };
    let part = if key { Part::Key } else { Part::Data };
    let step = match step {
        'P' => Step::Pack,
        'U' => Step::Unpack,
        _ => Step::Copy,
    };
    Some(Field { step, part, r, input, output, t })
}

/// Whether these fields leave each half of key and data a permitted value.
fn permit(pieces: &[Piece], lengths: Lengths) -> bool {
    let fields: Vec<Field> = pieces.iter().filter_map(as_field).collect();
    permitted(&fields, lengths.key, lengths.data).iter().all(|values| *values != 0)
}

/// Any field inside records of `n` and `p` bytes, now and then over the place of the bytes that it reads; most packs
/// and unpacks are too short for all their digits.
fn any_field(chance: &mut Chance, n: usize, p: usize) -> Piece {
    let step = chance.pick(&['C', 'C', 'P', 'P', 'U', 'U']);
    let most = if step == 'C' { n.min(p) } else { n.min(16) };
    let input = if chance.one_in(3) { most } else { chance.range(1, most) };
    let all_digits = if step == 'P' { input / 2 + 1 } else { 2 * input - 1 };
    let output = if step == 'C' { input } else { chance.range(1, all_digits.min(p).min(16)) };
    let r = if chance.one_in(3) { n + 1 - input } else { chance.range(1, n + 1 - input) };
    let t = if chance.one_in(3) { r.min(p + 1 - output) } else { chance.range(1, p + 1 - output) };
    field(step, r, input, output, t)
}

/// Copies of the first bytes of key and data joined, to position `t`: a field lies in one part.
fn first_bytes(lengths: Lengths, count: usize, t: usize) -> Vec<Piece> {
    let of_key = count.min(lengths.key);
    let of_data = count - of_key;
    let key = (of_key > 0).then(|| taken_from(true, field('C', 1, of_key, of_key, t)));
    let data = (of_data > 0).then(|| field('C', 1, of_data, of_data, t + of_key));
    key.into_iter().chain(data).collect()
}

/// Fields over one another, each tried and put in only if every half still has a permitted value; now and then all bytes
/// are copied before them, or behind.
fn fields(chance: &mut Chance, lengths: Lengths, p: usize, tried: usize) -> Vec<Piece> {
    let n = lengths.both();
    let mut pieces = Vec::new();
    let whole = if p >= n { first_bytes(lengths, n, chance.range(1, p + 1 - n)) } else { vec![] };
    let (before, behind) = (chance.one_in(2), chance.one_in(10));
    pieces.extend(whole.clone().into_iter().filter(|_| before));
    for _ in 0..tried {
        let key = lengths.any_part(chance);
        pieces.push(taken_from(key, any_field(chance, lengths.of(key), p)));
        if !permit(&pieces, lengths) {
            pieces.pop();
        }
    }
    pieces.extend(whole.into_iter().filter(|_| behind));
    pieces
}

/// Fields and the output length that holds them. The first bytes of the input are brought behind all else, so that
/// nothing of them is lost; all bytes, now and then, so that the plan keeps or loses its tail.
fn pieces(chance: &mut Chance, lengths: Lengths) -> (Vec<Piece>, usize) {
    let n = lengths.both();
    let least = if chance.one_in(2) { n } else { 1 };
    let p = chance.range(least, (n + 4).min(4_096));
    let tried = chance.pick(&[1, 1, 2, 3, 4, 5, 6, 7, 8, if lengths.key > 0 { 58 } else { 61 }]);
    let mut pieces = fields(chance, lengths, p, tried);
    let some = chance.below(n);
    let brought = chance.pick(&[0, 0, 0, some, some, some, some, n]).min(4_096 - p);
    if brought > 0 {
        let at = chance.below(pieces.len() + 1);
        pieces.splice(at..at, first_bytes(lengths, brought, p + 1));
    }
    (pieces, p + brought)
}

/// A draft of TF or TRF for input records of `n` bytes, in FF now and then of key and data.
pub fn draft(chance: &mut Chance, n: usize) -> Draft {
    let mode = chance.pick(&["TF", "TRF"]);
    let format = chance.pick(&["FF", "FV"]);
    let keyed = format == "FF" && n > 1 && chance.one_in(3);
    let key = if keyed { chance.range(1, n - 1) } else { 0 };
    let lengths = Lengths { key, data: n - key };
    let (mut pieces, p) = pieces(chance, lengths);
    let (count, other) = (chance.range(1, 4), chance.range(1, 4));
    let (slack, room) = (chance.pick(&[0, 1, 1, 2, 9, 30]), chance.pick(&[0, 1, 9, 30]));
    let (a, b) = match (format, mode) {
        ("FF", "TF") if keyed => (vec![key, n - key], vec![p, p]),
        ("FF", _) if keyed => (vec![key, n - key], vec![p, p * other]),
        ("FF", "TF") => (vec![n, n * count], vec![p, p * count]),
        ("FF", _) => (vec![n, n * count], vec![p, p * other]),
        _ => (vec![n, n + 8 + slack], vec![p, p + 8 + room]),
    };
    if format == "FV" && chance.one_in(3) {
        let at = chance.below(pieces.len() + 1);
        pieces.insert(at, Piece::Cv);
    }
    if format == "FV" && chance.one_in(40) {
        pieces = vec![Piece::Cv];
    }
    let first = chance.pick(&[None, None, None, Some(1), Some(2), Some(9), Some(65_536)]);
    Draft { mode, format, keyed, a, b, first, pieces, one_a_card: false }
}

/// The input record length of a draft.
fn length(chance: &mut Chance, large: bool) -> usize {
    if large { chance.pick(&[100, 500, 4_095, 4_096]) } else { chance.range(1, 12) }
}

/// A deck with the faults of an aim of 1 to 10; 0 is for twins, 15 for too short a room, 16 for a plan that keeps.
pub fn deck(chance: &mut Chance, aim: usize, large: bool) -> Vec<u8> {
    let of_any_mode = !large && ![0, 6, 9, 10, 15].contains(&aim) && chance.one_in(2);
    let n = length(chance, large);
    let draft = if of_any_mode { draft::draft(chance) } else { draft(chance, n) };
    let aims = aim::with_others(chance, if aim > 10 { 0 } else { aim });
    aim::deck(chance, &draft, &aims)
}

/// The room lent: exact, one short, none, or more.
pub fn room(chance: &mut Chance, deck: &[u8], aim: usize) -> usize {
    let needed = twins(deck, usize::MAX).length;
    let (less, more) = (chance.below(needed), needed + chance.below(40));
    match (needed, aim) {
        (0, _) => chance.pick(&[0, 0, 8, 40, 70_000]),
        (_, 15) => chance.pick(&[needed - 1, needed - 1, needed / 2, less, 0]),
        _ => chance.pick(&[needed, needed, needed, needed + 1, more, 70_000]),
    }
}

/// Names of what the answer shows, for the tally.
pub fn marks(answer: &Twins) -> Vec<&'static str> {
    match answer.reason {
        1 => vec!["never read"],
        2 => vec!["dropped by a short field"],
        3 => vec!["covered later"],
        4 => vec!["tail"],
        _ => vec![],
    }
}
