//! Faults of a draft: too many fields, limits, combinations, fields outside, empty halves.

use crate::chance::Chance;
use crate::draft::{anywhere, anywhere_in, field, taken_from, Draft, Piece};

/// Edges of the limits, each with the number next to it.
const EDGES: [usize; 20] = [
    0, 1, 8, 9, 15, 16, 17, 4_095, 4_096, 4_097, 32_759, 32_760, 32_761, 65_535, 65_536, 65_537,
    99_999, 0, 17, 4_097,
];

/// 62 to 66 pieces (64 or 65 cards, 64 or 65 fields).
pub fn many(chance: &mut Chance, draft: &mut Draft) {
    let count = chance.pick(&[62, 63, 64, 64, 65, 65, 65, 65, 66, 70]);
    draft.one_a_card = count < 64 || chance.one_in(12);
    while draft.pieces.len() < count {
        let key = draft.lengths().any_part(chance);
        let (r, t) = (chance.range(1, draft.lengths().of(key).min(9)), chance.range(1, draft.b[0].min(9)));
        let at = chance.below(draft.pieces.len() + 1);
        draft.pieces.insert(at, taken_from(key, field('C', r, 1, 1, t)));
    }
}

/// The numbers of a draft that have limits.
fn numbers(draft: &mut Draft) -> Vec<&mut usize> {
    let mut numbers: Vec<&mut usize> = draft.a.iter_mut().chain(&mut draft.b).collect();
    numbers.extend(draft.first.as_mut());
    for piece in &mut draft.pieces {
        if let Piece::Field { step, r, input, output, t, .. } = piece {
            numbers.extend([r, input, t]);
            if *step != 'C' {
                numbers.push(output);
            }
        }
    }
    numbers
}

/// A size of a pack or unpack at, below or over its limit.
fn size_limit(chance: &mut Chance, draft: &mut Draft) {
    let edge = chance.pick(&[0, 15, 16, 17, 17]);
    let is_step = |piece: &&mut Piece| matches!(piece, Piece::Field { step: 'P' | 'U', .. });
    if let Some(Piece::Field { input, output, .. }) = draft.pieces.iter_mut().find(is_step) {
        *(if chance.one_in(2) { input } else { output }) = edge;
    }
}

/// Key and data of together 4,096 bytes, or of one more or less.
fn key_limit(chance: &mut Chance, draft: &mut Draft) {
    let total = chance.pick(&[4_095, 4_096, 4_096, 4_097, 4_097]);
    let some = chance.range(1, total - 1);
    let k = chance.pick(&[1, 2, 2_048, total - 1, total, some, some]);
    draft.a = vec![k, total.saturating_sub(k)];
}

/// A number at, below or over a limit.
pub fn limit(chance: &mut Chance, draft: &mut Draft) {
    if chance.one_in(4) {
        return size_limit(chance, draft);
    }
    if draft.keyed && chance.one_in(2) {
        return key_limit(chance, draft);
    }
    if chance.one_in(4) {
        draft.first = Some(1);
    }
    let edge = chance.pick(&EDGES);
    let mut numbers = numbers(draft);
    let at = chance.below(numbers.len());
    *numbers[at] = edge;
    if chance.one_in(3) {
        draft.first = Some(chance.pick(&[0, 1, 65_535, 65_536, 65_537, 99_999]));
    }
}

/// Both A and B at a limit, so that only the limit decides (TC and TR; else by the fields).
pub fn both_at_limit(chance: &mut Chance, draft: &mut Draft) {
    if draft.keyed {
        return key_limit(chance, draft);
    }
    let long = chance.pick(&[32_759, 32_760, 32_760, 32_761]);
    let short = chance.pick(&[4_095, 4_096, 4_096, 4_097]);
    let small = chance.pick(&[8, 9, 10]);
    let sizes = match draft.format {
        "FF" if chance.one_in(2) => vec![short, short],
        "FF" => vec![chance.pick(&[1, 2, 4, 8, 10]), long],
        "FV" if draft.selects() => vec![draft.a[0], long],
        _ => vec![if chance.one_in(2) { small } else { long }],
    };
    draft.a = sizes.clone();
    draft.b = sizes;
}

/// A small change of one number of A or B.
fn resize(chance: &mut Chance, draft: &mut Draft) {
    let sizes = if chance.one_in(2) { &mut draft.a } else { &mut draft.b };
    let at = chance.below(sizes.len());
    match chance.below(4) {
        0 => sizes[at] += 1,
        1 => sizes[at] = sizes[at].saturating_sub(1),
        2 => sizes[at] += chance.range(1, 8),
        _ => sizes[at] = chance.range(1, 60),
    }
}

/// The other count of numbers in A, B or both; A without a key.
fn recount(chance: &mut Chance, draft: &mut Draft) {
    let which = chance.below(3);
    draft.keyed = draft.keyed && which == 1;
    for (number, sizes) in [&mut draft.a, &mut draft.b].into_iter().enumerate() {
        if which == 2 || which == number {
            *sizes = if sizes.len() == 1 { vec![chance.range(1, 9), sizes[0]] } else { vec![sizes[1]] };
        }
    }
}

/// n+8 and n+7 in FV, on one side.
fn tight(chance: &mut Chance, draft: &mut Draft) {
    let sizes = if chance.one_in(2) { &mut draft.a } else { &mut draft.b };
    if sizes.len() == 2 {
        sizes[1] = sizes[0] + chance.pick(&[7, 7, 8]);
    }
}

/// A keyed A made plain, with its fields of the key left; a plain A made keyed, or a field of a key that there is not.
fn rekey(chance: &mut Chance, draft: &mut Draft) {
    if draft.keyed {
        let n = draft.lengths().both();
        (draft.keyed, draft.a) = (false, vec![n, n * chance.range(1, 2)]);
    } else if chance.one_in(3) && draft.a.len() == 2 {
        draft.keyed = true;
    } else {
        let added = taken_from(true, anywhere(chance, 4, 4));
        let at = chance.below(draft.pieces.len() + 1);
        draft.pieces.insert(at, added);
    }
}

/// A change of a combination.
pub fn combination(chance: &mut Chance, draft: &mut Draft) {
    match chance.below(14) {
        0 => draft.mode = chance.pick(&["TC", "TF", "TR", "TRF"]),
        1 => draft.format = chance.pick(&["FF", "FV", "FU", "FS"]),
        2 => recount(chance, draft),
        3 | 4 => resize(chance, draft),
        5 | 6 => tight(chance, draft),
        7 => draft.pieces.clear(),
        8 => {
            let at = chance.below(draft.pieces.len() + 1);
            draft.pieces.insert(at, Piece::Cv);
        }
        9 => {
            let added = anywhere(chance, 4, 4);
            draft.pieces.push(added);
        }
        10..=12 => rekey(chance, draft),
        _ => draft.first = Some(chance.pick(&[1, 1, 2, 3, 65_536])),
    }
}

/// A field that ends at, or one past, the end of its record, or of its part.
pub fn outside(chance: &mut Chance, draft: &mut Draft) {
    let past = chance.pick(&[1, 2, 2, 2, 3, 40]);
    let (lengths, p) = (draft.lengths(), draft.b[0]);
    let all = draft.pieces.len();
    let times = chance.pick(&[1, 1, 2]);
    for _ in 0..times {
        let at = chance.below(all);
        if let Some(Piece::Field { key, r, input, output, t, .. }) = draft.pieces.get_mut(at) {
            if chance.one_in(2) {
                *r = (lengths.of(*key) + past).saturating_sub(*input);
            } else {
                *t = (p + past).saturating_sub(*output);
            }
        }
    }
}

/// Packs and unpacks added over halves that are read already.
pub fn conflict(chance: &mut Chance, draft: &mut Draft) {
    let (lengths, p) = (draft.lengths(), draft.b[0]);
    for _ in 0..chance.range(1, 3) {
        let mut added = anywhere_in(chance, lengths, p);
        if let Piece::Field { step, .. } = &mut added {
            *step = if *step == 'P' { 'P' } else { 'U' };
        }
        let at = chance.below(draft.pieces.len() + 1);
        draft.pieces.insert(at, added);
    }
}
