//! Drafts: well-formed decks of every mode and format, before they are written as text.

use crate::chance::Chance;

/// An item of an FS card; `step` is `C` (copy), `P` or `U`, `key` says that it is taken from the key.
#[derive(Clone, Debug)]
pub enum Piece {
    Field { step: char, key: bool, r: usize, input: usize, output: usize, t: usize },
    Cv,
}

#[derive(Clone, Debug)]
pub struct Draft {
    pub mode: &'static str,
    pub format: &'static str,
    /// A is `(K=k,D=d)`, and its two numbers are those.
    pub keyed: bool,
    pub a: Vec<usize>,
    pub b: Vec<usize>,
    pub first: Option<usize>,
    pub pieces: Vec<Piece>,
    /// Each piece has an FS card of its own.
    pub one_a_card: bool,
}

impl Draft {
    pub fn selects(&self) -> bool {
        self.mode == "TF" || self.mode == "TRF"
    }

    /// The lengths of the parts that its fields can read.
    pub fn lengths(&self) -> Lengths {
        if self.keyed { Lengths { key: self.a[0], data: self.a[1] } } else { Lengths { key: 0, data: self.a[0] } }
    }
}

/// The lengths of key and data; without keys all of a record is data.
#[derive(Clone, Copy, Debug)]
pub struct Lengths {
    pub key: usize,
    pub data: usize,
}

impl Lengths {
    pub fn of(self, key: bool) -> usize {
        if key { self.key } else { self.data }
    }

    pub fn both(self) -> usize {
        self.key + self.data
    }

    /// The key or the data; where there are no keys, the data.
    pub fn any_part(self, chance: &mut Chance) -> bool {
        self.key > 0 && (self.data == 0 || chance.one_in(2))
    }
}

/// A field of the data.
pub fn field(step: char, r: usize, input: usize, output: usize, t: usize) -> Piece {
    Piece::Field { step, key: false, r, input, output, t }
}

/// A field taken from the key, or from the data, at the same position; CV is neither.
pub fn taken_from(part_is_key: bool, mut piece: Piece) -> Piece {
    if let Piece::Field { key, .. } = &mut piece {
        *key = part_is_key;
    }
    piece
}

/// Disjoint runs of the input, laid out one behind another; answers the bytes used.
fn tidy(chance: &mut Chance, n: usize, pieces: &mut Vec<Piece>) -> usize {
    let (mut r, mut t) = (1, 1);
    while r <= n {
        let input = chance.range(1, (n + 1 - r).min(6));
        let step = chance.pick(&['C', 'C', 'P', 'P', 'U']);
        let output = match step {
            'P' => chance.range((input / 2).max(1), input / 2 + 2),
            'U' => chance.range((2 * input - 2).max(1), 2 * input),
            _ => input,
        };
        if !chance.one_in(8) {
            pieces.push(field(step, r, input, output, t));
            t += output + usize::from(chance.one_in(8));
        }
        r += input;
    }
    t - 1
}

/// Any field that lies inside records of `n` and `p` bytes.
pub fn anywhere(chance: &mut Chance, n: usize, p: usize) -> Piece {
    let step = chance.pick(&['C', 'C', 'P', 'U']);
    let most = if chance.one_in(8) { 16 } else { 5 };
    let input = chance.range(1, n.min(most));
    let output = if step == 'C' { input.min(p) } else { chance.range(1, p.min(7)) };
    let input = if step == 'C' { output } else { input };
    let r = chance.range(1, n + 1 - input);
    let t = if chance.one_in(4) { p + 1 - output } else { chance.range(1, p + 1 - output) };
    field(step, r, input, output, t)
}

/// A copy of what another field reads, to rescue it, behind `t`.
fn rescue(chance: &mut Chance, pieces: &[Piece], t: usize) -> Option<Piece> {
    match chance.pick(pieces) {
        Piece::Field { key, r, input, .. } => Some(taken_from(key, field('C', r, input, input, t))),
        Piece::Cv => None,
    }
}

/// Any field that lies inside its part and an output of `p` bytes.
pub fn anywhere_in(chance: &mut Chance, lengths: Lengths, p: usize) -> Piece {
    let key = lengths.any_part(chance);
    taken_from(key, anywhere(chance, lengths.of(key), p))
}

/// Pieces that fit an input of `n` bytes, and the output length that holds them.
fn pieces(chance: &mut Chance, n: usize) -> (Vec<Piece>, usize) {
    let mut pieces = Vec::new();
    let mut p = 0;
    if !chance.one_in(3) {
        p = tidy(chance, n, &mut pieces);
    }
    p += if p == 0 { chance.range(1, 10) } else { chance.pick(&[0, 0, 0, 1, 2]) };
    let extra = if pieces.is_empty() { chance.range(1, 4) } else { chance.pick(&[0, 0, 1, 2]) };
    for _ in 0..extra {
        let added = anywhere(chance, n, p);
        pieces.push(added);
    }
    if chance.one_in(4) {
        if let Some(Piece::Field { step, r, input, output, .. }) = rescue(chance, &pieces, p + 1) {
            pieces.push(field(step, r, input, output, p + 1));
            p += output;
        }
    }
    if chance.one_in(12) {
        let (step, input) = (chance.pick(&['P', 'U']), n.min(16));
        pieces.push(field(step, chance.range(1, n + 1 - input), input, 16, p + 1));
        p += 16;
    }
    if chance.one_in(6) {
        chance.shuffle(&mut pieces);
    }
    (pieces, p)
}

/// Keyed input: pieces of the key and pieces of the data, mostly behind one another in the output, else over one another.
fn keyed(chance: &mut Chance, draft: &mut Draft) {
    let (k, d) = (chance.range(1, 8), chance.range(1, 10));
    let (of_key, p) = pieces(chance, k);
    let (mut of_data, q) = pieces(chance, d);
    let behind = if chance.one_in(4) { chance.below(p + 1) } else { p };
    for piece in &mut of_data {
        if let Piece::Field { t, .. } = piece {
            *t += behind;
        }
    }
    let mut all: Vec<Piece> = of_key.into_iter().map(|piece| taken_from(true, piece)).chain(of_data).collect();
    if chance.one_in(3) {
        chance.shuffle(&mut all);
    }
    let length = p.max(behind + q);
    let times = if draft.mode == "TF" { 1 } else { chance.range(1, 4) };
    (draft.keyed, draft.a, draft.b, draft.pieces) = (true, vec![k, d], vec![length, length * times], all);
}

fn fixed(chance: &mut Chance, draft: &mut Draft) {
    let n = if chance.one_in(10) { chance.range(13, 20) } else { chance.range(1, 12) };
    let count = chance.range(1, (48 / n).clamp(1, 5));
    draft.a = vec![n, n * count];
    let other = if chance.one_in(3) { count } else { chance.range(1, 4) };
    match draft.mode {
        "TC" => draft.b = draft.a.clone(),
        "TR" => draft.b = vec![n, n * other],
        _ => {
            let (pieces, p) = pieces(chance, n);
            let times = if draft.mode == "TF" { count } else { other };
            draft.pieces = pieces;
            draft.b = vec![p, p * times];
        }
    }
}

fn variable(chance: &mut Chance, draft: &mut Draft) {
    if !draft.selects() {
        let g = if chance.one_in(6) { chance.range(9, 14) } else { chance.range(9, 50) };
        let other = if chance.one_in(3) { chance.range(9, 50) } else { g + chance.below(20) };
        draft.a = vec![g];
        draft.b = vec![if draft.mode == "TC" { g } else { other }];
        return;
    }
    let n = chance.range(1, 10);
    let (pieces, p) = pieces(chance, n);
    let slack = chance.pick(&[0, 0, 1, 3, 8, 15, 22, 30]);
    let room = if chance.one_in(4) { chance.below(4) } else { slack + chance.below(30) };
    draft.a = vec![n, n + 8 + slack];
    draft.b = vec![p, p + 8 + room];
    draft.pieces = pieces;
    if chance.one_in(2) {
        let at = chance.below(draft.pieces.len() + 1);
        draft.pieces.insert(at, Piece::Cv);
    }
    if chance.one_in(20) {
        draft.pieces = vec![Piece::Cv];
    }
}

/// Spanned records: blocks of which many are shorter than a record.
fn spanned(chance: &mut Chance, draft: &mut Draft) {
    let mut g = || if chance.one_in(3) { chance.range(9, 12) } else { chance.range(9, 40) };
    let (a, b) = (g(), g());
    (draft.a, draft.b) = (vec![a], vec![if draft.mode == "TC" { a } else { b }]);
}

/// A draft meant to be accepted (fields may still permit a half no value).
pub fn draft(chance: &mut Chance) -> Draft {
    let mode = chance.pick(&["TC", "TR", "TR", "TF", "TF", "TF", "TRF", "TRF", "TRF"]);
    let formats: &[&str] = match mode {
        "TC" => &["FF", "FV", "FU", "FS"],
        "TR" => &["FF", "FV", "FS"],
        _ => &["FF", "FV"],
    };
    let format = chance.pick(formats);
    let (a, b) = (Vec::new(), Vec::new());
    let one_a_card = chance.one_in(8);
    let mut draft =
        Draft { mode, format, keyed: false, a, b, first: None, pieces: Vec::new(), one_a_card };
    match format {
        "FF" if draft.selects() && chance.one_in(3) => keyed(chance, &mut draft),
        "FF" => fixed(chance, &mut draft),
        "FV" => variable(chance, &mut draft),
        "FS" => spanned(chance, &mut draft),
        _ => {
            let g = chance.range(1, 40);
            (draft.a, draft.b) = (vec![g], vec![g]);
        }
    }
    draft
}
