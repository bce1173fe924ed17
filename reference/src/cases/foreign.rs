//! Reels from elsewhere, to be judged: what our records become in blocks of any cut, with other bytes where nothing writes; and records changed, dropped or added.

use reference::grammar::{Format, Mode};
use reference::permitted::ANY;
use reference::plan::{accepted, longest_block, record_length, Plan};
use reference::run::{converted, convertible};
use reference::{run, Judged};

use crate::chance::Chance;
use crate::draft::{Draft, Piece};
use crate::{aim, large, reels};

/// What is judged: a deck, our input and their reel.
pub struct Pair {
    pub deck: Vec<u8>,
    pub ours: Vec<u8>,
    pub theirs: Vec<u8>,
}

const BLANK: u8 = 0x40;

/// The longest reel that the program `answers` can take.
const LONGEST_REEL: usize = 70_000;

/// The most bytes of a pair, whose hex is one line of a file of 262,144 bytes.
const LONGEST: usize = 125_000;

/// Whether a function is not judged: TC and TF.
fn not_judged(mode: Mode) -> bool {
    matches!(mode, Mode::TC | Mode::TF)
}

/// Output records some bytes longer, before or behind what the fields write.
fn widen(chance: &mut Chance, draft: &mut Draft) {
    let added = chance.range(1, 3);
    let before = chance.below(added + 1);
    let count = draft.b[1] / draft.b[0];
    draft.b[0] += added;
    draft.b[1] = if draft.format == "FF" { draft.b[0] * count } else { draft.b[1] + added };
    for piece in &mut draft.pieces {
        if let Piece::Field { t, .. } = piece {
            *t += before;
        }
    }
}

/// A draft in which the aim can be met, with its plan; where 8 is aimed at half of them are of TC or TF, and now and then else.
fn base(chance: &mut Chance, aim: usize) -> (Draft, Plan) {
    let other = chance.one_in(if aim == 8 { 2 } else { 60 });
    loop {
        let (mut draft, plan) = aim::base(chance, aim);
        if not_judged(plan.mode) != other {
            continue;
        }
        if !plan.selects() || chance.one_in(2) {
            return (draft, plan);
        }
        widen(chance, &mut draft);
        if let Ok(plan) = accepted(&aim::deck(chance, &draft, &[])) {
            return (draft, plan);
        }
    }
}

/// Some bytes of a record that may hold anything made blanks, which are then carried as any other byte.
fn put_blanks(chance: &mut Chance, plan: &Plan, record: &mut [u8]) {
    for (at, byte) in record.iter_mut().enumerate() {
        let bound = plan.values.iter().skip(2 * at).take(2).any(|values| *values != ANY);
        if !bound && chance.one_in(4) {
            *byte = BLANK;
        }
    }
}

/// Records for a plan, mostly more than one, and R, mostly not past them.
fn input(chance: &mut Chance, draft: &mut Draft, plan: &Plan) -> reels::Records {
    loop {
        let mut records = reels::records(chance, plan, 80);
        let count = records.iter().flatten().count();
        aim::first(chance, draft, count);
        if draft.first.unwrap_or(1) < count || chance.one_in(6) {
            records.iter_mut().flatten().for_each(|record| put_blanks(chance, plan, record));
            return records;
        }
    }
}

/// The plan that reads theirs as a plan reads our input: with B's numbers, and any value permitted.
fn under_b(plan: &Plan) -> Plan {
    Plan { a: plan.b, values: vec![], ..plan.clone() }
}

/// For each position of B's n whether a field writes it; in TR there is no such position, and all are carried.
pub fn painted(plan: &Plan) -> Vec<bool> {
    let mut painted = vec![false; if plan.selects() { record_length(plan.b) } else { 0 }];
    for field in &plan.fields {
        painted[field.t - 1..field.t - 1 + field.output].fill(true);
    }
    painted
}

/// Any bytes in the positions that nothing writes, of some records.
fn fill_unwritten(chance: &mut Chance, plan: &Plan, theirs: &mut [Vec<u8>]) {
    let painted = painted(plan);
    for record in theirs {
        if chance.one_in(3) {
            continue;
        }
        for (byte, _) in record.iter_mut().zip(&painted).filter(|(_, written)| !**written) {
            *byte = if chance.one_in(4) { 0 } else { chance.byte() };
        }
    }
}

/// The positions of a record, from 0, at which a change shows most: the first or last byte of each field, blanks, and the ends of the tail; or all.
fn positions(chance: &mut Chance, plan: &Plan, record: &[u8]) -> Vec<usize> {
    match chance.below(6) {
        0..=2 if plan.selects() => plan.fields.iter().flat_map(|field| [field.t - 1, field.t + field.output - 2]).collect(),
        3 => (0..record.len()).filter(|at| record[*at] == BLANK).collect(),
        4 if plan.selects() && record.len() > record_length(plan.b) => vec![record_length(plan.b), record.len() - 1],
        _ => (0..record.len()).collect(),
    }
}

/// One half of a byte changed: a sign, a digit, a zone, a fill, a blank, or of the tail.
fn change_byte(chance: &mut Chance, plan: &Plan, record: &mut [u8]) {
    let mut positions = positions(chance, plan, record);
    positions.retain(|at| *at < record.len());
    if positions.is_empty() {
        return;
    }
    let bit = 1 << chance.below(8);
    record[chance.pick(&positions)] ^= chance.pick(&[bit, bit, 0x01, 0x10, 0x03, 0x30, 0xF0, 0x0F, 0xFF]);
}

/// Another length: a byte more or less, blanks added, or cut at B's n.
fn change_length(chance: &mut Chance, plan: &Plan, record: &mut Vec<u8>) {
    match chance.below(5) {
        0 | 1 => record.push(chance.pick(&[0, BLANK, 0xC1])),
        2 => drop(record.pop()),
        3 => record.extend(vec![BLANK; chance.range(1, 5)]),
        _ => record.truncate(record_length(plan.b).max(1)),
    }
}

/// One record changed, dropped, added or moved, or all of them dropped; now and then what it was.
fn change(chance: &mut Chance, plan: &Plan, input: &[Vec<u8>], theirs: &mut Vec<Vec<u8>>) {
    if theirs.is_empty() {
        return theirs.push(vec![BLANK; record_length(plan.b).max(1)]);
    }
    let (at, last) = (chance.below(theirs.len()), theirs.len() - 1);
    let added = theirs[at].clone();
    match chance.below(14) {
        0..=4 => change_byte(chance, plan, &mut theirs[at]),
        5 | 6 if plan.format != Format::FF => change_length(chance, plan, &mut theirs[at]),
        5 | 6 => change_byte(chance, plan, &mut theirs[last]),
        7 => drop(theirs.remove(at)),
        8 => drop(theirs.pop()),
        9 => theirs.insert(at, added),
        10 => theirs.push(added),
        11 => theirs.swap(at, last),
        12 if chance.one_in(2) => theirs.clear(),
        12 => theirs.truncate(at),
        _ => *theirs = input.to_vec(),
    }
}

/// The records of theirs: what ours become from R on, half of the time with a change or two.
fn records(chance: &mut Chance, plan: &Plan, input: &[Vec<u8>], first: usize) -> Vec<Vec<u8>> {
    let skipped = if chance.one_in(30) { 0 } else { first - 1 };
    let mut theirs: Vec<Vec<u8>> = input.iter().skip(skipped).map(|data| converted(plan, data)).collect();
    if chance.one_in(2) {
        fill_unwritten(chance, plan, &mut theirs);
    }
    if chance.one_in(2) {
        (0..chance.pick(&[1, 1, 1, 2])).for_each(|_| change(chance, plan, input, &mut theirs));
    }
    theirs
}

/// Records gathered into blocks of at most so many bytes: as many in each as fit, one in each, or by chance.
fn gathered(chance: &mut Chance, format: Format, longest: usize, records: Vec<Vec<u8>>) -> reels::Records {
    let word = if format == Format::FV { 4 } else { 0 };
    let closed_one_in = chance.pick(&[None, Some(1), Some(2), Some(3)]);
    let mut blocks: reels::Records = Vec::new();
    let mut filled = 0;
    for record in records {
        let space = word + record.len();
        let closed = closed_one_in.is_some_and(|count| chance.one_in(count));
        if blocks.is_empty() || closed || filled + space > longest {
            blocks.push(Vec::new());
            filled = word;
        }
        filled += space;
        blocks.last_mut().expect("an open block").push(record);
    }
    blocks
}

/// Their reel of these records, with the faults of an aim; where another refusal is meant, now and then with a fault that is not reached.
pub fn reel(chance: &mut Chance, plan: &Plan, records: Vec<Vec<u8>>, aim: usize) -> Vec<u8> {
    let limit = longest_block(plan.b);
    let too_long = aim == 18 && plan.format != Format::FS && chance.one_in(4);
    let longest = if too_long { limit + chance.pick(&[1, 8, limit]) } else { limit };
    let blocks = gathered(chance, plan.format, longest, records);
    let of_theirs = match aim {
        0 => 0,
        17 => 11,
        18 if too_long => 0,
        18 => 12,
        _ => chance.pick(&[0, 0, 0, 11, 12]),
    };
    aim::reel(chance, &under_b(plan), &blocks, of_theirs)
}

/// A pair of an aim: the refusal that is meant, 0 for none.
fn small(chance: &mut Chance, aim: usize) -> Pair {
    let (mut draft, plan) = base(chance, aim);
    let input = input(chance, &mut draft, &plan);
    let aims = aim::with_others(chance, aim);
    let deck = aim::deck(chance, &draft, &aims);
    let ours = aim::reel(chance, &plan, &input, aim);
    let theirs = records(chance, &plan, &input.concat(), draft.first.unwrap_or(1));
    let theirs = reel(chance, &plan, theirs, aim);
    Pair { deck, ours, theirs }
}

/// A large deck of TR or TRF, a reel for it, and one that may be its conversion.
fn large(chance: &mut Chance) -> Pair {
    let (deck, ours) = large::case(chance);
    let Ok(plan) = accepted(&deck) else { return Pair { deck, theirs: ours.clone(), ours } };
    if not_judged(plan.mode) {
        return large(chance);
    }
    let taken = convertible(&plan, &ours).map_or(vec![], |(_, taken)| taken);
    let input: Vec<Vec<u8>> = taken.into_iter().map(|record| record.data).collect();
    let theirs = records(chance, &plan, &input, 1);
    let aim = chance.pick(&[0, 0, 0, 17, 18]);
    let theirs = reel(chance, &plan, theirs, aim);
    Pair { deck, ours, theirs }
}

/// A pair of an aim, or a large one, that a line and the program have room for.
pub fn pair(chance: &mut Chance, aim: usize, is_large: bool) -> Pair {
    loop {
        let pair = if is_large { large(chance) } else { small(chance, aim) };
        let Pair { deck, ours, theirs } = &pair;
        if ours.len().max(theirs.len()) <= LONGEST_REEL && deck.len() + ours.len() + theirs.len() <= LONGEST {
            return pair;
        }
    }
}

/// Names of what a judgement shows, for the tally.
pub fn marks(pair: &Pair, judged: &Judged) -> Vec<&'static str> {
    let Pair { deck, ours, theirs } = pair;
    if judged.refusal != 0 {
        return vec![];
    }
    let ran = run(deck, ours, usize::MAX);
    let as_ours = ran.reel == *theirs;
    let shown = [
        (judged.yes == 1 && as_ours, "true, as we write it"),
        (judged.yes == 1 && !as_ours, "true, and not as we write it"),
        (judged.yes == 1 && theirs.len() == 8, "both empty"),
        (judged.yes == 0 && theirs.len() == 8, "theirs is empty"),
        (judged.yes == 0 && ran.length == 8, "ours is empty"),
        (judged.number == 1, "not true from the first record on"),
        (judged.number > 1, "not true from a later record on"),
        (judged.number > 1 && judged.number == ran.records + 1, "records too many"),
    ];
    [aim::marks(deck), shown.iter().filter(|(is, _)| *is).map(|(_, name)| *name).collect()].concat()
}
