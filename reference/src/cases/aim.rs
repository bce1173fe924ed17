//! A case drawn with an aim: the refusal number its faults are meant to give, 0 for none.

use reference::grammar::{Format, Item, Mode, Part, Sizes, Step};
use reference::limits::items;
use reference::plan::{accepted, asked, longest_block, record_length, Plan};
use reference::run;

use crate::chance::Chance;
use crate::draft::{self, Draft, Piece};
use crate::{faults, reels, segments, text};

/// A deck of a draft with the faults of these aims, level by level.
pub fn deck(chance: &mut Chance, draft: &Draft, aims: &[usize]) -> Vec<u8> {
    let mut draft = draft.clone();
    for aim in aims {
        draft_fault(chance, &mut draft, *aim);
    }
    let mut cards = text::cards(chance, &draft);
    for aim in aims {
        card_fault(chance, &mut cards, *aim);
    }
    let mut deck = text::bytes(chance, &cards);
    if aims.contains(&1) && chance.one_in(3) || aims.contains(&16) {
        text::damage(chance, &mut deck);
    }
    deck
}

fn draft_fault(chance: &mut Chance, draft: &mut Draft, aim: usize) {
    match aim {
        0 if !draft.selects() && chance.one_in(8) => faults::both_at_limit(chance, draft),
        6 if draft.selects() => faults::many(chance, draft),
        7 if chance.one_in(4) => faults::both_at_limit(chance, draft),
        7 => faults::limit(chance, draft),
        8 => faults::combination(chance, draft),
        9 if draft.selects() => faults::outside(chance, draft),
        10 if draft.selects() => faults::conflict(chance, draft),
        _ => {}
    }
}

fn card_fault(chance: &mut Chance, cards: &mut text::DeckText, aim: usize) {
    if cards.is_empty() {
        return;
    }
    match aim {
        0 if chance.one_in(15) => text::widen(chance, cards, &[79, 80]),
        1 if chance.one_in(2) => text::shape(chance, cards),
        2 => text::order(chance, cards),
        3 => text::grammar(chance, cards),
        4 => text::double(chance, cards),
        5 => text::missing(chance, cards),
        _ => {}
    }
}

/// The aim, and now and then another with it (16 is any byte).
pub fn with_others(chance: &mut Chance, aim: usize) -> Vec<usize> {
    let mut aims = vec![aim];
    if chance.one_in(if aim == 0 { 12 } else { 5 }) {
        aims.push(chance.pick(&[1, 2, 3, 4, 5, 7, 8, 9, 10, 16]));
    }
    aims
}

/// A draft whose deck is accepted and in which the aim can be met, with its plan.
pub fn base(chance: &mut Chance, aim: usize) -> (Draft, Plan) {
    loop {
        let mut draft = draft::draft(chance);
        if aim == 14 {
            narrow(chance, &mut draft);
        }
        let Ok(plan) = accepted(&deck(chance, &draft, &[])) else { continue };
        let bound = plan.values.iter().any(|values| *values != 0xFFFF);
        let fit = match aim {
            6 | 9 | 10 => draft.selects(),
            13 => bound,
            14 => draft.format == "FV" && draft.mode != "TC",
            _ => true,
        };
        if fit {
            return (draft, plan);
        }
    }
}

/// B made so narrow in FV that long records, or many, do not fit it.
fn narrow(chance: &mut Chance, draft: &mut Draft) {
    if draft.format != "FV" || draft.mode == "TC" {
        return;
    }
    if !draft.selects() {
        draft.a[0] += 12;
        draft.b[0] = chance.range(9, draft.a[0]);
        return;
    }
    draft.a[1] += chance.below(20);
    draft.b[1] = draft.b[0] + 8 + chance.below(12);
    if draft.mode == "TRF" && !draft.pieces.iter().any(|piece| matches!(piece, Piece::Cv)) {
        draft.pieces.push(Piece::Cv);
    }
}

/// R near the number of records there are.
pub fn first(chance: &mut Chance, draft: &mut Draft, count: usize) {
    if draft.mode == "TC" {
        draft.first = if chance.one_in(8) { Some(1) } else { None };
    } else if chance.one_in(2) {
        let some = chance.range(1, count.max(1));
        draft.first = Some(chance.pick(&[1, some, some, count.max(1), count + 1, count + 2]));
    }
}

/// The reel of a case, with the faults of its aim.
pub fn reel(chance: &mut Chance, plan: &Plan, records: &reels::Records, aim: usize) -> Vec<u8> {
    let mut records = records.clone();
    let other = chance.one_in(12) && aim != 0;
    if aim == 13 || (other && chance.one_in(3)) {
        reels::bad_half(chance, plan, &mut records);
    }
    if (aim == 12 && chance.one_in(2)) || (other && chance.one_in(3)) {
        reels::bad_records(chance, &mut records);
    }
    let out_of_turn = aim == 12 && chance.one_in(2);
    let mut blocks = match plan.format {
        Format::FS => segments::blocks(chance, longest_block(plan.a), &records.concat(), out_of_turn),
        _ => reels::blocks(plan, &records),
    };
    blocks.retain(|block| !block.is_empty());
    if aim == 12 && chance.one_in(2) {
        reels::bad_block(chance, plan, &mut blocks);
    }
    let mut reel = reference::reel::write(&blocks);
    if aim == 11 || (other && chance.one_in(3)) {
        reels::bad_reel(chance, &mut reel);
    }
    reel
}

/// The room lent: exact, one short, or of the edges.
pub fn room(chance: &mut Chance, deck: &[u8], reel: &[u8], aim: usize) -> usize {
    let ran = run(deck, reel, usize::MAX);
    let more = ran.length + chance.below(40);
    match (ran.refusal, aim) {
        (0, 15) => {
            let below = chance.below(ran.length);
            chance.pick(&[ran.length - 1, ran.length - 1, ran.length, 0, 7, 8, below])
        }
        (0, _) => chance.pick(&[ran.length, ran.length, more, more, ran.length + 1, 65_536, 65_537]),
        (15, _) => chance.pick(&[0, 65_535, 65_536, ran.place - 1, ran.place, ran.place + 1]),
        _ => chance.pick(&[0, 7, 8, 40, 100, 65_536]),
    }
}

/// Whether a plan would have to walk over very many halves for this deck.
pub fn heavy(text: &[u8]) -> bool {
    let Ok(asked) = asked(text) else { return false };
    let long = |sizes| record_length(sizes) > 64;
    let early = accepted(text).err().is_some_and(|refused| refused.number < 10);
    let selects = matches!(asked.mode, Mode::TF | Mode::TRF);
    !early && selects && (long(asked.a) || long(asked.b))
}

/// Names of what a deck shows, for the tally.
pub fn marks(text: &[u8]) -> Vec<&'static str> {
    let Ok(asked) = asked(text) else { return vec![] };
    if accepted(text).is_err() {
        return vec![];
    }
    let all: Vec<Item> = items(&asked.fs).map(|(_, item)| item).collect();
    let step = |wanted| all.iter().any(|i| matches!(i, Item::Field(f) if f.step == wanted));
    let mode = ["TC", "TF", "TR", "TRF"][asked.mode as usize];
    let format = match asked.format {
        Format::FF => "FF",
        Format::FV => "FV",
        Format::FU => "FU",
        Format::FS => "FS",
    };
    let shown = [
        (true, mode),
        (true, format),
        (step(Step::Copy), "copy"),
        (step(Step::Pack), "pack"),
        (step(Step::Unpack), "unpack"),
        (all.contains(&Item::CV), "CV"),
        (matches!(asked.a, Sizes::Keyed(..)), "keys"),
        (all.iter().any(|i| matches!(i, Item::Field(f) if f.part == Part::Key)), "a field of the key"),
        (asked.first > 1, "R over 1"),
        (asked.fs.len() > 1, "several FS"),
    ];
    shown.iter().filter(|(is, _)| *is).map(|(_, name)| *name).collect()
}
