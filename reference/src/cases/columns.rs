//! Decks with faults that have a column: wrong operands, doubled parameters and CVs, numbers outside their limits.

use reference::plan::asked;
use reference::Refused;

use crate::chance::Chance;
use crate::draft::{self, anywhere_in, Draft, Lengths};
use crate::text::{self, CardText, DeckText};
use crate::{aim, faults};

/// A draft of any mode, mostly with FS cards and R.
fn base(chance: &mut Chance) -> Draft {
    let mut draft = draft::draft(chance);
    if draft.pieces.is_empty() && !chance.one_in(4) {
        draft.pieces = (0..chance.range(1, 8)).map(|_| anywhere_in(chance, Lengths { key: 20, data: 20 }, 20)).collect();
    }
    if chance.one_in(2) {
        draft.first = Some(chance.range(1, 9));
    }
    draft
}

/// The operand of a card in one part.
fn joined(card: &CardText) -> String {
    card.parts.join(card.between)
}

/// The operand repeated until it is past the card's end, and cut there or at the byte before.
fn fill(chance: &mut Chance, card: &mut CardText) {
    let mut operand = joined(card);
    while !operand.is_empty() && operand.len() < 80 {
        operand = format!("{operand}{}{}", card.between, joined(card));
    }
    operand.truncate(chance.pick(&[80, 80, 79]) - card.name.len());
    (card.parts, card.comment) = (vec![operand], String::new());
}

/// One to three bytes of the operand changed, added or dropped, or all from one on cut off.
fn damage(chance: &mut Chance, card: &mut CardText) {
    let mut operand = joined(card).into_bytes();
    for _ in 0..chance.range(1, 3) {
        let at = chance.below(operand.len() + 1);
        let byte = chance.pick(b"TCFRVUABINOKDPXS=()0123456789,,// ;-~");
        match chance.below(4) {
            0 if at < operand.len() => operand[at] = byte,
            1 => operand.insert(at, byte),
            2 if at < operand.len() => drop(operand.remove(at)),
            _ => operand.truncate(at),
        }
    }
    card.parts = vec![String::from_utf8_lossy(&operand).into_owned()];
}

/// One or two cards with a wrong operand.
fn wrong(chance: &mut Chance, cards: &mut DeckText) {
    for _ in 0..chance.pick(&[1, 1, 2]) {
        let at = chance.below(cards.len() - 1);
        match chance.below(7) {
            0 => fill(chance, &mut cards[at]),
            1 | 2 => text::grammar(chance, cards),
            _ => damage(chance, &mut cards[at]),
        }
    }
}

/// A deck with one to three faults of an aim (3, 4 or 7), and now and then of another.
pub fn deck(chance: &mut Chance, aim: usize) -> Vec<u8> {
    let mut draft = base(chance);
    let aims = aim::with_others(chance, aim);
    let times = chance.range(1, 3);
    if aims.contains(&7) {
        (0..times).for_each(|_| faults::limit(chance, &mut draft));
    }
    let mut cards = text::cards(chance, &draft);
    if chance.one_in(2) {
        chance.shuffle(&mut cards[0].parts);
    }
    if aims.contains(&4) {
        (0..times).for_each(|_| text::double(chance, &mut cards));
    }
    if aims.contains(&3) {
        wrong(chance, &mut cards);
    }
    text::bytes(chance, &cards)
}

/// The refusal of a deck's cards, 1 to 7.
pub fn refused(text: &[u8]) -> Option<Refused> {
    asked(text).err()
}

/// Names of what a refusal shows, for the tally.
pub fn marks(refused: Refused) -> Vec<&'static str> {
    let Refused { place, column, .. } = refused;
    let shown = [
        (column > 0 && place == 1, "a column of the U card"),
        (column > 0 && place == 2, "a column of card 2"),
        (column > 0 && place > 2, "a column of a later card"),
        (column == 80, "column 80"),
        (column == 81, "column 81"),
    ];
    shown.iter().filter(|(is, _)| *is).map(|(_, name)| *name).collect()
}
