//! The deck: its lines, the shapes of its cards (refusal 1) and their order (refusal 2).

use crate::{refuse_at, Refused};

#[derive(Clone, Copy, Debug, PartialEq, Eq)]
pub enum Shape {
    U,
    FS,
    END,
}

#[derive(Clone, Copy, Debug)]
pub struct Card<'a> {
    pub shape: Shape,
    pub operand: &'a [u8],
    /// The column at which the operand begins.
    pub column: usize,
}

/// Lines end with hex 0A; the last may lack it. A 0A ends a line and opens none.
pub fn lines(deck: &[u8]) -> Vec<&[u8]> {
    let mut lines: Vec<&[u8]> = deck.split(|byte| *byte == 0x0A).collect();
    if lines.last().is_some_and(|last| last.is_empty()) {
        lines.pop();
    }
    lines
}

/// The operand runs to the first blank or the card's end; the rest is comment.
fn operand(after_name: &[u8]) -> &[u8] {
    after_name.split(|byte| *byte == b' ').next().unwrap_or(&[])
}

/// The card that a line is, if it is one.
pub fn card(line: &[u8]) -> Option<Card<'_>> {
    let graphic = line.iter().all(|byte| (0x20..=0x7E).contains(byte));
    if line.is_empty() || line.len() > 80 || !graphic {
        return None;
    }
    if line == b"// END" || line.starts_with(b"// END ") {
        return Some(Card { shape: Shape::END, operand: &[], column: 0 });
    }
    let names: [(&[u8], Shape); 3] =
        [(b"// U ", Shape::U), (b"// UTT ", Shape::U), (b"// FS ", Shape::FS)];
    names.iter().find_map(|(name, shape)| {
        let rest = line.strip_prefix(*name)?;
        Some(Card { shape: *shape, operand: operand(rest), column: name.len() + 1 })
    })
}

/// The first card out of order, or one past the last if END lacks.
fn out_of_order(cards: &[Card]) -> Option<usize> {
    let mut ended = false;
    for (number, card) in (1..).zip(cards) {
        let is_u = card.shape == Shape::U;
        if is_u != (number == 1) || ended || number > 64 {
            return Some(number);
        }
        ended = card.shape == Shape::END;
    }
    if ended { None } else { Some(cards.len() + 1) }
}

/// The cards of a deck in order, or refusal 1 or 2.
pub fn read(deck: &[u8]) -> Result<Vec<Card<'_>>, Refused> {
    let read: Vec<Option<Card>> = lines(deck).into_iter().map(card).collect();
    refuse_at(1, read.iter().position(Option::is_none).map(|index| index + 1))?;
    let cards: Vec<Card> = read.into_iter().flatten().collect();
    refuse_at(2, out_of_order(&cards))?;
    Ok(cards)
}
