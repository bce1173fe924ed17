//! Parameters doubled or missing, fields and numbers over their limits (refusals 4 to 7).

use std::mem::discriminant;
use std::ops::RangeInclusive;

use crate::deck::Card;
use crate::grammar::{Format, Item, Mode, Operands, Parameter, Sizes, Step};
use crate::{columns, refuse_at, refuse_on, Refused};

/// What the cards ask for, each parameter once.
#[derive(Clone, Debug)]
pub struct Asked {
    pub mode: Mode,
    pub format: Format,
    pub a: Sizes,
    pub b: Sizes,
    /// R, 1 where it is not given.
    pub first: usize,
    /// The items of each FS card; the first of them is card 2.
    pub fs: Vec<Vec<Item>>,
}

/// The items of all FS cards in order, each with its card.
pub fn items(fs: &[Vec<Item>]) -> impl Iterator<Item = (usize, Item)> + '_ {
    (2..).zip(fs).flat_map(|(card, items)| items.iter().map(move |item| (card, *item)))
}

/// The column of the first parameter of the U card that has one of its kind before it.
fn doubled_parameter(u_card: &Card, u: &[Parameter]) -> Option<usize> {
    let twice = |i: &usize| u[..*i].iter().any(|p| discriminant(p) == discriminant(&u[*i]));
    (0..u.len()).find(twice).map(|i| columns::of_parts(u_card)[i])
}

/// The card and column of the second of two parameters of a kind, or of the second CV.
fn doubled(cards: &[Card], operands: &Operands) -> Option<(usize, usize)> {
    if let Some(column) = doubled_parameter(&cards[0], &operands.u) {
        return Some((1, column));
    }
    let columns = cards[1..].iter().flat_map(columns::of_parts);
    let mut cvs = items(&operands.fs).zip(columns).filter(|((_, item), _)| *item == Item::CV);
    cvs.nth(1).map(|((card, _), column)| (card, column))
}

/// The parameters by name; nothing where T, F, A or B is missing.
fn by_name(operands: &Operands) -> Option<Asked> {
    let (mut t, mut f, mut a, mut b, mut first) = (None, None, None, None, 1);
    for parameter in &operands.u {
        match *parameter {
            Parameter::T(mode) => t = Some(mode),
            Parameter::F(format) => f = Some(format),
            Parameter::A(sizes) => a = Some(sizes),
            Parameter::B(sizes) => b = Some(sizes),
            Parameter::R(number) => first = number,
            Parameter::I | Parameter::O => {}
        }
    }
    Some(Asked { mode: t?, format: f?, a: a?, b: b?, first, fs: operands.fs.clone() })
}

/// The card of the 65th field.
fn field_65(asked: &Asked) -> Option<usize> {
    let mut fields = items(&asked.fs).filter(|(_, item)| *item != Item::CV);
    fields.nth(64).map(|(card, _)| card)
}

type Limit = RangeInclusive<usize>;

/// The bytes of the longest record with n, or with key and data.
const LONGEST: usize = 4_096;

const SHORT: Limit = 1..=LONGEST;
const LONG: Limit = 1..=32_760;
const DIGITS: Limit = 1..=16;

/// The limits of the numbers of a parameter, in the order in which they stand. Key and data together have at most 4,096 bytes:
/// that is asked of D, which has at most what K leaves.
fn of_parameter(parameter: &Parameter, format: Format) -> Vec<Limit> {
    let single = if matches!(format, Format::FV | Format::FS) { 9..=32_760 } else { LONG };
    match parameter {
        Parameter::A(Sizes::One(_)) | Parameter::B(Sizes::One(_)) => vec![single],
        Parameter::A(Sizes::Two(..)) | Parameter::B(Sizes::Two(..)) => vec![SHORT, LONG],
        Parameter::A(Sizes::Keyed(k, _)) | Parameter::B(Sizes::Keyed(k, _)) => vec![SHORT, 1..=LONGEST.saturating_sub(*k)],
        Parameter::R(_) => vec![1..=65_536],
        Parameter::T(_) | Parameter::F(_) | Parameter::I | Parameter::O => vec![],
    }
}

/// The limits of the numbers of an item, in the order in which they stand.
fn of_item(item: &Item) -> Vec<Limit> {
    match item {
        Item::CV => vec![],
        Item::Field(field) if field.step == Step::Copy => vec![SHORT, SHORT, SHORT],
        Item::Field(_) => vec![SHORT, DIGITS, DIGITS, SHORT],
    }
}

/// The column of a card's first number outside its limits.
fn column_outside(card: &Card, limits: &[Limit]) -> Option<usize> {
    let numbers = columns::of_numbers(card);
    assert_eq!(numbers.len(), limits.len());
    let outside = |((_, number), limit): &(&(usize, usize), &Limit)| !limit.contains(number);
    numbers.iter().zip(limits).find(outside).map(|((column, _), _)| *column)
}

/// The first card with a number outside its limits, and the column of its first such number.
fn outside_limits(cards: &[Card], operands: &Operands, format: Format) -> Option<(usize, usize)> {
    let u: Vec<Limit> = operands.u.iter().flat_map(|parameter| of_parameter(parameter, format)).collect();
    let fs = operands.fs.iter().map(|items| items.iter().flat_map(of_item).collect());
    let limits: Vec<Vec<Limit>> = [u].into_iter().chain(fs).collect();
    (1..).zip(cards.iter().zip(&limits)).find_map(|(number, (card, limits))| {
        column_outside(card, limits).map(|column| (number, column))
    })
}

/// What the operands of the cards ask for, or refusal 4, 5, 6 or 7.
pub fn read(cards: &[Card], operands: &Operands) -> Result<Asked, Refused> {
    refuse_on(4, doubled(cards, operands))?;
    let asked = by_name(operands).ok_or(Refused::at(5, 1))?;
    refuse_at(6, field_65(&asked))?;
    refuse_on(7, outside_limits(cards, operands, asked.format))?;
    Ok(asked)
}
