//! The grammar of the operands of U and FS cards (refusal 3).

use crate::deck::{Card, Shape};
use crate::{columns, refuse_on, Refused};

#[derive(Clone, Copy, Debug, PartialEq, Eq)]
pub enum Mode {
    TC,
    TF,
    TR,
    TRF,
}

#[derive(Clone, Copy, Debug, PartialEq, Eq)]
pub enum Format {
    FF,
    FV,
    FU,
    /// Spanned records (document 02, order 6).
    FS,
}

/// The numbers of A or B: `(g)` or `(n,m)`; of A alone also `(K=k,D=d)`, the lengths of key and data (document 02, order 5).
#[derive(Clone, Copy, Debug, PartialEq, Eq)]
pub enum Sizes {
    One(usize),
    Two(usize, usize),
    Keyed(usize, usize),
}

#[derive(Clone, Copy, Debug, PartialEq, Eq)]
pub enum Parameter {
    T(Mode),
    F(Format),
    A(Sizes),
    B(Sizes),
    I,
    O,
    R(usize),
}

#[derive(Clone, Copy, Debug, PartialEq, Eq)]
pub enum Step {
    Copy,
    Pack,
    Unpack,
}

/// The part of an input record that a field reads.
#[derive(Clone, Copy, Debug, PartialEq, Eq)]
pub enum Part {
    Data,
    Key,
}

#[derive(Clone, Copy, Debug, PartialEq, Eq)]
pub struct Field {
    pub step: Step,
    pub part: Part,
    /// The first position read, from 1 in its part.
    pub r: usize,
    pub input: usize,
    pub output: usize,
    pub t: usize,
}

#[derive(Clone, Copy, Debug, PartialEq, Eq)]
pub enum Item {
    Field(Field),
    CV,
}

/// What the operands of a deck say: the U card's parameters, each FS card's items.
#[derive(Clone, Debug)]
pub struct Operands {
    pub u: Vec<Parameter>,
    pub fs: Vec<Vec<Item>>,
}

/// A number is 1 to 5 digits; leading zeros are allowed.
pub fn number(text: &[u8]) -> Option<usize> {
    let right = (1..=5).contains(&text.len()) && text.iter().all(u8::is_ascii_digit);
    right.then(|| text.iter().fold(0, |sum, digit| 10 * sum + usize::from(digit - b'0')))
}

/// `(n,m)` or `(g)`.
fn sizes(text: &[u8]) -> Option<Sizes> {
    let inner = text.strip_prefix(b"(")?.strip_suffix(b")")?;
    let parts: Vec<&[u8]> = inner.split(|byte| *byte == b',').collect();
    match parts[..] {
        [g] => Some(Sizes::One(number(g)?)),
        [n, m] => Some(Sizes::Two(number(n)?, number(m)?)),
        _ => None,
    }
}

/// `(K=k,D=d)`, and nothing else with a key in it.
fn keyed(text: &[u8]) -> Option<Sizes> {
    let inner = text.strip_prefix(b"(K=")?.strip_suffix(b")")?;
    let comma = inner.iter().position(|byte| *byte == b',')?;
    let (k, d) = (&inner[..comma], inner[comma..].strip_prefix(b",D=")?);
    Some(Sizes::Keyed(number(k)?, number(d)?))
}

/// One parameter of a U operand, read whole.
fn parameter(text: &[u8]) -> Option<Parameter> {
    match text {
        b"TC" => Some(Parameter::T(Mode::TC)),
        b"TF" => Some(Parameter::T(Mode::TF)),
        b"TR" => Some(Parameter::T(Mode::TR)),
        b"TRF" => Some(Parameter::T(Mode::TRF)),
        b"FF" => Some(Parameter::F(Format::FF)),
        b"FV" => Some(Parameter::F(Format::FV)),
        b"FU" => Some(Parameter::F(Format::FU)),
        b"FS" => Some(Parameter::F(Format::FS)),
        b"IR" | b"IN" | b"IU" => Some(Parameter::I),
        b"OR" | b"ON" | b"OU" => Some(Parameter::O),
        [b'A', b'=', rest @ ..] => sizes(rest).or_else(|| keyed(rest)).map(Parameter::A),
        [b'B', b'=', rest @ ..] => sizes(rest).map(Parameter::B),
        [b'R', rest @ ..] => number(rest).map(Parameter::R),
        _ => None,
    }
}

/// The texts between the commas that stand outside parentheses.
fn between_commas(operand: &[u8]) -> Vec<&[u8]> {
    let mut inside = false;
    operand
        .split(|byte| {
            inside = *byte == b'(' || (inside && *byte != b')');
            *byte == b',' && !inside
        })
        .collect()
}

/// A U operand: one or more parameters with commas between.
pub fn u_operand(operand: &[u8]) -> Option<Vec<Parameter>> {
    between_commas(operand).into_iter().map(parameter).collect()
}

/// `r,s,t`, `r,(P,n,m),t`, `r,(U,n,m),t`, each also with `(K,r)` in place of r, or `CV`.
fn item(text: &[u8]) -> Option<Item> {
    if text == b"CV" {
        return Some(Item::CV);
    }
    let parts: Vec<&[u8]> = text.split(|byte| *byte == b',').collect();
    let (part, r, rest) = match &parts[..] {
        [b"(K", r, rest @ ..] => (Part::Key, r.strip_suffix(b")")?, rest),
        [r, rest @ ..] => (Part::Data, *r, rest),
        [] => return None,
    };
    let (step, input, output, t) = match *rest {
        [s, t] => (Step::Copy, s, s, t),
        [b"(P", n, m, t] => (Step::Pack, n, m.strip_suffix(b")")?, t),
        [b"(U", n, m, t] => (Step::Unpack, n, m.strip_suffix(b")")?, t),
        _ => return None,
    };
    let (r, t) = (number(r)?, number(t)?);
    let (input, output) = (number(input)?, number(output)?);
    Some(Item::Field(Field { step, part, r, input, output, t }))
}

/// The texts between the slashes.
fn between_slashes(operand: &[u8]) -> Vec<&[u8]> {
    operand.split(|byte| *byte == b'/').collect()
}

/// An FS operand: items with slashes between.
pub fn fs_operand(operand: &[u8]) -> Option<Vec<Item>> {
    between_slashes(operand).into_iter().map(item).collect()
}

/// The texts of the parameters or items of a card.
pub fn parts<'a>(card: &Card<'a>) -> Vec<&'a [u8]> {
    match card.shape {
        Shape::U => between_commas(card.operand),
        Shape::FS => between_slashes(card.operand),
        Shape::END => Vec::new(),
    }
}

/// The operands of cards that stand in order, or refusal 3 at the first bad card and the column where it stops being right.
pub fn read(cards: &[Card]) -> Result<Operands, Refused> {
    let mut operands = Operands { u: Vec::new(), fs: Vec::new() };
    for (number, card) in (1..).zip(cards) {
        let bad = match card.shape {
            Shape::U => u_operand(card.operand).map(|u| operands.u = u).is_none(),
            Shape::FS => fs_operand(card.operand).map(|items| operands.fs.push(items)).is_none(),
            Shape::END => false,
        };
        refuse_on(3, bad.then(|| (number, columns::of_stop(card))))?;
    }
    Ok(operands)
}
