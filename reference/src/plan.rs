//! The plan of a deck: its refusals (9 and 10 here), keeping, lost place and fields.

use crate::grammar::{Field, Format, Item, Mode, Part, Sizes, Step};
use crate::limits::{items, Asked};
use crate::permitted::{permitted, Values};
use crate::{combinations, deck, grammar, halves, limits, parts, refuse_at, Refused};

/// An accepted deck.
#[derive(Clone, Debug)]
pub struct Plan {
    pub mode: Mode,
    pub format: Format,
    pub a: Sizes,
    pub b: Sizes,
    pub first: usize,
    pub fields: Vec<Field>,
    pub cv: bool,
    /// The permitted values of the first n bytes, of key and data joined; none in TC and TR.
    pub values: Vec<Values>,
}

/// The longest block that sizes allow: m, or g; key and data, which are one record, are one block too.
pub fn longest_block(sizes: Sizes) -> usize {
    match sizes {
        Sizes::One(g) => g,
        Sizes::Two(_, m) => m,
        Sizes::Keyed(k, d) => k + d,
    }
}

/// The record length n, of key and data together; 0 where there is no such number.
pub fn record_length(sizes: Sizes) -> usize {
    match sizes {
        Sizes::One(_) => 0,
        Sizes::Two(n, _) => n,
        Sizes::Keyed(k, d) => k + d,
    }
}

impl Plan {
    /// TF and TRF make records of fields; TC and TR carry them unchanged.
    pub fn selects(&self) -> bool {
        matches!(self.mode, Mode::TF | Mode::TRF)
    }
}

/// The first field that does not lie inside its records: where it reads, inside its own part.
fn field_outside(fields: &[Field], a: Sizes, b: Sizes) -> Option<usize> {
    let outside = |field: &Field| {
        field.r + field.input - 1 > parts::length(a, field.part) || field.t + field.output - 1 > record_length(b)
    };
    fields.iter().position(outside).map(|index| index + 1)
}

/// The plan of what is asked, or refusal 9 or 10.
fn of_asked(asked: &Asked) -> Result<Plan, Refused> {
    let all = || items(&asked.fs).map(|(_, item)| item);
    let field = |item| if let Item::Field(field) = item { Some(field) } else { None };
    let fields: Vec<Field> = all().filter_map(field).collect();
    refuse_at(9, field_outside(&fields, asked.a, asked.b))?;
    let selects = matches!(asked.mode, Mode::TF | Mode::TRF);
    let length = |part| if selects { parts::length(asked.a, part) } else { 0 };
    let values = permitted(&fields, length(Part::Key), length(Part::Data));
    refuse_at(10, values.iter().position(|values| *values == 0))?;
    let cv = all().any(|item| item == Item::CV);
    let Asked { mode, format, a, b, first, .. } = *asked;
    Ok(Plan { mode, format, a, b, first, fields, cv, values })
}

/// What a deck asks for, or one of the refusals 1 to 7.
pub fn asked(deck: &[u8]) -> Result<Asked, Refused> {
    let cards = deck::read(deck)?;
    limits::read(&cards, &grammar::read(&cards)?)
}

/// The plan of a deck, or one of the refusals 1 to 10.
pub fn accepted(deck: &[u8]) -> Result<Plan, Refused> {
    let asked = asked(deck)?;
    combinations::check(&asked)?;
    of_asked(&asked)
}

/// The lost place of a plan that loses: the lowest half missing, or 2n for the tail.
pub fn lost(plan: &Plan) -> Option<usize> {
    if !plan.selects() {
        return None;
    }
    let n = record_length(plan.a);
    let labels: Vec<Option<usize>> = (0..2 * n).map(Some).collect();
    let taken = halves::finished(&plan.fields, record_length(plan.b), parts::halves_of(plan.a, &labels), |_| None);
    let mut seen = vec![false; 2 * n];
    for half in taken.into_iter().flatten() {
        seen[half] = true;
    }
    let missing = (0..2 * n).find(|half| plan.values[*half].count_ones() >= 2 && !seen[*half]);
    let tail = plan.format == Format::FV && !plan.cv && longest_block(plan.a) != n + 8;
    missing.or(tail.then_some(2 * n))
}

/// The answer to a deck alone.
#[derive(Clone, Copy, Debug, PartialEq, Eq)]
pub struct Planned {
    pub refusal: usize,
    pub place: usize,
    pub column: usize,
    pub keeping: usize,
    pub lost: usize,
    pub fields: usize,
}

impl Planned {
    fn refused(refused: Refused) -> Planned {
        let Refused { number, place, column } = refused;
        Planned { refusal: number, place, column, keeping: 0, lost: 0, fields: 0 }
    }

    fn of(plan: &Plan) -> Planned {
        let lost = lost(plan);
        Planned {
            refusal: 0,
            place: 0,
            column: 0,
            keeping: usize::from(lost.is_none()),
            lost: lost.unwrap_or(0),
            fields: plan.fields.len(),
        }
    }
}

/// One entry of a lent table; `step` is 0 copy, 1 pack, 2 unpack, `part` 0 data, 1 key.
#[derive(Clone, Copy, Debug, Default, PartialEq, Eq)]
pub struct Entry {
    pub step: usize,
    pub part: usize,
    pub r: usize,
    pub input: usize,
    pub output: usize,
    pub t: usize,
}

fn entry(field: &Field) -> Entry {
    let step = match field.step {
        Step::Copy => 0,
        Step::Pack => 1,
        Step::Unpack => 2,
    };
    let part = match field.part {
        Part::Data => 0,
        Part::Key => 1,
    };
    Entry { step, part, r: field.r, input: field.input, output: field.output, t: field.t }
}

/// The plan of a deck, without a table.
pub fn plan(deck: &[u8]) -> Planned {
    match accepted(deck) {
        Ok(plan) => Planned::of(&plan),
        Err(refused) => Planned::refused(refused),
    }
}

/// The plan of a deck, its fields stored into the lent table.
pub fn plan_into(deck: &[u8], table: &mut [Entry]) -> Planned {
    let plan = match accepted(deck) {
        Ok(plan) => plan,
        Err(refused) => return Planned::refused(refused),
    };
    let count = plan.fields.len();
    if table.len() < count {
        return Planned::refused(Refused::at(15, count));
    }
    for (place, field) in table.iter_mut().zip(&plan.fields) {
        *place = entry(field);
    }
    Planned::of(&plan)
}
