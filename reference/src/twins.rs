//! The twins of a plan that loses: two input records that it converts alike (document 02, order 3).

use crate::grammar::{Field, Part};
use crate::permitted::Values;
use crate::plan::{accepted, lost, record_length, Plan};
use crate::{halves, parts, refuse_at, Refused};

/// The answer of twins; `records` is what was written, nothing if refused.
#[derive(Clone, Debug, Default, PartialEq, Eq)]
pub struct Twins {
    pub refusal: usize,
    pub place: usize,
    pub column: usize,
    /// 1 never read, 2 dropped by a short field, 3 covered later, 4 tail; 0 if refused.
    pub reason: usize,
    pub length: usize,
    pub records: Vec<u8>,
}

/// The permitted value of a half that has so many others below it.
fn value(values: Values, below: usize) -> u8 {
    let mut rising = (0..16).filter(|value| values >> value & 1 == 1);
    rising.nth(below).expect("a permitted value")
}

/// Both records, one behind the other, data only, but with their keys where they have any: equal everywhere but in the lost half; for the tail a byte 00 follows the
/// second.
fn records(plan: &Plan, lost: usize) -> Vec<u8> {
    let mut all: Vec<u8> = plan.values.iter().map(|values| value(*values, 0)).collect();
    let first = halves::bytes(&all);
    if lost == all.len() {
        return [&first[..], &first, &[0]].concat();
    }
    all[lost] = value(plan.values[lost], 1);
    [first, halves::bytes(&all)].concat()
}

/// The part in which a half of the record lies, and the position of its byte there, from 1.
fn position(plan: &Plan, half: usize) -> (Part, usize) {
    let byte = half / 2 + 1;
    let key = parts::length(plan.a, Part::Key);
    if byte <= key { (Part::Key, byte) } else { (Part::Data, byte - key) }
}

/// Whether the input of a field contains a half of the record.
fn reads(plan: &Plan, field: &Field, half: usize) -> bool {
    let (part, position) = position(plan, half);
    field.part == part && (field.r..field.r + field.input).contains(&position)
}

/// Whether a field's own output, taken alone, holds a half of the record.
fn holds(plan: &Plan, field: Field, half: usize) -> bool {
    let labels: Vec<Option<usize>> = (0..plan.values.len()).map(Some).collect();
    let record = parts::halves_of(plan.a, &labels);
    let alone = halves::finished(&[field], record_length(plan.b), record, |_| None);
    alone.contains(&Some(half))
}

/// Why the lost place is lost; where several reasons hold for a half, the one belonging to the last field that reads it.
fn reason(plan: &Plan, lost: usize) -> usize {
    if lost == 2 * record_length(plan.a) {
        return 4;
    }
    match plan.fields.iter().rfind(|field| reads(plan, field, lost)) {
        None => 1,
        Some(field) if holds(plan, *field, lost) => 3,
        Some(_) => 2,
    }
}

/// The twins, or the refusal: those of a plan, then 16 where it keeps, then 15.
fn finish(deck: &[u8], room: usize) -> Result<Twins, Refused> {
    let plan = accepted(deck)?;
    let lost = lost(&plan).ok_or(Refused::at(16, 0))?;
    let records = records(&plan, lost);
    let length = records.len();
    refuse_at(15, (length > room).then_some(length))?;
    Ok(Twins { reason: reason(&plan, lost), length, records, ..Twins::default() })
}

/// The twins of a deck, with `room` bytes lent for them.
pub fn twins(deck: &[u8], room: usize) -> Twins {
    match finish(deck, room) {
        Ok(twins) => twins,
        Err(Refused { number, place, column }) => Twins { refusal: number, place, column, ..Twins::default() },
    }
}
