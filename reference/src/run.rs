//! The run: from a deck and a reel to the output reel, or refusals 11 to 15.

use crate::blocks::{behind_word, Record};
use crate::grammar::{Format, Mode};
use crate::permitted::all_permitted;
use crate::plan::{accepted, longest_block, record_length, Plan};
use crate::{blocks, filling, halves, parts, reel, refuse_at, Refused};

/// The answer of a run; `reel` is what was written, nothing if refused.
#[derive(Clone, Debug, Default, PartialEq, Eq)]
pub struct Ran {
    pub refusal: usize,
    pub place: usize,
    pub column: usize,
    pub length: usize,
    pub records: usize,
    pub blocks: usize,
    pub reel: Vec<u8>,
}

/// The records from R on, or refusal 12.
fn taken(plan: &Plan, blocks: &[&[u8]]) -> Result<Vec<Record>, Refused> {
    let all = blocks::records(plan, plan.a, blocks).map_err(|block| Refused::at(12, block))?;
    Ok(all.into_iter().filter(|record| record.number >= plan.first).collect())
}

/// The first record taken that has a half not permitted.
fn not_permitted(plan: &Plan, taken: &[Record]) -> Option<usize> {
    let right = |record: &Record| all_permitted(&plan.values, &halves::halves(&record.data));
    taken.iter().find(|record| !right(record)).map(|record| record.number)
}

/// The bytes of the length word of a block or record: 4 in FV, else none.
fn word_length(plan: &Plan) -> usize {
    if plan.format == Format::FV { 4 } else { 0 }
}

/// The bytes that a record's output takes in its block, its word included.
fn space(plan: &Plan, record: &Record) -> usize {
    let data = record.data.len();
    let output = match (plan.selects(), plan.cv) {
        (false, _) => data,
        (true, false) => record_length(plan.b),
        (true, true) => record_length(plan.b) + (data - record_length(plan.a)),
    };
    word_length(plan) + output
}

/// The first record that exceeds a block of B by itself, or in TF overfills its block. In FS records are cut, so that none does.
fn overfills(plan: &Plan, taken: &[Record]) -> Option<usize> {
    if plan.format == Format::FS {
        return None;
    }
    let limit = longest_block(plan.b);
    let (mut block, mut filled) = (0, 0);
    for record in taken {
        if record.block != block {
            (block, filled) = (record.block, word_length(plan));
        }
        filled += space(plan, record);
        let alone = word_length(plan) + space(plan, record);
        if alone > limit || (plan.mode == Mode::TF && filled > limit) {
            return Some(record.number);
        }
    }
    None
}

/// The blocks of our input and its records from R on, all of which a plan converts; or one of the refusals 11 to 14.
pub fn convertible<'a>(plan: &Plan, input: &'a [u8]) -> Result<(Vec<&'a [u8]>, Vec<Record>), Refused> {
    let blocks = reel::read(input).ok_or(Refused::at(11, 0))?;
    let taken = taken(plan, &blocks)?;
    refuse_at(13, not_permitted(plan, &taken))?;
    refuse_at(14, overfills(plan, &taken))?;
    Ok((blocks, taken))
}

/// The records of each output block, in order.
fn blocked<'a>(plan: &Plan, taken: &'a [Record]) -> Vec<Vec<&'a Record>> {
    let mut output: Vec<Vec<&Record>> = Vec::new();
    let mut filled = 0;
    for record in taken {
        let fits = filled + space(plan, record) <= longest_block(plan.b);
        let goes_into = |open: &&mut Vec<&Record>| match plan.mode {
            Mode::TC | Mode::TF => open[0].block == record.block,
            Mode::TR | Mode::TRF => fits,
        };
        match output.last_mut().filter(goes_into) {
            Some(open) => open.push(record),
            None => {
                output.push(vec![record]);
                filled = word_length(plan);
            }
        }
        filled += space(plan, record);
    }
    output
}

/// The length of the output reel.
fn output_length(plan: &Plan, output: &[Vec<&Record>]) -> usize {
    let words = output.len() * word_length(plan);
    let spaces: usize = output.iter().flatten().map(|record| space(plan, record)).sum();
    reel::length(output.len(), words + spaces)
}

/// Bytes as they stand in a block: in FV behind their length word.
fn with_word(plan: &Plan, bytes: Vec<u8>) -> Vec<u8> {
    if plan.format == Format::FV { behind_word(0, &bytes) } else { bytes }
}

/// What follows B's n bytes of a record's output: with CV the input's data past A's n, else nothing.
pub fn tail<'a>(plan: &Plan, data: &'a [u8]) -> &'a [u8] {
    if plan.cv { &data[record_length(plan.a)..] } else { &[] }
}

/// The data of a record's output.
pub fn converted(plan: &Plan, data: &[u8]) -> Vec<u8> {
    if !plan.selects() {
        return data.to_vec();
    }
    let input = halves::halves(data);
    let record = parts::halves_of(plan.a, &input);
    let output = halves::finished(&plan.fields, record_length(plan.b), record, |value| value);
    [&halves::bytes(&output)[..], tail(plan, data)].concat()
}

/// The output reel itself.
fn written(plan: &Plan, output: &[Vec<&Record>]) -> Vec<u8> {
    let record = |record: &&Record| with_word(plan, converted(plan, &record.data));
    let block = |records: &Vec<&Record>| with_word(plan, records.iter().flat_map(record).collect());
    reel::write(&output.iter().map(block).collect::<Vec<Vec<u8>>>())
}

/// Refusal 15 where the output reel is longer than the lent room, or than a reel.
fn has_room(length: usize, room: usize) -> Result<(), Refused> {
    refuse_at(15, (length > room.min(reel::LONGEST)).then_some(length))
}

/// The finished run in FS, or refusal 15: TC leaves the blocks, TR fills others.
fn finish_spanned(plan: &Plan, blocks: &[&[u8]], taken: &[Record], room: usize) -> Result<Ran, Refused> {
    let copied = || blocks.iter().map(|block| block.to_vec()).collect();
    let output = if plan.mode == Mode::TC { copied() } else { filling::filled(longest_block(plan.b), taken) };
    let reel = reel::write(&output);
    has_room(reel.len(), room)?;
    Ok(Ran { length: reel.len(), records: taken.len(), blocks: output.len(), reel, ..Ran::default() })
}

/// The finished run, or its refusal.
fn finish(deck: &[u8], input: &[u8], room: usize) -> Result<Ran, Refused> {
    let plan = accepted(deck)?;
    let (blocks, taken) = convertible(&plan, input)?;
    if plan.format == Format::FS {
        return finish_spanned(&plan, &blocks, &taken, room);
    }
    let output = blocked(&plan, &taken);
    let length = output_length(&plan, &output);
    has_room(length, room)?;
    let reel = written(&plan, &output);
    assert_eq!(reel.len(), length);
    Ok(Ran { length, records: taken.len(), blocks: output.len(), reel, ..Ran::default() })
}

/// Run a deck over a reel, with `room` bytes lent for the output.
pub fn run(deck: &[u8], reel: &[u8], room: usize) -> Ran {
    match finish(deck, reel, room) {
        Ok(ran) => ran,
        Err(Refused { number, place, column }) => Ran { refusal: number, place, column, ..Ran::default() },
    }
}
