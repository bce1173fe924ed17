//! The expected lines of case files: `expect FILE..`, one line for each case.
//!
//! A case is `NAME half pack|unpack SRC M`, `NAME deck DECK`, `NAME reel DECK REEL`,
//! `NAME plan DECK ENTRIES`, `NAME run DECK REEL ROOM`, `NAME twins DECK ROOM` or
//! `NAME judge DECK OURS THEIRS`; bytes are hex, or `xCOUNT:HH` for COUNT bytes HH, joined by `+`,
//! and `-` for none; `#` starts a comment.

#[path = "../expect/asked.rs"]
mod asked;
#[path = "../expect/lent.rs"]
mod lent;
#[path = "../expect/text.rs"]
mod text;

use asked::said;
use lent::{plan_line, run_line, twins_line};
use reference::plan::{accepted, asked};
use reference::{blocks, judge, pack, reel, unpack, Judged, Refused};
use text::{bytes, hex};

/// What is left in M bytes of hex 5A; sizes that no field has (1 to 16) change nothing.
fn half(step: &str, src: &[u8], m: usize) -> String {
    let sizes = 1..=16;
    if !sizes.contains(&src.len()) || !sizes.contains(&m) {
        return hex(&vec![0x5A; m]);
    }
    match step {
        "pack" => hex(&pack(src, m)),
        "unpack" => hex(&unpack(src, m)),
        _ => panic!("neither pack nor unpack: {step}"),
    }
}

fn refused(refused: Refused) -> String {
    format!("{} {} {}", refused.number, refused.place, refused.column)
}

/// The blocks and records of a reel, with the length of each record's data, or refusal 11 or 12.
fn reading(text: &[u8], input: &[u8]) -> Result<String, Refused> {
    asked(text)?;
    let plan = accepted(text).unwrap_or_else(|refused| panic!("a deck refused by {refused:?}"));
    let blocks = reel::read(input).ok_or(Refused::at(11, 0))?;
    let records = blocks::records(&plan, plan.a, &blocks).map_err(|block| Refused::at(12, block))?;
    let lengths: Vec<String> = records.iter().map(|record| record.data.len().to_string()).collect();
    let (blocks, records) = (blocks.len(), lengths.len());
    let lengths = if lengths.is_empty() { "-".to_string() } else { lengths.join(",") };
    Ok(format!("0 0 0 {blocks} {records} {lengths}"))
}

/// The judgement of their reel by a deck and ours.
fn judged(deck: &[u8], ours: &[u8], theirs: &[u8]) -> String {
    let Judged { refusal, place, column, yes, number } = judge(deck, ours, theirs);
    format!("{refusal} {place} {column} {yes} {number}")
}

/// The expected line of a case.
fn expected(case: &str) -> String {
    let words: Vec<&str> = case.split(' ').collect();
    let answer = match words[1..] {
        ["half", step, src, m] => half(step, &bytes(src), m.parse().expect("a size")),
        ["deck", text] => asked(&bytes(text)).map_or_else(refused, |asked| said(&asked)),
        ["reel", text, input] => reading(&bytes(text), &bytes(input)).unwrap_or_else(refused),
        ["plan", text, entries] => plan_line(&bytes(text), entries),
        ["run", text, input, room] => run_line(&bytes(text), &bytes(input), room.parse().expect("a room")),
        ["twins", text, room] => twins_line(&bytes(text), room.parse().expect("a room")),
        ["judge", text, ours, theirs] => judged(&bytes(text), &bytes(ours), &bytes(theirs)),
        _ => panic!("no case: {case}"),
    };
    format!("{} {answer}", words[0])
}

fn main() {
    for file in std::env::args().skip(1) {
        let text = std::fs::read_to_string(&file).unwrap_or_else(|error| panic!("{file}: {error}"));
        for line in text.lines().filter(|line| !line.starts_with('#')) {
            println!("{}", expected(line));
        }
    }
}
