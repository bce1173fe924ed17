//! Random cases with their answers: `cases SEED COUNT KIND [--tally] [--large] [--ask]`.
//!
//! With `--ask` a line is a case for the program `answers`, its name before it and no answer.

#[path = "../cases/aim.rs"]
mod aim;
#[path = "../cases/chance.rs"]
mod chance;
#[path = "../cases/columns.rs"]
mod columns;
#[path = "../cases/draft.rs"]
mod draft;
#[path = "../cases/faults.rs"]
mod faults;
#[path = "../cases/foreign.rs"]
mod foreign;
#[path = "../cases/large.rs"]
mod large;
#[cfg(test)]
#[path = "../cases/pairs.rs"]
mod pairs;
#[path = "../cases/reels.rs"]
mod reels;
#[path = "../cases/segments.rs"]
mod segments;
#[path = "../cases/text.rs"]
mod text;
#[path = "../cases/twins.rs"]
mod twins;
#[cfg(test)]
#[path = "../cases/verdicts.rs"]
mod verdicts;

use std::collections::BTreeMap;
use std::io::Write;

use chance::Chance;
use reference::{judge, pack, plan, plan_into, run, unpack, Entry, Judged, Refused, Twins};

/// What is asked, what is answered, the refusal number in it, and what it shows.
struct Case {
    asked: String,
    answered: String,
    refusal: usize,
    marks: Vec<&'static str>,
}

/// The most room that a case of the program `answers` may lend.
const MOST_ROOM: usize = 70_000;

fn hex(bytes: &[u8]) -> String {
    if bytes.is_empty() {
        return "-".to_string();
    }
    bytes.iter().map(|byte| format!("{byte:02X}")).collect()
}

/// The count of a lent table's entries, or none.
fn entries(chance: &mut Chance, fields: usize, aim: usize) -> Option<usize> {
    if aim == 15 {
        let below = chance.below(fields);
        return Some(chance.pick(&[fields.saturating_sub(1), fields.saturating_sub(1), 0, below, fields]));
    }
    let any = chance.below(70);
    chance.pick(&[None, None, Some(fields), Some(fields + 1), Some(64), Some(64), Some(any)])
}

fn plan_case(chance: &mut Chance, aim: usize, large: bool) -> Case {
    let deck = if large {
        large::deck(chance)
    } else {
        let (mut draft, _) = aim::base(chance, if aim == 15 { 6 } else { aim });
        let count = chance.below(6);
        aim::first(chance, &mut draft, count);
        let aims = aim::with_others(chance, aim);
        aim::deck(chance, &draft, &aims)
    };
    let entries = entries(chance, plan(&deck).fields, aim);
    let planned = match entries {
        None => plan(&deck),
        Some(count) => plan_into(&deck, &mut vec![Entry::default(); count]),
    };
    let lent = entries.map_or("-".to_string(), |count| count.to_string());
    let reference::Planned { refusal, place, column, keeping, lost, fields } = planned;
    let asked = format!("{} {lent}", hex(&deck));
    let answered = format!("{refusal} {place} {column} {keeping} {lost} {fields}");
    let mut marks = aim::marks(&deck);
    marks.extend((refusal == 0).then_some(if keeping == 1 { "keeps" } else { "loses" }));
    marks.extend(aim::heavy(&deck).then_some("heavy"));
    Case { asked, answered, refusal, marks }
}

/// A deck and a reel for a run.
fn deck_and_reel(chance: &mut Chance, aim: usize) -> (Vec<u8>, Vec<u8>) {
    let (mut draft, plan) = aim::base(chance, aim);
    let records = reels::records(chance, &plan, 80);
    aim::first(chance, &mut draft, records.iter().flatten().count());
    let aims = aim::with_others(chance, aim);
    let deck = aim::deck(chance, &draft, &aims);
    (deck, aim::reel(chance, &plan, &records, aim))
}

fn run_case(chance: &mut Chance, aim: usize, large: bool) -> Case {
    let (deck, reel) = if large { large::case(chance) } else { deck_and_reel(chance, aim) };
    let room = aim::room(chance, &deck, &reel, aim).min(MOST_ROOM);
    let ran = run(&deck, &reel, room);
    let answers = [ran.refusal, ran.place, ran.column, ran.length, ran.records, ran.blocks];
    let numbers: Vec<String> = answers.iter().map(usize::to_string).collect();
    let asked = format!("{} {} {room}", hex(&deck), hex(&reel));
    let answered = format!("{} {}", numbers.join(" "), hex(&ran.reel));
    let mut marks = if ran.refusal == 0 { aim::marks(&deck) } else { vec![] };
    marks.extend((ran.refusal == 0 && ran.records == 0).then_some("empty output"));
    marks.extend((ran.refusal == 0 && ran.records > 1).then_some("two records or more"));
    marks.extend((ran.refusal == 0 && ran.records < ran.blocks).then_some("fewer records than blocks"));
    marks.extend((aim::heavy(&deck) || reel.len() > 400).then_some("heavy"));
    Case { asked, answered, refusal: ran.refusal, marks }
}

/// A deck of which only the cards are asked, refusals 1 to 7.
fn deck_case(chance: &mut Chance, aim: usize, _large: bool) -> Case {
    let deck = columns::deck(chance, aim);
    let refused = columns::refused(&deck);
    let Refused { number, place, column } = refused.unwrap_or(Refused::at(0, 0));
    let answered = format!("{number} {place} {column}");
    let marks = refused.map_or(vec![], columns::marks);
    Case { asked: hex(&deck), answered, refusal: number, marks }
}

fn twins_case(chance: &mut Chance, aim: usize, large: bool) -> Case {
    let deck = twins::deck(chance, aim, large);
    let room = twins::room(chance, &deck, aim);
    let answer = reference::twins(&deck, room);
    let mut marks = if answer.refusal == 0 { aim::marks(&deck) } else { vec![] };
    marks.extend(twins::marks(&answer));
    marks.extend(aim::heavy(&deck).then_some("heavy"));
    let Twins { refusal, place, column, reason, length, records } = answer;
    let asked = format!("{} {room}", hex(&deck));
    let answered = format!("{refusal} {place} {column} {reason} {length} {}", hex(&records));
    Case { asked, answered, refusal, marks }
}

fn judge_case(chance: &mut Chance, aim: usize, large: bool) -> Case {
    let pair = foreign::pair(chance, aim, large);
    let judged = judge(&pair.deck, &pair.ours, &pair.theirs);
    let mut marks = foreign::marks(&pair, &judged);
    let foreign::Pair { deck, ours, theirs } = pair;
    marks.extend((aim::heavy(&deck) || ours.len() > 400 || theirs.len() > 400).then_some("heavy"));
    let Judged { refusal, place, column, yes, number } = judged;
    let asked = format!("{} {} {}", hex(&deck), hex(&ours), hex(&theirs));
    let answered = format!("{refusal} {place} {column} {yes} {number}");
    Case { asked, answered, refusal, marks }
}

fn half_case(chance: &mut Chance) -> Case {
    let packs = chance.one_in(2);
    let (n, m) = (chance.range(1, 16), chance.range(1, 16));
    let digits = !chance.one_in(3);
    let mut half = |digit: bool| if digit && digits { chance.below(10) } else { chance.below(16) } as u8;
    let mut src: Vec<u8> = (0..n).map(|_| half(true) << 4 | half(true)).collect();
    if digits && packs {
        src.iter_mut().for_each(|byte| *byte |= 0xF0);
    }
    if digits {
        src[n - 1] = if packs { 0xC0 | src[n - 1] & 15 } else { src[n - 1] & 0xF0 | 0x0D };
    }
    let (name, out) = if packs { ("pack", pack(&src, m)) } else { ("unpack", unpack(&src, m)) };
    let asked = format!("{name} {} {m}", hex(&src));
    Case { asked, answered: hex(&out), refusal: 0, marks: vec![name] }
}

/// The aims of a kind, as often as they are wanted.
fn any_aim(chance: &mut Chance, kind: &str) -> usize {
    if kind == "plan" {
        return chance.pick(&[0, 0, 0, 0, 0, 0, 1, 2, 3, 4, 5, 6, 7, 7, 8, 8, 9, 10, 15, 16]);
    }
    if kind == "deck" {
        return chance.pick(&[3, 3, 3, 4, 4, 7, 7]);
    }
    if kind == "twins" {
        let refused = [1, 2, 3, 4, 5, 6, 7, 8, 9, 10, 15, 15, 16, 16, 16];
        return if chance.one_in(3) { chance.pick(&refused) } else { 0 };
    }
    if kind == "judge" {
        let of_deck = [1, 2, 3, 4, 5, 6, 7, 8, 8, 8, 9, 10, 16];
        let of_reels = [11, 12, 12, 13, 13, 13, 14, 14, 14, 17, 17, 17, 18, 18, 18, 18, 18, 18, 18];
        return if chance.one_in(3) { chance.pick(&[&of_deck[..], &of_reels[..]].concat()) } else { 0 };
    }
    if chance.below(100) < 42 {
        return 0;
    }
    let early = [1, 2, 3, 4, 5, 6, 7, 8, 9, 10, 16];
    let late = [11, 11, 12, 12, 12, 12, 13, 13, 13, 14, 14, 14, 14, 15, 15, 15];
    chance.pick(&[&early[..], &late[..]].concat())
}

/// A case, with `--large` one in ten a large one; two times in three it is drawn again until it meets its aim.
fn case(chance: &mut Chance, kind: &str, large: bool) -> Case {
    if kind == "half" {
        return half_case(chance);
    }
    let aim = any_aim(chance, kind);
    let draw = match kind {
        "plan" => plan_case,
        "run" => run_case,
        "twins" => twins_case,
        "judge" => judge_case,
        _ => deck_case,
    };
    if large && chance.one_in(10) {
        return draw(chance, aim, true);
    }
    let mut tries = if chance.one_in(3) { 1 } else { 20 };
    loop {
        let one = draw(chance, aim, false);
        let light = large || !one.marks.contains(&"heavy");
        tries -= 1;
        if light && (tries <= 0 || one.refusal == aim) {
            return one;
        }
    }
}

/// A case with its answer, or, where it has a number, as the program `answers` reads it.
fn line(case: &Case, kind: &str, number: Option<usize>) -> String {
    match number {
        None => format!("{} {}", case.asked, case.answered),
        Some(number) => format!("{kind}-{number} {kind} {}", case.asked),
    }
}

fn tally(counts: &BTreeMap<usize, usize>, marks: &BTreeMap<&str, usize>) {
    for (refusal, count) in counts {
        eprintln!("refusal {refusal}: {count}");
    }
    for (mark, count) in marks {
        eprintln!("{mark}: {count}");
    }
}

fn main() {
    let (flags, plain): (Vec<String>, Vec<String>) =
        std::env::args().skip(1).partition(|argument| argument.starts_with("--"));
    let numbers = (plain.first().and_then(|s| s.parse().ok()), plain.get(1).and_then(|s| s.parse().ok()));
    let kind = plain.get(2).map_or("", String::as_str);
    let ((Some(seed), Some(count)), "plan" | "run" | "deck" | "twins" | "judge" | "half") = (numbers, kind) else {
        eprintln!("cases SEED COUNT plan|run|deck|twins|judge|half [--tally] [--large] [--ask]");
        std::process::exit(2);
    };
    let count: usize = count;
    let mut chance = Chance::new(seed);
    let (mut counts, mut marks) = (BTreeMap::new(), BTreeMap::new());
    let mut out = std::io::BufWriter::new(std::io::stdout().lock());
    let flag = |name: &str| flags.iter().any(|flag| flag == name);
    for number in 1..=count {
        let case = case(&mut chance, kind, flag("--large"));
        *counts.entry(case.refusal).or_insert(0) += 1;
        case.marks.iter().for_each(|mark| *marks.entry(*mark).or_insert(0) += 1);
        if writeln!(out, "{}", line(&case, kind, flag("--ask").then_some(number))).is_err() {
            return;
        }
    }
    if flag("--tally") {
        tally(&counts, &marks);
    }
}
