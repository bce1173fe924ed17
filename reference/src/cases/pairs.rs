//! Twins found another way: run one by one, and as the least of all pairs that a plan converts alike; their reason by the
//! places of digits.

use std::collections::{HashMap, HashSet};

use reference::grammar::{Field, Format, Part, Sizes, Step};
use reference::halves::{finished, halves};
use reference::permitted::all_permitted;
use reference::plan::{accepted, lost, record_length, Plan};
use reference::parts::halves_of;
use reference::{plan, plan_into, reel, run, twins, Entry, Twins};

use crate::chance::Chance;
use crate::draft::{Draft, Piece};
use crate::{aim, draft, reels, twins as decks};

/// A draft's deck with another R, or none.
fn with_first(chance: &mut Chance, draft: &Draft, first: Option<usize>) -> Vec<u8> {
    aim::deck(chance, &Draft { first, ..draft.clone() }, &[])
}

/// The output of a record that is a reel of one block by itself.
fn output(deck: &[u8], plan: &Plan, data: &[u8]) -> Vec<u8> {
    let word = |length: usize| [(length >> 8) as u8, length as u8, 0, 0];
    let words = [word(data.len() + 8), word(data.len() + 4)].concat();
    let block = if plan.format == Format::FV { [&words, data].concat() } else { data.to_vec() };
    let ran = run(deck, &reel::write(&[block]), reel::LONGEST);
    assert_eq!((ran.refusal, ran.records), (0, 1));
    ran.reel
}

/// The halves in which two records of one length differ.
fn unlike(one: &[u8], other: &[u8]) -> Vec<usize> {
    let (one, other) = (halves(one), halves(other));
    assert_eq!(one.len(), other.len());
    (0..one.len()).filter(|half| one[*half] != other[*half]).collect()
}

/// The fields that read a half, in order, each with the count of halves to the right of it in the field's input.
fn readers(plan: &Plan, half: usize) -> Vec<(Field, usize)> {
    let before = |field: &Field| match (plan.a, field.part) {
        (Sizes::Keyed(k, _), Part::Data) => k,
        _ => 0,
    };
    let start = |field: &Field| 2 * (before(field) + field.r - 1);
    let reads = |field: &&Field| (start(field)..start(field) + 2 * field.input).contains(&half);
    plan.fields.iter().filter(reads).map(|field| (*field, start(field) + 2 * field.input - 1 - half)).collect()
}

/// Whether a field drops a half. Digits count from the last: a pack to m bytes has place for 2m-1 of them, an unpack for m.
fn drops((field, to_the_right): &(Field, usize)) -> bool {
    match field.step {
        Step::Copy => false,
        Step::Pack => to_the_right / 2 >= 2 * field.output - 1,
        Step::Unpack => *to_the_right > field.output,
    }
}

/// The lowest value that a field permits in a half: F for a zone, A for a sign.
fn lowest((field, to_the_right): &(Field, usize)) -> u8 {
    match (field.step, to_the_right) {
        (Step::Pack, 1) | (Step::Unpack, 0) => 10,
        (Step::Pack, _) if to_the_right % 2 == 1 => 15,
        _ => 0,
    }
}

/// The reason of a lost half, by the places of digits in the last field that reads it.
fn reason_by_places(plan: &Plan, half: usize) -> usize {
    readers(plan, half).last().map_or(1, |last| if drops(last) { 2 } else { 3 })
}

/// The reason of a lost half, by what the last field that reads it makes of both twins.
fn reason_by_output(plan: &Plan, half: usize, one: &[u8], other: &[u8]) -> usize {
    let written = |field, data| finished(&[field], record_length(plan.b), halves_of(plan.a, &halves(data)), |value| value);
    readers(plan, half).last().map_or(1, |(last, _)| if written(*last, one) == written(*last, other) { 2 } else { 3 })
}

/// Twins are converted to one output, and differ in the lost half alone or in the tail; the reason is as others find it.
fn show_the_loss(deck: &[u8], plan: &Plan, lost: usize, answer: &Twins) {
    let (one, other) = answer.records.split_at(record_length(plan.a));
    assert_eq!(output(deck, plan, one), output(deck, plan, other));
    if lost == 2 * one.len() {
        assert_eq!((answer.reason, other), (4, &[one, &[0]].concat()[..]));
        return;
    }
    assert_eq!(unlike(one, other), [lost]);
    assert_eq!(answer.reason, reason_by_places(plan, lost));
    assert_eq!(answer.reason, reason_by_output(plan, lost, one, other));
}

/// Each half of the first twin has the highest of the lowest values of the fields that read it; the lost half of the
/// second has the next value.
fn have_the_lowest_values(plan: &Plan, lost: usize, answer: &Twins) {
    let (one, other) = answer.records.split_at(record_length(plan.a));
    for (half, value) in halves(one).into_iter().enumerate() {
        assert_eq!(Some(value), readers(plan, half).iter().map(lowest).max().or(Some(0)));
    }
    assert!(lost == 2 * one.len() || halves(other)[lost] == halves(one)[lost] + 1);
}

/// Whether one field that reads the half drops it, and another does not.
fn readers_differ(plan: &Plan, half: usize) -> bool {
    let dropping = readers(plan, half).iter().filter(|reader| drops(reader)).count();
    dropping > 0 && dropping < readers(plan, half).len()
}

#[test]
fn twins_of_drawn_decks() {
    let mut chance = Chance::new(3);
    let (mut reasons, mut differ) = ([0; 5], 0);
    for _ in 0..8_000 {
        let n = if chance.one_in(50) { 300 } else { chance.range(1, 12) };
        let draft = decks::draft(&mut chance, n);
        let deck = with_first(&mut chance, &draft, Some(1));
        let answer = twins(&deck, usize::MAX);
        let of_any_first = with_first(&mut chance, &draft, draft.first);
        let Ok(plan) = accepted(&deck).and_then(|plan| accepted(&of_any_first).and(Ok(plan))) else { continue };
        assert_eq!(twins(&of_any_first, usize::MAX), answer);
        reasons[answer.reason] += 1;
        match lost(&plan) {
            None => assert_eq!(answer, Twins { refusal: 16, ..Twins::default() }),
            Some(lost) => {
                show_the_loss(&deck, &plan, lost, &answer);
                have_the_lowest_values(&plan, lost, &answer);
                differ += usize::from(readers_differ(&plan, lost));
            }
        }
    }
    assert!(reasons.iter().all(|count| *count > 500) && differ > 500, "{reasons:?} {differ}");
}

#[test]
fn refusals_and_rooms() {
    let mut chance = Chance::new(4);
    let mut refused = [0; 17];
    for turn in 0..6_000 {
        let deck = decks::deck(&mut chance, turn % 17, false);
        let planned = plan(&deck);
        let (number, place, column) = (planned.refusal, planned.place, planned.column);
        let answer = twins(&deck, usize::MAX);
        let needed = answer.length;
        refused[answer.refusal] += 1;
        let refusal = |refusal, place, column| Twins { refusal, place, column, ..Twins::default() };
        match (number, planned.keeping) {
            (0, 0) => {
                let short = chance.below(needed);
                assert_eq!(needed, answer.records.len());
                assert_eq!(twins(&deck, needed), answer);
                assert_eq!(twins(&deck, needed - 1), refusal(15, needed, 0));
                assert_eq!(twins(&deck, short), refusal(15, needed, 0));
            }
            (0, _) => assert_eq!((&answer, &twins(&deck, 0)), (&refusal(16, 0, 0), &refusal(16, 0, 0))),
            _ => assert_eq!((&answer, &twins(&deck, 0)), (&refusal(number, place, column), &answer)),
        }
    }
    assert!((0..17).all(|number| refused[number] > 50 || (11..16).contains(&number)), "{refused:?}");
}

/// All records of `n` bytes whose halves have these values, in rising order, as halves.
fn all_records(n: usize, values: &[u8]) -> Vec<Vec<u8>> {
    let mut all = vec![vec![]];
    for _ in 0..2 * n {
        let longer = |record: &Vec<u8>| values.iter().map(|value| [&record[..], &[*value]].concat()).collect::<Vec<_>>();
        all = all.iter().flat_map(longer).collect();
    }
    all
}

/// The records that a plan converts, each with the output of its fields.
type Converted<'a> = HashMap<&'a [u8], Vec<u8>>;

/// Of all pairs that differ in one half and have one output, that with the lowest such half, then with the lowest records.
fn least_pair(records: &[Vec<u8>], values: &[u8], converted: &Converted) -> Option<(usize, Vec<u8>, Vec<u8>)> {
    for half in 0..records[0].len() {
        for one in records.iter().filter(|record| converted.contains_key(&record[..])) {
            for value in values.iter().filter(|value| **value > one[half]) {
                let mut other = one.clone();
                other[half] = *value;
                if converted.get(&other[..]) == Some(&converted[&one[..]]) {
                    return Some((half, one.clone(), other));
                }
            }
        }
    }
    None
}

/// The twins of a plan are the least pair; it keeps, or loses its tail, where all outputs of records of n bytes differ.
fn twins_are_least(plan: &Plan, records: &[Vec<u8>], values: &[u8], answer: &Twins) {
    let fields = |record: &[u8]| finished(&plan.fields, record_length(plan.b), halves_of(plan.a, record), |value| value);
    let right = records.iter().filter(|record| all_permitted(&plan.values, record));
    let converted: Converted = right.map(|record| (&record[..], fields(record))).collect();
    let outputs: HashSet<&Vec<u8>> = converted.values().collect();
    let (one, other) = answer.records.split_at(answer.length / 2);
    let (one, other) = (halves(one), halves(other));
    assert!(converted.keys().all(|record| record.iter().zip(&one).all(|(value, least)| value >= least)));
    if outputs.len() == converted.len() {
        assert_eq!(answer.reason, if answer.refusal == 16 { 0 } else { 4 });
        return;
    }
    let least = least_pair(records, values, &converted);
    assert_eq!(least, lost(plan).map(|lost| (lost, one, other)));
}

#[test]
fn twins_of_small_plans_are_the_least_of_all_pairs() {
    let mut chance = Chance::new(5);
    let mut reasons = [0; 5];
    let all: Vec<u8> = (0..16).collect();
    let some: &[u8] = &[0, 1, 2, 9, 10, 11, 14, 15];
    let few: &[u8] = &[0, 1, 10, 11, 15];
    for (n, values, count) in [(1, &all[..], 100), (2, some, 400), (3, few, 150)] {
        let records = all_records(n, values);
        for _ in 0..count {
            let draft = decks::draft(&mut chance, n);
            let deck = with_first(&mut chance, &draft, None);
            let Ok(plan) = accepted(&deck) else { continue };
            let answer = twins(&deck, usize::MAX);
            reasons[answer.reason] += 1;
            twins_are_least(&plan, &records, values, &answer);
            if let Some(lost) = lost(&plan) {
                show_the_loss(&deck, &plan, lost, &answer);
            }
        }
    }
    assert!(reasons.iter().all(|count| *count > 20), "{reasons:?}");
}

/// A keyed draft as one without keys, whose fields count through the key.
fn counting_through(draft: &Draft) -> Draft {
    let (k, n) = (draft.lengths().key, draft.lengths().both());
    let joined = |piece: &Piece| match *piece {
        Piece::Field { step, key, r, input, output, t } => draft::field(step, if key { r } else { k + r }, input, output, t),
        Piece::Cv => Piece::Cv,
    };
    let pieces = draft.pieces.iter().map(joined).collect();
    Draft { keyed: false, a: vec![n, n], pieces, ..draft.clone() }
}

/// Other tools see key and data joined: without the keys every answer is the same, but for what the table says of parts.
#[test]
fn keyed_decks_are_as_decks_that_count_through() {
    let mut chance = Chance::new(6);
    let (mut ran, mut of_the_key) = ([0; 16], 0);
    while ran.iter().sum::<usize>() < 4_000 {
        let aim = chance.pick(&[0, 10, 12, 12, 13, 15]);
        let (mut draft, plan_of_it) = aim::base(&mut chance, aim);
        if !draft.keyed {
            continue;
        }
        if aim == 10 {
            crate::faults::conflict(&mut chance, &mut draft);
        }
        draft.first = chance.pick(&[None, Some(1), Some(2)]);
        let deck = aim::deck(&mut chance, &draft, &[]);
        let through = aim::deck(&mut chance, &counting_through(&draft), &[]);
        let too_long = |deck: &[u8]| plan(deck).refusal == 1; // a comment may make a card longer than 80 bytes
        if too_long(&deck) || too_long(&through) {
            continue;
        }
        assert_eq!(plan(&deck), plan(&through));
        let mut tables = [[Entry::default(); 64]; 2];
        plan_into(&deck, &mut tables[0]);
        plan_into(&through, &mut tables[1]);
        for [mut one, other] in tables[0].into_iter().zip(tables[1]).map(<[Entry; 2]>::from) {
            of_the_key += one.part;
            assert_eq!(other.part, 0);
            one.r += if one.part == 0 && one.input > 0 { draft.a[0] } else { 0 };
            assert_eq!(Entry { part: 0, ..one }, other);
        }
        let records = reels::records(&mut chance, &plan_of_it, 80);
        let reel = aim::reel(&mut chance, &plan_of_it, &records, aim);
        let room = aim::room(&mut chance, &deck, &reel, aim);
        let answer = run(&deck, &reel, room);
        ran[answer.refusal] += 1;
        assert_eq!(answer, run(&through, &reel, room));
        assert_eq!(twins(&deck, usize::MAX), twins(&through, usize::MAX));
    }
    assert!([0, 10, 12, 13, 15].iter().all(|number| ran[*number] > 100) && of_the_key > 1_000, "{ran:?} {of_the_key}");
}
