//! Judgements found another way: from what a run writes, position by position, with theirs read by a run of its own.

use reference::grammar::{Format, Mode, Sizes};
use reference::plan::{accepted, asked, Plan};
use reference::{blocks, judge, reel, run, Judged};

use crate::chance::Chance;
use crate::foreign::{self, painted, Pair};
use crate::{aim, reels};

/// The data of the records of a reel that obeys B.
fn under_b(plan: &Plan, input: &[u8]) -> Vec<Vec<u8>> {
    let blocks = reel::read(input).expect("a reel");
    blocks::records(plan, plan.b, &blocks).expect("records").into_iter().map(|record| record.data).collect()
}

/// A deck under which a run asks of its input what is asked of theirs: A is B. In FV with TRF data is at least n; else a copy asks enough.
fn reading_theirs(plan: &Plan) -> String {
    let sizes = match plan.b {
        Sizes::One(g) => format!("{g}"),
        Sizes::Two(n, m) => format!("{n},{m}"),
        Sizes::Keyed(..) => unreachable!("keys of the output"),
    };
    let both = format!("A=({sizes}),B=({sizes})");
    match (plan.format, plan.selects()) {
        (Format::FV, true) => format!("// U TRF,FV,{both}\n// FS CV\n// END\n"),
        (Format::FV, false) => format!("// U TC,FV,{both}\n// END\n"),
        (Format::FS, _) => format!("// U TC,FS,{both}\n// END\n"),
        _ => format!("// U TC,FF,{both}\n// END\n"),
    }
}

/// Whether two output records are as long, and alike at each position that a field or the tail writes; in TR at each.
fn alike(plan: &Plan, ours: &[u8], theirs: &[u8]) -> bool {
    let painted = painted(plan);
    let asked = |at: usize| painted.get(at).copied().unwrap_or(true);
    ours.len() == theirs.len() && (0..ours.len()).all(|at| !asked(at) || ours[at] == theirs[at])
}

/// The number of the first record that disagrees or lacks a partner, 0 where there is none.
fn number(plan: &Plan, ours: &[Vec<u8>], theirs: &[Vec<u8>]) -> usize {
    let most = ours.len().max(theirs.len());
    let agree = |at: usize| matches!((ours.get(at), theirs.get(at)), (Some(ours), Some(theirs)) if alike(plan, ours, theirs));
    (0..most).find(|at| !agree(*at)).map_or(0, |at| at + 1)
}

/// The judgement of a pair, from runs alone. What a run would write must not be longer than a reel.
fn by_runs(pair: &Pair) -> Judged {
    let Pair { deck, ours, theirs } = pair;
    let refused = |refusal, place, column| Judged { refusal, place, column, ..Judged::default() };
    if asked(deck).is_ok_and(|asked| matches!(asked.mode, Mode::TC | Mode::TF)) {
        return refused(8, 1, 0);
    }
    let ran = run(deck, ours, usize::MAX);
    if ran.refusal != 0 {
        assert!(ran.refusal < 15);
        return refused(ran.refusal, ran.place, ran.column);
    }
    let plan = accepted(deck).expect("a plan");
    let read = run(reading_theirs(&plan).as_bytes(), theirs, usize::MAX);
    match read.refusal {
        11 => return refused(17, 0, 0),
        12 => return refused(18, read.place, 0),
        other => assert_eq!(other, 0),
    }
    let number = number(&plan, &under_b(&plan, &ran.reel), &under_b(&plan, theirs));
    Judged { yes: usize::from(number == 0), number, ..Judged::default() }
}

#[test]
fn drawn_pairs_are_judged_as_by_runs() {
    let mut chance = Chance::new(7);
    let (mut refused, mut verdicts) = ([0; 19], [0; 3]);
    for turn in 0..10_000 {
        let aim = if turn % 2 == 0 { 0 } else { turn / 2 % 19 };
        let pair = foreign::pair(&mut chance, aim, false);
        let judged = judge(&pair.deck, &pair.ours, &pair.theirs);
        assert_eq!(judged, by_runs(&pair));
        refused[judged.refusal] += 1;
        verdicts[judged.number.min(2)] += usize::from(judged.refusal == 0);
    }
    assert!((0..19).all(|number| refused[number] > 40 || [15, 16].contains(&number)), "{refused:?}");
    assert!(verdicts.iter().all(|count| *count > 500), "{verdicts:?}");
}

/// A deck of TR or TRF and a reel over which its run finishes.
fn finished(chance: &mut Chance) -> (Vec<u8>, Vec<u8>, Plan, Vec<u8>) {
    loop {
        let (mut draft, plan) = aim::base(chance, 0);
        let records = reels::records(chance, &plan, 80);
        aim::first(chance, &mut draft, records.iter().flatten().count());
        let deck = aim::deck(chance, &draft, &[]);
        let ours = aim::reel(chance, &plan, &records, 0);
        let ran = run(&deck, &ours, usize::MAX);
        if ran.refusal == 0 && matches!(plan.mode, Mode::TR | Mode::TRF) {
            return (deck, ours, plan, ran.reel);
        }
    }
}

/// Whatever our converter writes is judged true, and so is the same in other blocks; with one byte of a record changed it is so still where nothing writes that byte, and else the
/// record is named.
#[test]
fn what_is_written_is_true() {
    let mut chance = Chance::new(8);
    let mut changed = [0; 2];
    for _ in 0..3_000 {
        let (deck, ours, plan, theirs) = finished(&mut chance);
        let yes = Judged { yes: 1, ..Judged::default() };
        assert_eq!(judge(&deck, &ours, &theirs), yes);
        let painted = painted(&plan);
        let mut records = under_b(&plan, &theirs);
        for number in 0..records.len() {
            let at = chance.below(records[number].len());
            let byte = records[number][at];
            records[number][at] ^= 1 << chance.below(8);
            let is_written = painted.get(at).copied().unwrap_or(true);
            changed[usize::from(is_written)] += 1;
            let expected = if is_written { Judged { number: number + 1, ..Judged::default() } } else { yes };
            assert_eq!(judge(&deck, &ours, &foreign::reel(&mut chance, &plan, records.clone(), 0)), expected);
            records[number][at] = byte;
        }
        assert_eq!(judge(&deck, &ours, &foreign::reel(&mut chance, &plan, records, 0)), yes);
    }
    assert!(changed.iter().all(|count| *count > 500), "{changed:?}");
}
