//! The judgement of a reel from elsewhere: whether it is a true conversion of ours (document 02, order 7).

use crate::blocks::Record;
use crate::grammar::Mode;
use crate::plan::{accepted, asked, record_length, Plan};
use crate::{blocks, halves, parts, reel, refuse_at, run, Refused};

/// The answer of judge: `yes` is 1 for a true conversion; `number` is that of the first record that disagrees or lacks a partner, from 1 in the output. Both are 0 if refused.
#[derive(Clone, Copy, Debug, Default, PartialEq, Eq)]
pub struct Judged {
    pub refusal: usize,
    pub place: usize,
    pub column: usize,
    pub yes: usize,
    pub number: usize,
}

/// The plan of a deck, or one of the refusals 1 to 10. TC and TF are 8 at card 1, the first of its places, before any other of them is looked for.
fn plan_of(deck: &[u8]) -> Result<Plan, Refused> {
    let mode = asked(deck)?.mode;
    refuse_at(8, matches!(mode, Mode::TC | Mode::TF).then_some(1))?;
    accepted(deck)
}

/// The records of a reel from elsewhere, whose blocks obey B, or refusal 17 or 18.
fn foreign(plan: &Plan, reel: &[u8]) -> Result<Vec<Record>, Refused> {
    let blocks = reel::read(reel).ok_or(Refused::at(17, 0))?;
    blocks::records(plan, plan.b, &blocks).map_err(|block| Refused::at(18, block))
}

/// Whether a record of theirs is what ours becomes: our fields written over its first B's n bytes change nothing there, whatever stands where no field writes, and what follows
/// is our tail. In TR it is ours.
fn agrees(plan: &Plan, ours: &[u8], theirs: &[u8]) -> bool {
    if !plan.selects() {
        return ours == theirs;
    }
    let (fixed, tail) = theirs.split_at(record_length(plan.b));
    let (input, fixed) = (halves::halves(ours), halves::halves(fixed));
    let record = parts::halves_of(plan.a, &input);
    halves::written_over(fixed.clone(), &plan.fields, record, |value| value) == fixed && tail == run::tail(plan, ours)
}

/// The number of the first record that disagrees or lacks a partner.
fn first_apart(plan: &Plan, ours: &[Record], theirs: &[Record]) -> Option<usize> {
    let partners = ours.len().min(theirs.len());
    let agree = |at: &usize| agrees(plan, &ours[*at].data, &theirs[*at].data);
    let agreeing = (0..partners).take_while(agree).count();
    (agreeing < ours.len().max(theirs.len())).then_some(agreeing + 1)
}

/// The verdict, or the refusal: those of a deck, then 11 to 14 of our input, then 17 and 18. Nothing is written, so that there is no 15.
fn verdict(deck: &[u8], ours: &[u8], theirs: &[u8]) -> Result<Option<usize>, Refused> {
    let plan = plan_of(deck)?;
    let (_, taken) = run::convertible(&plan, ours)?;
    let foreign = foreign(&plan, theirs)?;
    Ok(first_apart(&plan, &taken, &foreign))
}

/// Judge their reel by a deck and our input.
pub fn judge(deck: &[u8], ours: &[u8], theirs: &[u8]) -> Judged {
    match verdict(deck, ours, theirs) {
        Ok(None) => Judged { yes: 1, ..Judged::default() },
        Ok(Some(number)) => Judged { number, ..Judged::default() },
        Err(Refused { number, place, column }) => Judged { refusal: number, place, column, ..Judged::default() },
    }
}
