//! The combinations required of mode, format, sizes and FS cards (refusal 8).

use crate::grammar::{Format, Item, Mode, Part, Sizes};
use crate::limits::{items, Asked};
use crate::{refuse_at, Refused};

fn selects(asked: &Asked) -> bool {
    matches!(asked.mode, Mode::TF | Mode::TRF)
}

fn is_keyed(asked: &Asked) -> bool {
    matches!(asked.a, Sizes::Keyed(..))
}

/// FF: two numbers each, of which key and data are two. FU and FS: one. FV: two with TF or TRF, else one.
fn right_count(asked: &Asked, sizes: Sizes) -> bool {
    let two = match asked.format {
        Format::FF => true,
        Format::FU | Format::FS => false,
        Format::FV => selects(asked),
    };
    two != matches!(sizes, Sizes::One(_))
}

/// FU only with TC, FS only with TC and TR (document 02, order 6).
fn function_allowed(asked: &Asked) -> bool {
    match asked.format {
        Format::FF | Format::FV => true,
        Format::FU => asked.mode == Mode::TC,
        Format::FS => !selects(asked),
    }
}

/// Keys: only FF, with TF or TRF (document 02, order 5).
fn keys_allowed(asked: &Asked) -> bool {
    !is_keyed(asked) || (asked.format == Format::FF && selects(asked))
}

/// FF: m a multiple of n. FV with two numbers: n+8 at most m.
fn sizes_agree(format: Format, sizes: Sizes) -> bool {
    match (format, sizes) {
        (Format::FF, Sizes::Two(n, m)) => m % n == 0,
        (Format::FV, Sizes::Two(n, m)) => n + 8 <= m,
        _ => true,
    }
}

/// TC: A equals B. TR with FF: equal record lengths. TF with FF: equal m divided by n; a keyed block is one record, so with keys a
/// block of B holds one too.
fn a_and_b_agree(asked: &Asked) -> bool {
    match (asked.mode, asked.format, asked.a, asked.b) {
        (Mode::TC, _, a, b) => a == b,
        (Mode::TR, Format::FF, Sizes::Two(n, _), Sizes::Two(p, _)) => n == p,
        (Mode::TF, Format::FF, Sizes::Two(n, m), Sizes::Two(p, q)) => m / n == q / p,
        (Mode::TF, Format::FF, Sizes::Keyed(..), Sizes::Two(p, q)) => p == q,
        _ => true,
    }
}

/// All the combinations that have card 1 as their place.
fn u_card_right(asked: &Asked) -> bool {
    let copies = asked.mode == Mode::TC;
    function_allowed(asked)
        && (!copies || asked.first == 1)
        && keys_allowed(asked)
        && right_count(asked, asked.a)
        && right_count(asked, asked.b)
        && sizes_agree(asked.format, asked.a)
        && sizes_agree(asked.format, asked.b)
        && a_and_b_agree(asked)
        && (!selects(asked) || !asked.fs.is_empty())
}

/// The first card at which a combination is broken; all places are cards.
fn broken(asked: &Asked) -> Option<usize> {
    if !u_card_right(asked) {
        return Some(1);
    }
    if !selects(asked) && !asked.fs.is_empty() {
        return Some(2);
    }
    let wrong = |item| match item {
        Item::CV => asked.format != Format::FV,
        Item::Field(field) => field.part == Part::Key && !is_keyed(asked),
    };
    items(&asked.fs).find(|(_, item)| wrong(*item)).map(|(card, _)| card)
}

/// Refusal 8, or go on.
pub fn check(asked: &Asked) -> Result<(), Refused> {
    refuse_at(8, broken(asked))
}
