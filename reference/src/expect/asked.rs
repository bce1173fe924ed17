//! What the cards of a deck ask for, as words of a line.

use reference::grammar::{Field, Format, Item, Mode, Part, Sizes, Step};
use reference::limits::{items, Asked};

fn sizes(name: &str, sizes: Sizes) -> String {
    match sizes {
        Sizes::One(g) => format!("{name}={g}"),
        Sizes::Two(n, m) => format!("{name}={n},{m}"),
        Sizes::Keyed(k, d) => format!("{name}=K={k},D={d}"),
    }
}

/// Where a field begins: r, with a K before it where it is taken from the key; a field of the key that runs past it, or for which there is no key, stands past every record.
fn place(a: Sizes, field: Field) -> String {
    let Field { r, input, .. } = field;
    match (field.part, a) {
        (Part::Data, _) => format!("{r}"),
        (Part::Key, Sizes::Keyed(k, _)) if r + input - 1 <= k => format!("K{r}"),
        (Part::Key, _) => "past".to_string(),
    }
}

/// A field's letter, its place and its other numbers.
fn field(a: Sizes, card: usize, field: Field) -> String {
    let letter = match field.step {
        Step::Copy => 'C',
        Step::Pack => 'P',
        Step::Unpack => 'U',
    };
    let Field { input, output, t, .. } = field;
    format!(" {letter}:{},{input},{output},{t}@{card}", place(a, field))
}

/// The words after the name, for a deck that is read.
pub fn said(asked: &Asked) -> String {
    let mode = match asked.mode {
        Mode::TC => "TC",
        Mode::TF => "TF",
        Mode::TR => "TR",
        Mode::TRF => "TRF",
    };
    let format = match asked.format {
        Format::FF => "FF",
        Format::FV => "FV",
        Format::FU => "FU",
        Format::FS => "FS",
    };
    let cv = items(&asked.fs).find(|(_, item)| *item == Item::CV).map_or(0, |(card, _)| card);
    let fields: Vec<String> = items(&asked.fs)
        .filter_map(|(card, item)| match item {
            Item::Field(one) => Some(field(asked.a, card, one)),
            Item::CV => None,
        })
        .collect();
    let (a, b) = (sizes("A", asked.a), sizes("B", asked.b));
    let (first, fs, count) = (asked.first, asked.fs.len(), fields.len());
    format!("0 0 0 {mode} {format} {a} {b} R={first} fs={fs} cv={cv} {count}{}", fields.concat())
}
