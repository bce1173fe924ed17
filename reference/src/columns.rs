//! Columns on a card, from 1: where an operand stops being right, where its parameters and items begin, and its numbers.

use crate::deck::{Card, Shape};
use crate::grammar;

/// What stands between the commas of a U operand; `#` is a number.
const PARAMETERS: [&str; 20] = [
    "TC", "TF", "TR", "TRF", "FF", "FV", "FU", "FS", "A=(#)", "A=(#,#)", "A=(K=#,D=#)", "B=(#)", "B=(#,#)",
    "IR", "IN", "IU", "OR", "ON", "OU", "R#",
];

/// What stands between the slashes of an FS operand.
const ITEMS: [&str; 7] = [
    "#,#,#", "#,(P,#,#),#", "#,(U,#,#),#", "(K,#),#,#", "(K,#),(P,#,#),#", "(K,#),(U,#,#),#", "CV",
];

/// How many bytes of a text agree with a form, and whether they are the whole form.
fn agreeing(form: &str, text: &[u8]) -> (usize, bool) {
    let mut at = 0;
    for wanted in form.bytes() {
        let many = if wanted == b'#' { 5 } else { 1 };
        let fits = |byte: &&u8| if wanted == b'#' { byte.is_ascii_digit() } else { **byte == wanted };
        let count = text[at..].iter().take(many).take_while(fits).count();
        if count == 0 {
            return (at, false);
        }
        at += count;
    }
    (at, true)
}

/// How many bytes of an operand begin a right one: whole forms with separators between, and as much of one more as agrees.
fn beginning(forms: &[&str], separator: u8, operand: &[u8]) -> usize {
    let mut start = 0;
    loop {
        let rest = &operand[start..];
        let reached: Vec<(usize, bool)> = forms.iter().map(|form| agreeing(form, rest)).collect();
        let followed = |(count, whole): &&(usize, bool)| *whole && rest.get(*count) == Some(&separator);
        match reached.iter().find(followed) {
            Some((count, _)) => start += count + 1,
            None => return start + reached.iter().map(|(count, _)| *count).max().unwrap_or(0),
        }
    }
}

/// The first column at which no continuation of an operand could be right; one past its end where it stops short.
pub fn of_stop(card: &Card) -> usize {
    let count = match card.shape {
        Shape::U => beginning(&PARAMETERS, b',', card.operand),
        Shape::FS => beginning(&ITEMS, b'/', card.operand),
        Shape::END => 0,
    };
    card.column + count
}

/// The column of the first byte of each parameter or item of a right operand.
pub fn of_parts(card: &Card) -> Vec<usize> {
    let mut columns = Vec::new();
    let mut next = card.column;
    for part in grammar::parts(card) {
        columns.push(next);
        next += part.len() + 1;
    }
    columns
}

/// The numbers of a right operand as they stand, each with the column of its first digit.
pub fn of_numbers(card: &Card) -> Vec<(usize, usize)> {
    let mut numbers = Vec::new();
    let mut column = card.column;
    for text in card.operand.split(|byte| !byte.is_ascii_digit()) {
        numbers.extend(grammar::number(text).map(|number| (column, number)));
        column += text.len() + 1;
    }
    numbers
}
