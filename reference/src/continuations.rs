//! The column of refusal 3 found by trying continuations: all beginnings of an operand, each with all endings that could make it right.

use std::collections::HashMap;

use crate::columns;
use crate::deck::{Card, Shape};
use crate::grammar::{fs_operand, u_operand};

#[allow(dead_code)]
#[path = "cases/chance.rs"]
pub mod chance;

use chance::Chance;

const PARAMETERS: [&str; 20] = [
    "TC", "TF", "TR", "TRF", "FF", "FV", "FU", "FS", "A=(1)", "A=(1,1)", "A=(K=1,D=1)", "B=(1)", "B=(1,1)",
    "IR", "IN", "IU", "OR", "ON", "OU", "R1",
];
const ITEMS: [&str; 7] = [
    "1,1,1", "1,(P,1,1),1", "1,(U,1,1),1", "(K,1),1,1", "(K,1),(P,1,1),1", "(K,1),(U,1,1),1", "CV",
];

/// A grammar with its texts of one parameter or item, and what has been found about beginnings.
struct Grammar {
    shape: Shape,
    texts: &'static [&'static str],
    separator: u8,
    endings: Vec<&'static str>,
    found: HashMap<Vec<u8>, bool>,
}

/// All ends of the texts, the whole and nothing among them.
///
/// They are enough. Let a beginning and some ending together be a right operand. Cut the ending behind the parameter
/// or item in which the beginning stops: the operand stays right, for a rest may be nothing. What is left ends one
/// parameter or item. Digits at its start that go on with a number of the beginning can be left out, since a number may
/// be as short as it is begun; every other number in it can be 1. So it is an end of one of the texts.
fn endings(texts: &[&'static str]) -> Vec<&'static str> {
    let mut endings: Vec<&str> = texts.iter().flat_map(|text| (0..=text.len()).map(|at| &text[at..])).collect();
    endings.sort_by_key(|ending| (ending.len(), *ending));
    endings.dedup();
    endings
}

impl Grammar {
    fn new(shape: Shape, texts: &'static [&'static str], separator: u8) -> Grammar {
        Grammar { shape, texts, separator, endings: endings(texts), found: HashMap::new() }
    }

    /// Whether a whole text is an operand.
    fn is_right(&self, text: &[u8]) -> bool {
        if self.shape == Shape::U { u_operand(text).is_some() } else { fs_operand(text).is_some() }
    }

    /// Whether some ending makes a beginning right.
    fn goes_on(&mut self, beginning: &[u8]) -> bool {
        if let Some(found) = self.found.get(beginning) {
            return *found;
        }
        let found = self.endings.iter().any(|ending| self.is_right(&[beginning, ending.as_bytes()].concat()));
        self.found.insert(beginning.to_vec(), found);
        found
    }

    /// How many bytes of a text begin a right operand.
    fn begun(&mut self, text: &[u8]) -> usize {
        (0..text.len()).find(|count| !self.goes_on(&text[..*count + 1])).unwrap_or(text.len())
    }

    /// Compares the column of a text that is no operand; says whether it is none.
    fn compare(&mut self, text: &[u8]) -> bool {
        let column = if self.shape == Shape::U { 6 } else { 7 };
        let wrong = !self.is_right(text);
        if wrong {
            let card = Card { shape: self.shape, operand: text, column };
            let shown = String::from_utf8_lossy(text);
            assert_eq!(columns::of_stop(&card), column + self.begun(text), "{shown}");
        }
        wrong
    }

    /// A right operand of one to four parameters or items, with numbers of one to five digits.
    fn drawn(&self, chance: &mut Chance) -> Vec<u8> {
        let mut operand = Vec::new();
        for number in 0..chance.range(1, 4) {
            operand.extend((number > 0).then_some(self.separator));
            for byte in chance.pick(self.texts).bytes() {
                let digits = if chance.one_in(3) { chance.range(1, 5) } else { 1 };
                let count = if byte == b'1' { digits } else { 1 };
                operand.extend((0..count).map(|_| if byte == b'1' { b'0' + chance.below(10) as u8 } else { byte }));
            }
        }
        operand
    }
}

fn grammars() -> [Grammar; 2] {
    [Grammar::new(Shape::U, &PARAMETERS, b','), Grammar::new(Shape::FS, &ITEMS, b'/')]
}

/// One to three bytes changed, inserted or dropped, or all from one on cut off.
fn damage(chance: &mut Chance, operand: &mut Vec<u8>) {
    for _ in 0..chance.range(1, 3) {
        let byte = chance.pick(b"TCFRVUABINOKDPXS=()0123456789,,//;-.x#~");
        let at = chance.below(operand.len() + 1);
        match chance.below(4) {
            0 if at < operand.len() => operand[at] = byte,
            1 => operand.insert(at, byte),
            2 if at < operand.len() => drop(operand.remove(at)),
            _ => operand.truncate(at),
        }
    }
}

#[test]
fn texts_and_what_is_drawn_are_operands() {
    let mut chance = Chance::new(1);
    for grammar in grammars() {
        assert!(grammar.texts.iter().all(|text| grammar.is_right(text.as_bytes())));
        assert!((0..1_000).all(|_| grammar.is_right(&grammar.drawn(&mut chance))));
    }
}

#[test]
fn damaged_operands() {
    let mut chance = Chance::new(360);
    for mut grammar in grammars() {
        let mut wrong = 0;
        while wrong < 10_000 {
            let mut operand = grammar.drawn(&mut chance);
            damage(&mut chance, &mut operand);
            wrong += usize::from(grammar.compare(&operand));
        }
    }
}

/// All texts of at most three bytes that the grammars use, and one that they do not.
#[test]
fn short_operands() {
    let longer = |text: &Vec<u8>| b"TCFRVUSABINOPKD=(),/1x".map(|byte| [&text[..], &[byte]].concat());
    for mut grammar in grammars() {
        let mut texts = vec![Vec::new()];
        grammar.compare(&texts[0]);
        for _ in 1..=3 {
            texts = texts.iter().flat_map(longer).collect();
            texts.iter().for_each(|text| _ = grammar.compare(text));
        }
    }
}
