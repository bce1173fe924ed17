//! Decks as text: a draft written as cards, and faults of cards, tokens and bytes.

use crate::chance::Chance;
use crate::draft::{Draft, Piece};

/// A card in parts: its name, the parts of its operand, its comment.
#[derive(Clone, Debug)]
pub struct CardText {
    pub name: String,
    pub parts: Vec<String>,
    pub between: &'static str,
    pub comment: String,
}

pub type DeckText = Vec<CardText>;

/// A number, now and then with leading zeros.
fn number(chance: &mut Chance, value: usize) -> String {
    let width = if chance.one_in(12) { chance.range(1, 5) } else { 1 };
    format!("{value:0width$}")
}

fn sizes(chance: &mut Chance, name: &str, sizes: &[usize]) -> String {
    let numbers: Vec<String> = sizes.iter().map(|size| number(chance, *size)).collect();
    format!("{name}=({})", numbers.join(","))
}

/// A, which may have a key.
fn input_sizes(chance: &mut Chance, draft: &Draft) -> String {
    if !draft.keyed {
        return sizes(chance, "A", &draft.a);
    }
    let (k, d) = (number(chance, draft.a[0]), number(chance, draft.a[1]));
    format!("A=(K={k},D={d})")
}

fn comment(chance: &mut Chance) -> String {
    if !chance.one_in(5) {
        return String::new();
    }
    chance.pick(&[" ", "  ", " COPY ALL", " a comment, R2 ~", " /CV", " ,R9", " // END"]).to_string()
}

fn u_card(chance: &mut Chance, draft: &Draft) -> CardText {
    let mut parts = vec![draft.mode.to_string(), draft.format.to_string()];
    parts.push(input_sizes(chance, draft));
    parts.push(sizes(chance, "B", &draft.b));
    if chance.one_in(6) {
        parts.push(chance.pick(&["IR", "IN", "IU"]).to_string());
    }
    if chance.one_in(6) {
        parts.push(chance.pick(&["OR", "ON", "OU"]).to_string());
    }
    if let Some(first) = draft.first {
        parts.push(format!("R{}", number(chance, first)));
    }
    if chance.one_in(3) {
        chance.shuffle(&mut parts);
    }
    let name = chance.pick(&["// U ", "// UTT "]).to_string();
    CardText { name, parts, between: ",", comment: comment(chance) }
}

fn item(chance: &mut Chance, piece: &Piece) -> String {
    let Piece::Field { step, key, r, input, output, t } = piece else { return "CV".to_string() };
    let mut say = |value: &usize| number(chance, *value);
    let start = if *key { format!("(K,{})", say(r)) } else { say(r) };
    match step {
        'C' => format!("{start},{},{}", say(input), say(t)),
        _ => format!("{start},({step},{},{}),{}", say(input), say(output), say(t)),
    }
}

/// The FS cards: a new one where a card is full, and now and then.
fn fs_cards(chance: &mut Chance, draft: &Draft) -> DeckText {
    let mut cards: DeckText = Vec::new();
    let crowded = draft.pieces.len() > 12;
    let width = chance.pick(&[20, 45, 70, 70, 70]);
    for piece in &draft.pieces {
        let item = item(chance, piece);
        let full = |card: &CardText| card.parts.join("/").len() + item.len() > width;
        let apart = draft.one_a_card || (!crowded && chance.one_in(4));
        if apart || cards.last().is_none_or(full) {
            let comment = if crowded { String::new() } else { comment(chance) };
            cards.push(CardText { name: "// FS ".to_string(), parts: vec![], between: "/", comment });
        }
        cards.last_mut().unwrap().parts.push(item);
    }
    cards
}

/// The cards of a draft.
pub fn cards(chance: &mut Chance, draft: &Draft) -> DeckText {
    let mut cards = vec![u_card(chance, draft)];
    cards.extend(fs_cards(chance, draft));
    let name = "// END".to_string();
    cards.push(CardText { name, parts: vec![], between: "", comment: comment(chance) });
    cards
}

/// The deck's bytes, with or without a last 0A.
pub fn bytes(chance: &mut Chance, cards: &DeckText) -> Vec<u8> {
    let line = |card: &CardText| card.name.clone() + &card.parts.join(card.between) + &card.comment;
    let mut deck = cards.iter().map(line).collect::<Vec<String>>().join("\n");
    if !cards.is_empty() && !chance.one_in(4) {
        deck.push('\n');
    }
    deck.into_bytes()
}

/// Parts damaged so that the grammar mostly no longer holds.
pub fn grammar(chance: &mut Chance, cards: &mut DeckText) {
    let at = chance.below(cards.len().max(2) - 1);
    let card = &mut cards[at];
    if card.parts.is_empty() {
        return;
    }
    let part = chance.below(card.parts.len());
    let text = card.parts[part].clone();
    match chance.below(9) {
        0 => card.parts.insert(part, String::new()),
        1 => card.parts.push(String::new()),
        2 => card.parts.clear(),
        3 => card.parts[part] = long_number(chance, &text),
        4 => card.parts[part] = odd_part(chance),
        5 => card.parts[part] = without(&text, chance.below(text.len().max(1))),
        6 => {
            let byte = chance.pick(&["1", "0", ",", "(", ")", "/", " ", "=", "R", "F", "9", "-"]);
            let mut text = text;
            text.insert_str(chance.below(text.len() + 1), byte);
            card.parts[part] = text;
        }
        7 => card.between = chance.pick(&[",", "/", ", ", ",,", "//", ""]),
        _ => card.name.push(' '),
    }
}

fn without(text: &str, at: usize) -> String {
    text.chars().enumerate().filter(|(index, _)| *index != at).map(|(_, c)| c).collect()
}

/// A number of the part made five, six or seven digits long by zeros, or emptied.
fn long_number(chance: &mut Chance, text: &str) -> String {
    let starts: Vec<usize> = (0..text.len())
        .filter(|at| text.as_bytes()[*at].is_ascii_digit())
        .filter(|at| *at == 0 || !text.as_bytes()[*at - 1].is_ascii_digit())
        .collect();
    if starts.is_empty() {
        return text.to_string();
    }
    let start = chance.pick(&starts);
    let digits: String = text[start..].chars().take_while(char::is_ascii_digit).collect();
    let rest = &text[start + digits.len()..];
    let width = chance.pick(&[5, 6, 6, 7]);
    match chance.below(4) {
        0 => format!("{}{rest}", &text[..start]),
        1 => format!("{}{:0<width$}{rest}", &text[..start], digits),
        _ => format!("{}{:0>width$}{rest}", &text[..start], digits),
    }
}

fn odd_part(chance: &mut Chance) -> String {
    let odd = [
        "TRFF", "TR1", "T", "TRR1", "OR1", "FX", "FS", "FSS", "fF", "R", "R1.", "R-1", "A=()", "A=(1,)", "A=(,1)",
        "A=(1,2,3)", "A=1", "A(1)", "B=(4)X", "C=(4)", "E=1", "TD", "A=(K=2,D=3)", "CV", "CVV", "cv",
        "B=(K=2,D=3)", "A=(K=2,3)", "A=(D=3,K=2)", "A=(K=2)", "A=(2,D=3)", "A=(K=,D=3)", "A=(k=2,D=3)", "A=(K=2,D=3,4)",
        "(K,1),1,1", "(K,1),(P,2,2),1", "1,1,(K,1)", "(K,1,1),1", "(D,1),1,1", "(K1),1,1", "(K,),1,1", "(K,1)1,1",
        "1,1", "1,1,1,1", "1,(X,1),1", "1,(P,1),1", "1,(P,1,1)", "1,(P,1,1,1),1", "1,(Q,2,2),1",
        "1,P,2,2,1", "1,(P,2,2,1", "(K,1)", "1,(p,2,2),1", "1,1,1", "IX", "ORN", "S", "00000,1,1",
    ];
    chance.pick(&odd).to_string()
}

/// A parameter or CV that stands twice.
pub fn double(chance: &mut Chance, cards: &mut DeckText) {
    let again = ["TC", "TR", "TF", "TRF", "FF", "FV", "FU", "FS", "A=(5)", "A=(K=1,D=2)", "B=(2,4)", "IR", "ON", "R1", "R02"];
    if chance.one_in(3) && cards.len() > 2 {
        for _ in 0..chance.pick(&[1, 2, 2, 3]) {
            let card = chance.range(1, cards.len() - 2);
            let at = chance.below(cards[card].parts.len() + 1);
            cards[card].parts.insert(at, "CV".to_string());
        }
        return;
    }
    let parts = &mut cards[0].parts;
    let part = if !parts.is_empty() && chance.one_in(2) { chance.pick(parts) } else { chance.pick(&again).to_string() };
    parts.insert(chance.below(parts.len() + 1), part);
}

/// A parameter taken away.
pub fn missing(chance: &mut Chance, cards: &mut DeckText) {
    let parts = &mut cards[0].parts;
    if parts.len() > 1 {
        parts.remove(chance.below(parts.len()));
    }
}

/// Cards dropped, doubled, moved, or put where they do not belong.
pub fn order(chance: &mut Chance, cards: &mut DeckText) {
    let at = chance.below(cards.len());
    let card = cards[at].clone();
    let last = cards.len() - 1;
    match chance.below(10) {
        0 => drop(cards.remove(at)),
        1 => cards.insert(at, card),
        2 => cards.swap(at, last),
        3 => chance.shuffle(cards),
        4 => drop(cards.pop()),
        5 => cards.clear(),
        6 => cards.push(card),
        7 => cards.insert(at, cards[last].clone()),
        8 => drop(cards.remove(0)),
        _ => fill_up(chance, cards),
    }
}

/// A card of a name alone.
fn bare(name: &str) -> CardText {
    CardText { name: name.into(), parts: vec![], between: "", comment: String::new() }
}

/// FS cards added up to 63, 64, 65 or 66 cards, sometimes without END.
fn fill_up(chance: &mut Chance, cards: &mut DeckText) {
    if !chance.one_in(4) {
        cards.swap_remove(0);
        return;
    }
    let count = chance.pick(&[63, 64, 65, 65, 66]);
    let mut text = bare("// FS ");
    text.parts.push("1,1,1".into());
    while cards.len() < count {
        cards.insert(1, text.clone());
    }
    if chance.one_in(3) {
        cards.pop();
    }
}

/// Cards of no shape: other names, empty lines, 80 and 81 bytes.
pub fn shape(chance: &mut Chance, cards: &mut DeckText) {
    let at = chance.below(cards.len());
    let odd = [
        "", "", "", " ", "//", "// ", "/ U ", "// UTP ", "// u ", "// ENDX", "// END,", "// F ", "// FS",
        "// U", "//U ", " // U ", "//  U ", "// UT ", "// UTT",
    ];
    match chance.below(5) {
        0 => cards[at].name = chance.pick(&odd).to_string(),
        1 => cards.insert(at, bare(chance.pick(&odd))),
        2 => cards.push(bare(chance.pick(&odd))),
        3 => widen(chance, cards, &[79, 80, 80, 81, 81, 82]),
        _ => {
            let byte = chance.pick(&['\t', '\r', '\x1F', '\x7F', '\x00', '~', ' ', '\x0B']);
            cards[at].comment.push(if chance.one_in(3) { ' ' } else { byte });
            cards[at].comment.push(byte);
        }
    }
}

/// A comment that makes a card as long as one of these widths.
pub fn widen(chance: &mut Chance, cards: &mut DeckText, widths: &[usize]) {
    let width = chance.pick(widths);
    let at = chance.below(cards.len());
    let card = &mut cards[at];
    let operand = card.name.len() + card.parts.join(card.between).len();
    card.comment = format!(" {}", "*".repeat(width.max(operand + 1) - operand - 1));
}

/// Bytes of the finished deck changed, dropped, added or moved.
pub fn damage(chance: &mut Chance, deck: &mut Vec<u8>) {
    if deck.is_empty() {
        return;
    }
    let at = chance.below(deck.len());
    let odd = *b"\x1F\x20\x7E\x7F\x0D\x0A\x0A\x09\x00\xFF01,/)";
    match chance.below(8) {
        0 => deck[at] ^= 1 << chance.below(8),
        1 | 2 => deck[at] = chance.pick(&odd),
        3 => drop(deck.remove(at)),
        4 => deck.insert(at, chance.pick(&odd)),
        5 => deck.push(chance.pick(&odd)),
        6 if chance.one_in(2) => deck.truncate(at),
        6 if chance.one_in(3) => deck.clear(),
        6 => deck.insert(0, 0x0A),
        _ => {
            let lines: Vec<&[u8]> = deck.split(|byte| *byte == 0x0A).collect();
            *deck = lines.join(&b"\r\n"[..]);
        }
    }
}
