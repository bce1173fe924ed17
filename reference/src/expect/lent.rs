//! Plans, runs and twins that are lent memory: it holds a pattern before the call, and a digest of all of it is told after.

use reference::{plan, plan_into, run, twins, Entry, Planned, Ran, Twins};

use crate::text::hex;

/// The table that a plan is lent the first entries of.
const ENTRIES: usize = 70;

/// The output that a run, or twins, is lent the first bytes of.
const BYTES: usize = 70_000;

/// The most written bytes that are shown.
const SHOWN: usize = 64;

/// The digest of numbers in order: d = (257 d + x + 1) mod 2,147,483,647, from 0.
fn digest(numbers: impl IntoIterator<Item = usize>) -> usize {
    numbers.into_iter().fold(0, |d, x| (257 * d + x + 1) % 2_147_483_647)
}

/// The pattern of a table; no field has such numbers in these places.
fn table() -> Vec<Entry> {
    let entry = |i| Entry { step: (i + 7) % 256, part: 0, r: i + 1000, input: i + 2000, output: i + 3000, t: i + 4000 };
    (0..ENTRIES).map(entry).collect()
}

/// The pattern of an output; 251 is prime, so that no row of 4, 8 or 80 bytes repeats it.
fn output() -> Vec<u8> {
    (0..BYTES).map(|i| (i % 251) as u8).collect()
}

/// The numbers of an entry; kind and part are one, so that an entry without keys is told as it was before there were any.
fn numbers(entry: &Entry) -> [usize; 5] {
    [entry.step + 256 * entry.part, entry.r, entry.input, entry.output, entry.t]
}

fn planned(answer: Planned, digest: &str) -> String {
    let Planned { refusal, place, column, keeping, lost, fields } = answer;
    format!("{refusal} {place} {column} {keeping} {lost} {fields} {digest}")
}

/// The answer to a deck alone, or with so many entries of the table lent to it.
pub fn plan_line(deck: &[u8], entries: &str) -> String {
    if entries == "-" {
        return planned(plan(deck), "-");
    }
    let mut table = table();
    let count: usize = entries.parse().expect("a number of entries");
    let answer = plan_into(deck, &mut table[..count]);
    planned(answer, &digest(table.iter().flat_map(numbers)).to_string())
}

/// What was written, if it is short; nothing was where it was refused.
fn shown(refusal: usize, written: &[u8]) -> String {
    match (refusal, written.len()) {
        (0, ..=SHOWN) => hex(written),
        (0, _) => "..".to_string(),
        _ => "-".to_string(),
    }
}

/// The digest of the whole output, and what was written at its start.
fn digest_and_shown(refusal: usize, written: &[u8]) -> String {
    let mut output = output();
    output[..written.len()].copy_from_slice(written);
    let digest = digest(output.into_iter().map(usize::from));
    format!("{digest} {}", shown(refusal, written))
}

/// The answer of a run with so many bytes of the output lent to it.
pub fn run_line(deck: &[u8], reel: &[u8], room: usize) -> String {
    assert!(room <= BYTES, "a room over {BYTES}");
    let Ran { refusal, place, column, length, records, blocks, reel } = run(deck, reel, room);
    let written = digest_and_shown(refusal, &reel);
    format!("{refusal} {place} {column} {length} {records} {blocks} {written}")
}

/// The answer of twins with so many bytes of the output lent to them.
pub fn twins_line(deck: &[u8], room: usize) -> String {
    assert!(room <= BYTES, "a room over {BYTES}");
    let Twins { refusal, place, column, reason, length, records } = twins(deck, room);
    let written = digest_and_shown(refusal, &records);
    format!("{refusal} {place} {column} {reason} {length} {written}")
}

#[cfg(test)]
mod tests {
    use super::*;

    const FIRST: &[u8] = b"// UTT TRF,FF,A=(8,16),B=(7,7)\n// FS 1,4,1/5,(P,4,3),5\n// END\n";
    const EMPTY: &[u8] = &[0, 0, 0, 0, 0, 0, 0, 8];

    #[test]
    fn digests() {
        assert_eq!(digest([]), 0);
        assert_eq!(digest([0]), 1);
        assert_eq!(digest([0, 0]), 258);
        assert_eq!(digest([1, 2, 3]), (257 * (257 * 2 + 3) + 4));
        assert_eq!(digest([2_147_483_646]), 0);
        assert_eq!(digest([2_147_483_645, 0]), 2_147_483_647 - 257 + 1);
        assert_ne!(digest([1, 2]), digest([2, 1]));
    }

    #[test]
    fn patterns() {
        let table = table();
        assert_eq!((table.len(), numbers(&table[0])), (70, [7, 1000, 2000, 3000, 4000]));
        assert_eq!(numbers(&table[69]), [76, 1069, 2069, 3069, 4069]);
        let output = output();
        assert_eq!((output.len(), output[250], output[251]), (70_000, 250, 0));
    }

    /// The digests in the next two tests were worked out apart from this file.
    #[test]
    fn plans_with_and_without_a_table() {
        assert_eq!(plan_line(FIRST, "-"), "0 0 0 1 0 2 -");
        assert_eq!(plan_line(FIRST, "1"), "15 2 0 0 0 0 1389193452");
        assert_eq!(plan_line(b"// U TC,x\n// END", "70"), "3 1 9 0 0 0 1389193452");
        assert_eq!(plan_line(b"", "70"), "2 1 0 0 0 0 1389193452");
        let others: Vec<[usize; 5]> = table()[2..].iter().map(numbers).collect();
        let after = [&[[0, 1, 4, 4, 1], [1, 5, 4, 3, 5]][..], &others].concat();
        let digest = digest(after.into_iter().flatten());
        assert_eq!(plan_line(FIRST, "2"), format!("0 0 0 1 0 2 {digest}"));
        assert_eq!(plan_line(FIRST, "2"), plan_line(FIRST, "70"));
    }

    #[test]
    fn runs_and_their_rooms() {
        assert_eq!(run_line(FIRST, EMPTY, 7), "15 8 0 0 0 0 293385196 -");
        assert_eq!(run_line(FIRST, EMPTY, 8), "0 0 0 8 0 0 194523768 0000000000000008");
        assert_eq!(run_line(FIRST, EMPTY, 70_000), run_line(FIRST, EMPTY, 8));
        assert_eq!(run_line(b"// U TC,x\n// END", EMPTY, 8), "3 1 9 0 0 0 293385196 -");
        assert_eq!(run_line(FIRST, b"", 70_000), "11 0 0 0 0 0 293385196 -");
    }

    /// The digest of what was written stands on the pattern behind it.
    #[test]
    fn twins_and_their_rooms() {
        let six = b"// UTT TRF,FF,A=(8,16),B=(6,6)\n// FS 1,4,1/5,(P,4,2),5\n// END\n";
        let written = [0, 0, 0, 0, 0xF0, 0xF0, 0xF0, 0xA0, 0, 0, 0, 0, 0xF1, 0xF0, 0xF0, 0xA0];
        let after = written.into_iter().chain((16..70_000).map(|i| i % 251));
        let line = format!("0 0 0 2 16 {} 00000000F0F0F0A000000000F1F0F0A0", digest(after));
        assert_eq!(twins_line(six, 16), line);
        assert_eq!(twins_line(six, 70_000), line);
        assert_eq!(twins_line(six, 15), "15 16 0 0 0 293385196 -");
        assert_eq!(twins_line(FIRST, 0), "16 0 0 0 0 293385196 -");
        assert_eq!(twins_line(b"// U TC,x\n// END", 0), "3 1 9 0 0 293385196 -");
        let long = b"// U TF,FF,A=(33,33),B=(1,1)\n// FS 1,1,1\n// END\n";
        assert!(twins_line(long, 66).starts_with("0 0 0 1 66 ") && twins_line(long, 66).ends_with(" .."));
    }

    #[test]
    fn reels_of_64_bytes_are_shown() {
        let copy = b"// U TC,FU,A=(99),B=(99)\n// END\n";
        let reel = |size: usize| reference::reel::write(&[vec![0xC1; size]]);
        let last = |size| run_line(copy, &reel(size), 70_000).split(' ').next_back().map(str::to_string);
        assert_eq!(last(52), Some(hex(&reel(52))));
        assert_eq!(last(53), Some("..".to_string()));
    }
}
