//! The paper's listings, its cases p1 to p12, the edges it names, and some readings.

use crate::continuations::chance::Chance;
use crate::*;

const FIRST: &str = "// UTT TRF,FF,A=(8,16),B=(7,7)\n// FS 1,4,1/5,(P,4,3),5\n// END\n";
const SIX: &str = "// UTT TRF,FF,A=(8,16),B=(6,6)\n// FS 1,4,1/5,(P,4,2),5\n// END\n";
const P7: &str = "00000001 0000000C 0000001C C1C2C3C4F1F2F3C4 C1C2C3C4F9F2F3C4";

fn hex(text: &str) -> Vec<u8> {
    let digits: Vec<u8> =
        text.chars().filter_map(|c| c.to_digit(16)).map(|value| value as u8).collect();
    halves::bytes(&digits)
}

fn planned(deck: &str) -> (usize, usize, usize, usize, usize) {
    let p = plan(deck.as_bytes());
    (p.refusal, p.place, p.keeping, p.lost, p.fields)
}

/// The refusal and place of a deck.
fn refusal(deck: &str) -> (usize, usize) {
    let p = plan(deck.as_bytes());
    (p.refusal, p.place)
}

/// The refusal, place and column of a deck of these cards and END.
fn column(cards: &str) -> (usize, usize, usize) {
    let deck = format!("{cards}\n// END\n");
    let p = plan(deck.as_bytes());
    let ran = run(deck.as_bytes(), &[], 0);
    assert_eq!((ran.refusal, ran.place, ran.column), (p.refusal, p.place, p.column));
    (p.refusal, p.place, p.column)
}

fn finished(deck: &str, reel: &str, records: usize, blocks: usize, result: &str) {
    let reel_out = hex(result);
    let length = reel_out.len();
    let expected = Ran { length, records, blocks, reel: reel_out, ..Ran::default() };
    assert_eq!(run(deck.as_bytes(), &hex(reel), length), expected);
    let short = run(deck.as_bytes(), &hex(reel), length - 1);
    assert_eq!(short, Ran { refusal: 15, place: length, ..Ran::default() });
}

fn refused(deck: &str, reel: &str, number: usize, place: usize) {
    let ran = run(deck.as_bytes(), &hex(reel), 65_536);
    assert_eq!(ran, Ran { refusal: number, place, ..Ran::default() });
}

#[test]
fn listings() {
    assert_eq!(planned(FIRST), (0, 0, 1, 0, 2));
    assert_eq!(planned(SIX), (0, 0, 0, 9, 2));
}

#[test]
fn p1_to_p6() {
    assert_eq!(pack(&hex("F1F2F3C4"), 3), hex("01234C"));
    assert_eq!(pack(&hex("F1F2F3C4"), 2), hex("234C"));
    assert_eq!(pack(&hex("C4"), 1), hex("4C"));
    assert_eq!(pack(&hex("C4"), 2), hex("004C"));
    assert_eq!(unpack(&hex("01234C"), 5), hex("F0F1F2F3C4"));
    assert_eq!(unpack(&hex("01234C"), 4), hex("F1F2F3C4"));
    assert_eq!(unpack(&hex("4C"), 1), hex("C4"));
}

#[test]
fn p7_and_p8() {
    let p7 = "00000002 00000010 00000017 0000001E C1C2C3C401234C C1C2C3C409234C";
    let p8 = "00000002 00000010 00000016 0000001C C1C2C3C4234C C1C2C3C4234C";
    finished(FIRST, P7, 2, 2, p7);
    finished(SIX, P7, 2, 2, p8);
}

#[test]
fn p9() {
    let deck = "// U TRF,FF,A=(2,2),B=(3,3)\n// FS 1,(P,2,2),1/1,(U,1,1),3\n// END";
    assert_eq!(planned(deck), (10, 0, 0, 0, 0));
}

#[test]
fn p10_to_p12() {
    finished(FIRST, "00000000 00000008", 0, 0, "00000000 00000008");
    let ran = run(FIRST.as_bytes(), &hex("00000000 00000008"), 7);
    assert_eq!(ran, Ran { refusal: 15, place: 8, ..Ran::default() });
    refused(FIRST, "00000001 0000000C 0000000E 40", 11, 0);
}

#[test]
fn cards_and_order() {
    assert_eq!(refusal(""), (2, 1));
    assert_eq!(refusal("\n"), (1, 1));
    assert_eq!(refusal(&format!("{FIRST}\n")), (1, 4));
    assert_eq!(refusal(&FIRST.replace('\n', "\r\n")), (1, 1));
    assert_eq!(refusal("// U TC,FU,A=(5),B=(5)\n// END\n// FS 1,1,1\n"), (2, 3));
    assert_eq!(refusal("// U TC,FU,A=(5),B=(5)\n"), (2, 2));
    assert_eq!(refusal("// END"), (2, 1));
    assert_eq!(refusal("// U  TC,FU,A=(5),B=(5)\n// END"), (3, 1));
    assert_eq!(refusal("// U\n// END"), (1, 1));
    assert_eq!(refusal("// U \n// END"), (3, 1));
    assert_eq!(refusal("// U TC,FU,A=(5),B=(5)\n// ENDX"), (1, 2));
    let many = |count| format!("// U TC\n{}// END\n", "// FS CV\n".repeat(count));
    assert_eq!(refusal(&many(62)), (4, 3));
    assert_eq!(refusal(&many(63)), (2, 65));
    assert_eq!(refusal(&many(63).replace("// END\n", "")), (2, 65));
}

#[test]
fn operands() {
    let u = |operand: &str| refusal(&format!("// U {operand}\n// END\n"));
    assert_eq!(u("TC,FU,A=(5),B=(5)"), (0, 0));
    assert_eq!(u("B=(00005),IR,OU,FU,R1,A=(5),TC"), (0, 0));
    assert_eq!(u("TC,FU,A=(000005),B=(5)"), (3, 1));
    assert_eq!(u("TC,FU,A=(5),B=(5),"), (3, 1));
    assert_eq!(u("TC,FU,A=(5,B=(5)"), (3, 1));
    assert_eq!(u("TC,FU,A=(5,6,7),B=(5)"), (3, 1));
    assert_eq!(u("TC,FU,A=(5),B=(5),R"), (3, 1));
    assert_eq!(u("TC,TR,A=(5),B=(5)"), (4, 1));
    assert_eq!(u("TC,A=(5),B=(5)"), (5, 1));
    assert_eq!(u("TC,FU,A=(5),B=(5),R65537"), (7, 1));
    assert_eq!(u("TC,FU,A=(5),B=(5),R65536"), (8, 1));
    assert_eq!(u("TC,FV,A=(8),B=(8)"), (7, 1));
    assert_eq!(u("TF,FV,A=(9),B=(8)"), (7, 1));
    assert_eq!(u("TC,FU,A=(5000,1),B=(1)"), (7, 1));
    assert_eq!(u("TC,FU,A=(32760),B=(32760)"), (0, 0));
    assert_eq!(u("TC,FU,A=(32761),B=(32760)"), (7, 1));
}

#[test]
fn columns_of_3() {
    assert_eq!(column("// U R99999x"), (3, 1, 12));
    assert_eq!(column("// U TC,TC,x"), (3, 1, 12));
    assert_eq!(column("// U TRFF"), (3, 1, 9));
    assert_eq!(column("// U A=(1,2,3)"), (3, 1, 12));
    assert_eq!(column("// U R123456"), (3, 1, 12));
    assert_eq!(column("// U IX"), (3, 1, 7));
    assert_eq!(column("// U "), (3, 1, 6));
    assert_eq!(column("// UTT "), (3, 1, 8));
    assert_eq!(column("// U TC\n// FS "), (3, 2, 7));
    assert_eq!(column("// U  TC"), (3, 1, 6));
    assert_eq!(column("// U TC, FU"), (3, 1, 9));
    assert_eq!(column("// U FX"), (3, 1, 7));
    assert_eq!(column("// U FSS"), (3, 1, 8));
    assert_eq!(column("// U TC\n// FS FS"), (3, 2, 7));
    assert_eq!(column("// U TC\n// FS 1,1,(K,1)"), (3, 2, 11));
    assert_eq!(column("// U TC,TC\n// FS 1,2,3/\n// FS x"), (3, 2, 13));
    assert_eq!(column(&format!("// U {}", "IR,".repeat(25))), (3, 1, 81));
}

#[test]
fn columns_of_4_and_7() {
    assert_eq!(column("// U TC,FF,FF,TR,A=(1,1),B=(1,1)"), (4, 1, 12));
    assert_eq!(column("// U TC,R1,A=(0,0),R1,R1"), (4, 1, 20));
    assert_eq!(column("// U TC\n// FS CV\n// FS 1,1,1/CV/CV"), (4, 3, 13));
    assert_eq!(column("// U TC,A=(1,2),TC\n// FS CV/CV"), (4, 1, 17));
    assert_eq!(column("// U TC,FF,A=(00000,1),B=(0,1)"), (7, 1, 15));
    assert_eq!(column("// U B=(0,1),A=(0,1),TC,FF"), (7, 1, 9));
    assert_eq!(column("// U A=(8),B=(9),TC,FV,R0"), (7, 1, 9));
    assert_eq!(column("// U A=(8),B=(8),TC,FU,R0"), (7, 1, 25));
    assert_eq!(column("// U TC,FU,A=(5),B=(5)\n// FS 1,1,1/1,(P,16,17),0\n// FS 0,1,1"), (7, 2, 21));
    assert_eq!(column("// U TC,FU,A=(5),B=(6)"), (8, 1, 0));
    assert_eq!(column("// U TC,A=(0),B=(0)"), (5, 1, 0));
}

#[test]
fn edges_to_be_run() {
    let deck = |a: &str, b: &str, fs: &str| {
        refusal(&format!("// U TF,{a},{b}\n// FS {fs}\n// END\n"))
    };
    assert_eq!(deck("FF,A=(4096,4096)", "B=(4096,4096)", "1,4096,1"), (0, 0));
    assert_eq!(deck("FF,A=(4097,4097)", "B=(4096,4096)", "1,1,1"), (7, 1));
    assert_eq!(deck("FF,A=(20,20)", "B=(20,20)", "1,(P,16,16),1"), (0, 0));
    assert_eq!(deck("FF,A=(20,20)", "B=(20,20)", "1,(P,17,16),1"), (7, 2));
    assert_eq!(deck("FF,A=(20,20)", "B=(20,20)", "1,(U,16,17),1"), (7, 2));
    assert_eq!(deck("FV,A=(4,12)", "B=(5,13)", "1,4,1"), (0, 0));
    assert_eq!(deck("FV,A=(4,11)", "B=(5,13)", "1,4,1"), (8, 1));
    assert_eq!(deck("FF,A=(4,8)", "B=(5,10)", "1,1,1/2,3,3"), (0, 0));
    assert_eq!(deck("FF,A=(4,8)", "B=(5,10)", "1,1,1/2,4,1"), (9, 2));
    assert_eq!(deck("FF,A=(4,8)", "B=(5,10)", "1,1,1/2,3,4"), (9, 2));
}

#[test]
fn combinations_and_their_places() {
    assert_eq!(refusal("// U TR,FF,A=(2,4),B=(2,2)\n// FS 1,1,1\n// FS CV\n// END"), (8, 2));
    assert_eq!(refusal("// U TF,FF,A=(2,4),B=(2,4)\n// FS 1,1,1\n// FS CV\n// END"), (8, 3));
    assert_eq!(refusal("// U TF,FF,A=(2,5),B=(2,4)\n// FS 1,1,1\n// FS CV\n// END"), (8, 1));
    assert_eq!(refusal("// U TF,FF,A=(2,4),B=(2,4)\n// END"), (8, 1));
    assert_eq!(refusal("// U TF,FF,A=(2,4),B=(2,6)\n// FS 1,1,1\n// END"), (8, 1));
    assert_eq!(refusal("// U TR,FF,A=(2,4),B=(4,4)\n// END"), (8, 1));
    assert_eq!(refusal("// U TC,FV,A=(9),B=(10)\n// END"), (8, 1));
    assert_eq!(planned("// U TF,FV,A=(2,10),B=(2,10)\n// FS CV\n// END"), (0, 0, 0, 0, 0));
}

#[test]
fn fields_64_and_65_and_the_table() {
    let deck = |count: usize| {
        let fs = "// FS 1,1,1\n".repeat(60) + &format!("// FS 2,1,2{}\n", "/3,1,3".repeat(count - 61));
        format!("// U TF,FF,A=(3,3),B=(3,3)\n{fs}// END\n")
    };
    assert_eq!(planned(&deck(64)), (0, 0, 1, 0, 64));
    assert_eq!(planned(&deck(65)), (6, 62, 0, 0, 0));
    let blank = Entry { t: 99, ..Entry::default() };
    let mut table = [blank; 3];
    assert_eq!(plan_into(FIRST.as_bytes(), &mut table[..1]).refusal, 15);
    assert_eq!(plan_into(FIRST.as_bytes(), &mut table[..1]).place, 2);
    assert_eq!(table, [blank; 3]);
    assert_eq!(plan_into(FIRST.as_bytes(), &mut table), plan(FIRST.as_bytes()));
    let copy = Entry { step: 0, part: 0, r: 1, input: 4, output: 4, t: 1 };
    let pack = Entry { step: 1, part: 0, r: 5, input: 4, output: 3, t: 5 };
    assert_eq!(table, [copy, pack, blank]);
}

#[test]
fn slips_about_keeping() {
    let lost = |fs: &str| {
        let p = planned(&format!("// U TRF,FF,A=(4,4),B=(4,4)\n// FS {fs}\n// END"));
        (p.2, p.3)
    };
    assert_eq!(lost("1,4,1"), (1, 0));
    assert_eq!(lost("1,(P,4,3),2"), (1, 0));
    assert_eq!(lost("1,(P,4,3),2/1,1,2"), (1, 0));
    assert_eq!(lost("1,(P,4,3),2/1,1,3"), (0, 3));
    assert_eq!(lost("1,(P,4,2),1"), (0, 1));
    assert_eq!(lost("1,(P,4,2),1/1,1,3"), (1, 0));
    assert_eq!(lost("2,3,2"), (0, 0));
    let tail = |m, fs| planned(&format!("// U TF,FV,A=(2,{m}),B=(2,30)\n// FS {fs}\n// END"));
    assert_eq!(tail(10, "1,2,1"), (0, 0, 1, 0, 1));
    assert_eq!(tail(11, "1,2,1"), (0, 0, 0, 4, 1));
    assert_eq!(tail(11, "CV/1,2,1"), (0, 0, 1, 0, 1));
}

#[test]
fn r_at_and_past_the_last_record() {
    let deck = |r| FIRST.replace("B=(7,7)", &format!("B=(7,7),R{r}"));
    let one = "00000001 0000000C 00000013 C1C2C3C409234C";
    finished(&deck(2), P7, 1, 1, one);
    finished(&deck(3), P7, 0, 0, "00000000 00000008");
    refused(&deck(3), "00000001 0000000C 00000012 C1C2C3C4C5C6", 12, 1);
}

#[test]
fn short_blocks_anywhere() {
    let tc = "// U TC,FF,A=(2,6),B=(2,6)\n// END\n";
    let short = "00000003 00000014 00000016 0000001C 0000001E C1C2 C3C4C5C6C7C8 C9D1";
    finished(tc, short, 5, 3, short);
    finished("// U TR,FF,A=(2,6),B=(2,4)\n// END\n", short, 5, 3,
        "00000003 00000014 00000018 0000001C 0000001E C1C2C3C4 C5C6C7C8 C9D1");
    finished("// U TF,FF,A=(2,6),B=(1,3),R3\n// FS 2,1,1\n// END\n", short, 3, 2,
        "00000002 00000010 00000012 00000013 C6C8 D1");
    refused(tc, "00000002 00000010 00000013 00000015 C1C2C3 C4C5", 12, 1);
    refused(tc, "00000002 00000010 00000012 00000015 C1C2 C3C4C5", 12, 2);
    refused(tc, "00000002 00000010 00000018 0000001A C1C2C3C4C5C6C7C8 C9D1", 12, 1);
}

#[test]
fn blocks_are_judged_one_by_one() {
    let deck = b"// U TC,FF,A=(3,12),B=(3,12)\n// END\n";
    let mut seed = 7_u32;
    let mut below = |n: u32| {
        seed = seed.wrapping_mul(1_664_525).wrapping_add(1_013_904_223);
        ((seed >> 8) % n) as usize
    };
    for _ in 0..2_000 {
        let blocks: Vec<Vec<u8>> = (0..1 + below(5)).map(|_| vec![7; 1 + below(14)]).collect();
        let good = |block: &Vec<u8>| block.len() <= 12 && block.len().is_multiple_of(3);
        let reel = reel::write(&blocks);
        let ran = run(deck, &reel, 65_536);
        match blocks.iter().position(|block| !good(block)) {
            None => assert_eq!((ran.refusal, ran.reel), (0, reel)),
            Some(at) => assert_eq!((ran.refusal, ran.place), (12, at + 1)),
        }
    }
}

#[test]
fn bad_halves_of_taken_records_only() {
    let bad = "00000001 0000000C 0000001C C1C2C3C4F1F2E3C4 C1C2C3C4F9F2F3C4";
    refused(FIRST, bad, 13, 1);
    let second = FIRST.replace("B=(7,7)", "B=(7,7),R2");
    finished(&second, bad, 1, 1, "00000001 0000000C 00000013 C1C2C3C409234C");
}

#[test]
fn variable_records() {
    let deck = |mode, m, cv| {
        format!("// U {mode},FV,A=(1,19),B=(2,{m})\n// FS 1,1,2{cv}\n// END\n")
    };
    let reel = "00000001 0000000C 0000001B 000F0000 00050000C1 00060000C2D9";
    let kept = "00000001 0000000C 0000001D 00110000 0006000040C1 0007000040C2D9";
    let apart = "00000002 00000010 0000001A 00000025 000A0000 0006000040C1 000B0000 0007000040C2D9";
    finished(&deck("TF", 17, "/CV"), reel, 2, 1, kept);
    refused(&deck("TF", 16, "/CV"), reel, 14, 2);
    finished(&deck("TRF", 16, "/CV"), reel, 2, 2, apart);
    refused(&deck("TRF", 10, "/CV"), reel, 14, 2);
    finished(&deck("TF", 16, ""), reel, 2, 1,
        "00000001 0000000C 0000001C 00100000 0006000040C1 0006000040C2");
    let short = reel.replace("00050000C1", "0005000100");
    refused(&deck("TF", 17, ""), &short, 12, 1);
}

/// The twins of a deck are these two records, for this reason, in a room of just their length and not in less.
fn twins_are(deck: &str, reason: usize, one: &str, other: &str) {
    let records = hex(&(one.to_string() + other));
    let length = records.len();
    let expected = Twins { reason, length, records, ..Twins::default() };
    assert_eq!(twins(deck.as_bytes(), length), expected);
    assert_eq!(twins(deck.as_bytes(), 70_000), expected);
    let short = Twins { refusal: 15, place: length, ..Twins::default() };
    assert_eq!(twins(deck.as_bytes(), length - 1), short);
    assert_eq!(twins(deck.as_bytes(), 0), short);
}

#[test]
fn twins_of_the_sample() {
    twins_are(SIX, 2, "00000000 F0F0F0A0", "00000000 F1F0F0A0");
    let keeping = Twins { refusal: 16, ..Twins::default() };
    assert_eq!(twins(FIRST.as_bytes(), 70_000), keeping);
    assert_eq!(twins(FIRST.as_bytes(), 0), keeping);
}

#[test]
fn reasons_where_several_fields_read_the_half() {
    let two = |fs: &str| format!("// U TRF,FF,A=(2,2),B=(2,2)\n// FS {fs}\n// END");
    twins_are(&two("1,2,1/1,(U,2,1),1"), 2, "000A", "100A");
    twins_are(&two("1,(U,2,1),1/1,2,1/2,1,1"), 3, "000A", "100A");
    twins_are(&two("1,2,1/2,1,1/1,(U,2,1),1"), 2, "000A", "100A");
}

#[test]
fn each_reason_and_the_lowest_values() {
    let three = |fs: &str| format!("// U TF,FF,A=(3,3),B=(3,3)\n// FS {fs}\n// END");
    twins_are(&three("1,1,1/3,1,2"), 1, "000000", "001000");
    twins_are(&three("1,(P,3,1),1"), 2, "F0F0A0", "F1F0A0");
    twins_are(&three("1,(P,2,1),1/2,(P,2,2),2"), 2, "F0F0A0", "F1F0A0");
    twins_are(&three("1,1,1/2,(P,2,2),2/1,1,3"), 3, "00F0A0", "00F0B0");
    twins_are(&three("1,1,2/2,(U,2,3),1/1,1,3"), 3, "00000A", "00001A");
    let tail = |fs: &str| format!("// U TF,FV,A=(2,11),B=(2,10),R9\n// FS {fs}\n// END");
    twins_are(&tail("1,2,1"), 4, "0000", "000000");
    twins_are(&tail("1,(P,2,2),1"), 4, "F0A0", "F0A000");
    twins_are(&tail("CV"), 1, "0000", "1000");
    twins_are(&tail("1,1,1"), 1, "0000", "0010");
}

/// A keyed deck of TRF with these FS cards.
fn keyed(a: &str, b: &str, fs: &[&str]) -> String {
    let cards: String = fs.iter().map(|items| format!("// FS {items}\n")).collect();
    format!("// U TRF,FF,A=({a}),B=({b})\n{cards}// END\n")
}

#[test]
fn keyed_decks_of_the_manual() {
    let d1 = keyed("K=10,D=100", "41,41", &["(K,1),10,1/6,15,11/21,(P,5,3),26/77,(P,3,2),29/80,(P,6,4),31", "28,(P,8,5),35/26,(P,2,2),40"]);
    assert_eq!(planned(&d1), (0, 0, 0, 20, 7));
    assert_eq!(planned(&d1.replace("TRF", "TF")), (0, 0, 0, 20, 7));
    let d2 = keyed("K=10,D=100", "110,440", &["(K,1),10,1/1,100,11"]);
    assert_eq!(planned(&d2), (0, 0, 1, 0, 2));
    assert_eq!(planned(&d2.replace("TRF", "TF")), (8, 1, 0, 0, 0));
    assert_eq!(planned(&d2.replace("TRF", "TF").replace("440", "110")), (0, 0, 1, 0, 2));
    assert_eq!(column("// U TC,FF,A=(K=10,D=100),B=(K=10,D=100),OY"), (3, 1, 30));
}

#[test]
fn columns_of_keys() {
    assert_eq!(column("// U A=(K=1,2)"), (3, 1, 13));
    assert_eq!(column("// U A=(K=1)"), (3, 1, 12));
    assert_eq!(column("// U A=(1,D=2)"), (3, 1, 11));
    assert_eq!(column("// U A=(D=2,K=1)"), (3, 1, 9));
    assert_eq!(column("// U A=(k=1,D=2)"), (3, 1, 9));
    assert_eq!(column("// U A=(K=1,D=2,3)"), (3, 1, 16));
    assert_eq!(column("// U A=(K=123456,D=2)"), (3, 1, 16));
    assert_eq!(column("// U A=(K=1,D="), (3, 1, 15));
    assert_eq!(column("// U TC,B=(K=1,D=2)"), (3, 1, 12));
    assert_eq!(column("// U TC\n// FS 1,1,(K,1)"), (3, 2, 11));
    assert_eq!(column("// U TC\n// FS (K,1),1,(K,1)"), (3, 2, 15));
    assert_eq!(column("// U TC\n// FS (K,1)"), (3, 2, 12));
    assert_eq!(column("// U TC\n// FS (K,1,1),1"), (3, 2, 11));
    assert_eq!(column("// U TC\n// FS (D,1),1,1"), (3, 2, 8));
    assert_eq!(column("// U TC\n// FS (K,1)/CV"), (3, 2, 12));
    assert_eq!(column("// U A=(K=1,D=2),TF,A=(3,3)"), (4, 1, 21));
    assert_eq!(column("// U A=(3,3),A=(K=1,D=2)"), (4, 1, 14));
}

#[test]
fn limits_of_keys() {
    let a = |sizes: &str| column(&format!("// U TF,FF,A=({sizes}),B=(1,1)\n// FS (K,1),1,1"));
    assert_eq!(refusal(&keyed("K=1,D=4095", "1,1", &["(K,1),1,1"])), (0, 0));
    assert_eq!(refusal(&keyed("K=4095,D=1", "1,1", &["(K,1),1,1"])), (0, 0));
    assert_eq!(a("K=1,D=4096"), (7, 1, 21));
    assert_eq!(a("K=4095,D=00002"), (7, 1, 24));
    assert_eq!(a("K=4096,D=1"), (7, 1, 24));
    assert_eq!(a("K=4096,D=0"), (7, 1, 24));
    assert_eq!(a("K=4097,D=1"), (7, 1, 17));
    assert_eq!(a("K=00000,D=4097"), (7, 1, 17));
    assert_eq!(a("K=1,D=0"), (7, 1, 21));
    assert_eq!(a("K=1,D=99999"), (7, 1, 21));
    assert_eq!(column("// U B=(0),A=(K=0,D=0),TC,FU"), (7, 1, 9));
    assert_eq!(column("// U A=(K=1,D=4096),B=(0),TC,FU"), (7, 1, 15));
    assert_eq!(column("// U A=(1,1),B=(1,1),TF,FF\n// FS (K,4097),1,1"), (7, 2, 10));
    assert_eq!(column("// U A=(1,1),B=(1,1),TF,FF\n// FS (K,0),(P,0,1),1"), (7, 2, 10));
}

#[test]
fn combinations_with_keys() {
    let u = |operand: &str, fs: &[&str]| {
        let cards: String = fs.iter().map(|items| format!("// FS {items}\n")).collect();
        refusal(&format!("// U {operand}\n{cards}// END\n"))
    };
    for operand in ["TC,FF", "TR,FF", "TF,FV", "TRF,FV", "TC,FV", "TC,FU", "TF,FU"] {
        assert_eq!(u(&format!("{operand},A=(K=1,D=2),B=(3,11)"), &["1,1,1", "CV"]), (8, 1));
    }
    assert_eq!(u("TF,FF,A=(K=1,D=2),B=(3,3)", &["1,1,1"]), (0, 0));
    assert_eq!(u("TF,FF,A=(K=1,D=2),B=(3,6)", &["1,1,1"]), (8, 1));
    assert_eq!(u("TRF,FF,A=(K=1,D=2),B=(3,6)", &["1,1,1"]), (0, 0));
    assert_eq!(u("TRF,FF,A=(K=1,D=2),B=(3,7)", &["1,1,1"]), (8, 1));
    assert_eq!(u("TRF,FF,A=(K=1,D=2),B=(3)", &["1,1,1"]), (8, 1));
    assert_eq!(u("TRF,FF,A=(K=1,D=2),B=(3,6)", &[]), (8, 1));
    assert_eq!(u("TRF,FF,A=(K=1,D=2),B=(3,6)", &["(K,1),1,1", "CV"]), (8, 3));
    assert_eq!(u("TF,FF,A=(3,3),B=(3,3)", &["1,1,1", "(K,1),1,1", "CV"]), (8, 3));
    assert_eq!(u("TF,FF,A=(3,3),B=(3,3)", &["1,1,1", "CV", "(K,1),1,1"]), (8, 3));
    assert_eq!(u("TF,FF,A=(3,4),B=(3,3)", &["(K,1),1,1"]), (8, 1));
    assert_eq!(u("TF,FV,A=(3,11),B=(3,11)", &["CV", "1,1,1/(K,1),1,1"]), (8, 3));
    assert_eq!(u("TR,FF,A=(3,3),B=(3,3)", &["1,1,1", "(K,1),1,1"]), (8, 2));
    assert_eq!(u("TC,FU,A=(3),B=(3)", &["1,1,1", "(K,1),1,1"]), (8, 2));
}

#[test]
fn fields_past_their_part() {
    let fields = |fs: &str| refusal(&keyed("K=2,D=3", "4,4", &[fs]));
    assert_eq!(fields("(K,1),2,1/1,3,1"), (0, 0));
    assert_eq!(fields("(K,1),3,1"), (9, 1));
    assert_eq!(fields("(K,2),1,1/(K,3),1,1"), (9, 2));
    assert_eq!(fields("4,1,1"), (9, 1));
    assert_eq!(fields("3,1,1/2,3,1"), (9, 2));
    assert_eq!(fields("(K,2),(P,1,4),1/(K,2),(P,1,4),2"), (9, 2));
    assert_eq!(fields("(K,2),(U,2,1),1"), (9, 1));
    assert_eq!(fields("(K,1),(P,2,2),3/3,(U,2,1),1"), (9, 2));
    let least = |a: &str, fs: &str| refusal(&keyed(a, "1,1", &[fs]));
    assert_eq!(least("K=4095,D=1", "(K,4095),1,1/1,1,1"), (0, 0));
    assert_eq!(least("K=4095,D=1", "(K,4096),1,1"), (9, 1));
    assert_eq!(least("K=4095,D=1", "(K,1),1,1/2,1,1"), (9, 2));
    assert_eq!(least("K=1,D=4095", "4095,1,1/(K,1),1,1"), (0, 0));
    assert_eq!(least("K=1,D=4095", "4096,1,1"), (9, 1));
}

#[test]
fn halves_count_through_the_key() {
    let lost = |fs: &str| {
        let p = planned(&keyed("K=2,D=2", "4,4", &[fs]));
        (p.0, p.1, p.2, p.3)
    };
    assert_eq!(lost("(K,1),2,1/1,2,3"), (0, 0, 1, 0));
    assert_eq!(lost("1,2,3"), (0, 0, 0, 0));
    assert_eq!(lost("(K,1),1,1/1,2,3"), (0, 0, 0, 2));
    assert_eq!(lost("(K,1),2,1"), (0, 0, 0, 4));
    assert_eq!(lost("(K,1),2,1/1,1,3"), (0, 0, 0, 6));
    assert_eq!(lost("(K,1),2,1/1,2,3/1,1,1"), (0, 0, 0, 0));
    assert_eq!(lost("(K,1),(P,2,1),1/1,2,2"), (0, 0, 0, 1));
    assert_eq!(lost("(K,1),(P,2,1),1/1,2,2/(K,1),1,4"), (0, 0, 1, 0));
    assert_eq!(lost("(K,1),2,1/1,(P,2,1),3"), (0, 0, 0, 5));
    assert_eq!(lost("(K,1),(P,2,2),1/1,(U,1,1),3"), (0, 0, 0, 6));
    assert_eq!(lost("(K,1),(P,2,2),1/(K,1),(U,1,1),3"), (10, 0, 0, 0));
    assert_eq!(lost("1,(P,2,2),1/2,(U,1,1),3"), (10, 6, 0, 0));
}

#[test]
fn parts_in_the_table() {
    let deck = keyed("K=9,D=9", "20,20", &["(K,2),3,1/2,3,4/(K,4),(P,5,3),7", "4,(P,5,3),7/(K,1),(U,1,2),10"]);
    let mut table = [Entry { part: 255, ..Entry::default() }; 6];
    assert_eq!(plan_into(deck.as_bytes(), &mut table[..4]), Planned { refusal: 15, place: 5, column: 0, keeping: 0, lost: 0, fields: 0 });
    assert!(table.iter().all(|entry| entry.part == 255));
    assert_eq!(plan_into(deck.as_bytes(), &mut table).fields, 5);
    let entry = |step, part, r, input, output, t| Entry { step, part, r, input, output, t };
    assert_eq!(table[..5], [entry(0, 1, 2, 3, 3, 1), entry(0, 0, 2, 3, 3, 4), entry(1, 1, 4, 5, 3, 7), entry(1, 0, 4, 5, 3, 7), entry(2, 1, 1, 1, 2, 10)]);
    assert_eq!(table[5].part, 255);
}

#[test]
fn keyed_blocks_are_one_record() {
    let deck = |mode: &str, b: &str| keyed("K=2,D=4", b, &["1,(P,4,3),3/(K,1),2,1"]).replace("TRF", mode);
    let reel = "00000002 00000010 00000016 0000001C C1C2F1F2F3C4 C3C4F5F6F7D8";
    finished(&deck("TF", "5,5"), reel, 2, 2, "00000002 00000010 00000015 0000001A C1C201234C C3C405678D");
    finished(&deck("TRF", "5,10"), reel, 2, 1, "00000001 0000000C 00000016 C1C201234C C3C405678D");
    finished(&deck("TRF", "5,10").replace("B=(5,10)", "B=(5,10),R2"), reel, 1, 1, "00000001 0000000C 00000011 C3C405678D");
    refused(&deck("TRF", "5,10"), "00000001 0000000C 00000018 C1C2F1F2F3C4 C3C4F5F6F7D8", 12, 1);
    refused(&deck("TRF", "5,10"), "00000002 00000010 00000016 0000001B C1C2F1F2F3C4 C3C4F5F6F7", 12, 2);
    refused(&deck("TRF", "5,10"), "00000001 0000000C 00000013 C1C2F1F2F3C4C4", 12, 1);
    refused(&deck("TRF", "5,10"), "00000002 00000010 00000016 0000001C C1C2F1F2F3C4 C3C4F5E6F7D8", 13, 2);
}

#[test]
fn twins_with_their_keys() {
    twins_are(&keyed("K=2,D=1", "2,2", &["(K,1),1,1/1,1,2"]), 1, "0000 00", "0010 00");
    twins_are(&keyed("K=2,D=1", "2,2", &["(K,1),(P,2,1),1/1,1,2"]), 2, "F0A0 00", "F1A0 00");
    twins_are(&keyed("K=1,D=2", "3,3", &["(K,1),1,1/1,2,2/2,1,1"]), 3, "00 0000", "10 0000");
    twins_are(&keyed("K=1,D=2", "2,2", &["(K,1),1,1/1,1,2"]), 1, "00 0000", "00 0010");
    let keeping = Twins { refusal: 16, ..Twins::default() };
    assert_eq!(twins(keyed("K=1,D=1", "2,2", &["(K,1),1,2/1,1,1"]).as_bytes(), 0), keeping);
}

#[test]
fn decks_of_spanned_records() {
    let u = |operand: &str| column(&format!("// U {operand}"));
    assert_eq!(planned("// U TC,FS,A=(9),B=(9)\n// END"), (0, 0, 1, 0, 0));
    assert_eq!(planned("// U TR,FS,A=(32760),B=(9),R65536\n// END"), (0, 0, 1, 0, 0));
    assert_eq!(twins(b"// U TR,FS,A=(9),B=(10)\n// END", 0), Twins { refusal: 16, ..Twins::default() });
    assert_eq!(u("TR,FF,FS,A=(9),B=(9)"), (4, 1, 12));
    assert_eq!(u("TR,FS,A=(9)"), (5, 1, 0));
    assert_eq!(u("TR,FS,A=(8),B=(9)"), (7, 1, 15));
    assert_eq!(u("TC,FS,A=(9),B=(8)"), (7, 1, 21));
    assert_eq!(u("TF,FS,A=(8),B=(9)"), (7, 1, 15));
    assert_eq!(u("TR,FS,A=(9),B=(32761)"), (7, 1, 21));
    assert_eq!(u("TR,FS,A=(4097,1),B=(9)"), (7, 1, 15));
    for operand in ["TF,FS,A=(9),B=(9)", "TRF,FS,A=(9),B=(9)", "TF,FS,A=(1,9),B=(1,9)", "TR,FS,A=(1,9),B=(9)", "TR,FS,A=(9),B=(8,8)",
        "TC,FS,A=(9),B=(10)", "TC,FS,A=(9),B=(9),R2", "TR,FS,A=(K=1,D=8),B=(9)"] {
        assert_eq!(u(operand), (8, 1, 0), "{operand}");
    }
    assert_eq!(u("TR,FS,A=(9),B=(9)\n// FS 1,1,1"), (8, 2, 0));
    assert_eq!(u("TC,FS,A=(9),B=(9)\n// FS CV"), (8, 2, 0));
    assert_eq!(u("TF,FS,A=(9),B=(9)\n// FS CV"), (8, 1, 0));
}

/// A block of segments, each a code and its data.
fn span(segments: &[(u8, &[u8])]) -> Vec<u8> {
    let segment = |(code, data): &(u8, &[u8])| [&[0, data.len() as u8 + 4, *code, 0], *data].concat();
    let bytes: Vec<u8> = segments.iter().flat_map(segment).collect();
    [&[0, bytes.len() as u8 + 4, 0, 0], &bytes[..]].concat()
}

/// A deck of FS.
fn spanned(mode: &str, a: usize, b: usize, first: usize) -> String {
    format!("// U {mode},FS,A=({a}),B=({b}),R{first}\n// END\n")
}

#[test]
fn records_longer_than_a_block() {
    let (twenty, three) = (&[7; 20][..], &[9; 3][..]);
    let whole = reel::write(&[span(&[(0, twenty), (0, three)])]);
    let blocks = [span(&[(1, &[7; 8])]), span(&[(3, &[7; 8])]), span(&[(2, &[7; 4])]), span(&[(0, three)])];
    assert_eq!(blocks[2][..8], [0, 12, 0, 0, 0, 8, 2, 0]);
    let expected = Ran { length: 79, records: 2, blocks: 4, reel: reel::write(&blocks), ..Ran::default() };
    assert_eq!(run(spanned("TR", 99, 16, 1).as_bytes(), &whole, 79), expected);
    assert_eq!(run(spanned("TR", 99, 16, 1).as_bytes(), &whole, 78), Ran { refusal: 15, place: 79, ..Ran::default() });
    assert_eq!(run(spanned("TC", 16, 16, 1).as_bytes(), &expected.reel, 79), expected);
    assert_eq!(run(spanned("TR", 16, 99, 1).as_bytes(), &expected.reel, 65_536).reel, whole);
    let second = run(spanned("TR", 16, 99, 2).as_bytes(), &expected.reel, 65_536);
    assert_eq!((second.records, second.reel), (1, reel::write(&[span(&[(0, three)])])));
}

#[test]
fn what_is_left_of_a_block() {
    let filled = |b, records: &[&[u8]]| {
        let input: Vec<Vec<u8>> = records.iter().map(|data| span(&[(0, data)])).collect();
        run(spanned("TR", 200, b, 1).as_bytes(), &reel::write(&input), 65_536).reel
    };
    let (one, two, eight) = (&[1][..], &[1, 2][..], &[8; 8][..]);
    assert_eq!(filled(17, &[eight, &[3; 3]]), reel::write(&[span(&[(0, eight)]), span(&[(0, &[3; 3])])]));
    assert_eq!(filled(20, &[eight, two]), reel::write(&[span(&[(0, eight)]), span(&[(0, two)])]));
    assert_eq!(filled(21, &[eight, one]), reel::write(&[span(&[(0, eight), (0, one)])]));
    assert_eq!(filled(21, &[eight, two]), reel::write(&[span(&[(0, eight), (1, &[1])]), span(&[(2, &[2])])]));
    assert_eq!(filled(16, &[eight, eight]), reel::write(&[span(&[(0, eight)]), span(&[(0, eight)])]));
    assert_eq!(filled(9, &[&[1, 2, 3]]), reel::write(&[span(&[(1, &[1])]), span(&[(3, &[2])]), span(&[(2, &[3])])]));
    assert_eq!(filled(9, &[]), reel::write(&[]));
}

/// How many codes can be read from the left as records one behind another, and whether the last of these is finished.
fn in_turn(codes: &str) -> (usize, bool) {
    let mut rest = codes;
    loop {
        if let Some(behind) = rest.strip_prefix('0') {
            rest = behind;
            continue;
        }
        let Some(open) = rest.strip_prefix('1') else { return (codes.len() - rest.len(), true) };
        let open = open.trim_start_matches('3');
        let Some(behind) = open.strip_prefix('2') else { return (codes.len() - open.len(), false) };
        rest = behind;
    }
}

/// All lists of up to five codes, cut into blocks in every way.
#[test]
fn segments_in_turn_and_out_of_turn() {
    let mut codes: Vec<String> = vec![String::new()];
    let mut right = 0;
    for length in 1..=5 {
        codes = codes.iter().flat_map(|list| "0123".chars().map(move |code| format!("{list}{code}"))).collect();
        for (list, cuts) in codes.iter().flat_map(|list| (0..1 << (length - 1)).map(move |cuts: usize| (list, cuts))) {
            let block_of = |at: usize| 1 + (cuts & ((1 << at) - 1)).count_ones() as usize;
            let segments: Vec<(usize, u8)> = list.bytes().enumerate().map(|(at, code)| (block_of(at), code - b'0')).collect();
            let block = |part: &[(usize, u8)]| span(&part.iter().map(|(_, code)| (*code, &[5][..])).collect::<Vec<_>>());
            let input = reel::write(&segments.chunk_by(|one, next| one.0 == next.0).map(block).collect::<Vec<_>>());
            let ran = run(spanned("TC", 200, 200, 1).as_bytes(), &input, 65_536);
            let records = list.bytes().filter(|code| [b'0', b'2'].contains(code)).count();
            match in_turn(list) {
                (count, true) if count == length => {
                    right += 1;
                    assert_eq!((ran.refusal, ran.records, ran.reel), (0, records, input), "{list}");
                }
                (count, _) => assert_eq!((ran.refusal, ran.place), (12, block_of(count.min(length - 1))), "{list} {cuts}"),
            }
        }
    }
    assert_eq!(right, 1 + 2 * 2 + 4 * 4 + 8 * 8 + 16 * 16);
}

#[test]
fn the_longest_spanned_record() {
    let segments = |lengths: &[usize]| -> Vec<Vec<u8>> {
        let last = lengths.len() - 1;
        let code = |at| if last == 0 { 0 } else if at == 0 { 1 } else if at == last { 2 } else { 3 };
        lengths.iter().enumerate().map(|(at, length)| blocks::behind_word(0, &blocks::behind_word(code(at), &vec![6; *length]))).collect()
    };
    let ran = |mode, lengths: &[usize]| {
        let ran = run(spanned(mode, 32_760, 32_760, 1).as_bytes(), &reel::write(&segments(lengths)), 65_536);
        (ran.refusal, ran.place, ran.length, ran.records, ran.blocks)
    };
    assert_eq!(ran("TR", &[32_752]), (0, 0, 32_772, 1, 1));
    assert_eq!(ran("TR", &[32_751, 1]), (0, 0, 32_772, 1, 1));
    assert_eq!(ran("TC", &[32_751, 1]), (0, 0, 32_784, 1, 2));
    assert_eq!(ran("TR", &[1, 32_000, 751]), (0, 0, 32_772, 1, 1));
    assert_eq!(ran("TR", &[32_753]), (12, 1, 0, 0, 0));
    assert_eq!(ran("TR", &[32_752, 1]), (12, 2, 0, 0, 0));
    assert_eq!(ran("TC", &[1, 32_752, 1]), (12, 2, 0, 0, 0));
    assert_eq!(ran("TR", &[1, 32_751, 1, 1]), (12, 3, 0, 0, 0));
    let two = [segments(&[32_752]), segments(&[32_700])].concat();
    let long = run(spanned("TR", 32_760, 9, 1).as_bytes(), &reel::write(&two), 65_536);
    assert_eq!((long.refusal, long.place), (15, 8 + 13 * (32_752 + 32_700)));
}

/// Records of up to so many bytes.
fn drawn_records(chance: &mut Chance, longest: usize) -> Vec<blocks::Record> {
    let any = |number, chance: &mut Chance| {
        let data = (0..chance.range(1, longest)).map(|_| chance.byte()).collect();
        blocks::Record { number, block: 0, data }
    };
    (1..=chance.below(6)).map(|number| any(number, chance)).collect()
}

/// The data of the records of a reel.
fn data_of(format: &str, g: usize, input: &[u8]) -> Vec<Vec<u8>> {
    let plan = plan::accepted(format!("// U TC,{format},A=({g}),B=({g})\n// END").as_bytes()).expect("a plan");
    let blocks = reel::read(input).expect("a reel");
    blocks::records(&plan, plan.a, &blocks).expect("records").into_iter().map(|record| record.data).collect()
}

/// What is written reads back; written again it is the same, from whatever blocks; a block is left with fewer than 5 bytes, but the last.
#[test]
fn spanned_records_read_back() {
    let mut chance = Chance::new(29);
    for _ in 0..2_000 {
        let (g, other) = (chance.range(9, 60), chance.range(9, 60));
        let records = drawn_records(&mut chance, 50);
        let data: Vec<Vec<u8>> = records.iter().map(|record| record.data.clone()).collect();
        let written = reel::write(&filling::filled(g, &records));
        let first = chance.range(1, records.len() + 1);
        assert_eq!(data_of("FS", g, &written), data);
        let again = |a, b, input: &[u8]| run(spanned("TR", a, b, 1).as_bytes(), input, 65_536);
        assert_eq!(again(g, g, &written).reel, written);
        let through = again(g, other, &written).reel;
        assert_eq!(data_of("FS", other, &through), data);
        assert_eq!(again(other, g, &through).reel, written);
        let behind = run(spanned("TR", g, other, first).as_bytes(), &written, 65_536);
        assert_eq!((behind.records, data_of("FS", other, &behind.reel)), (data.len() + 1 - first, data[first - 1..].to_vec()));
        let blocks = reel::read(&written).expect("a reel");
        assert!(blocks.iter().rev().skip(1).all(|block| block.len() + 4 >= g && block.len() <= g));
    }
}

/// A reel of FV is one of FS whose segments are whole, and the other way round.
#[test]
fn variable_reels_are_spanned_reels() {
    let mut chance = Chance::new(30);
    for _ in 0..1_000 {
        let records = drawn_records(&mut chance, 20);
        let whole = |record: &blocks::Record| (0, record.data.clone());
        let of_blocks: Vec<Vec<(u8, Vec<u8>)>> = records.chunks(chance.range(1, 3)).map(|some| some.iter().map(whole).collect()).collect();
        let lent = |block: &Vec<(u8, Vec<u8>)>| span(&block.iter().map(|(code, data)| (*code, &data[..])).collect::<Vec<_>>());
        let input = reel::write(&of_blocks.iter().map(lent).collect::<Vec<_>>());
        assert_eq!(data_of("FS", 200, &input), data_of("FV", 200, &input));
        let copied = |format| run(format!("// U TC,{format},A=(40),B=(40)\n// END").as_bytes(), &input, 65_536);
        assert_eq!(copied("FS"), copied("FV"));
    }
}

/// A reel of blocks in hex, with a bar between.
fn reel_of(blocks: &str) -> Vec<u8> {
    let bytes: Vec<Vec<u8>> = blocks.split('|').map(hex).filter(|block| !block.is_empty()).collect();
    reel::write(&bytes)
}

/// Yes and the number of a judgement that is not refused.
fn verdict(deck: &str, ours: &[u8], theirs: &[u8]) -> (usize, usize) {
    let judged = judge(deck.as_bytes(), ours, theirs);
    assert_eq!((judged.refusal, judged.place, judged.column), (0, 0, 0), "{deck}");
    (judged.yes, judged.number)
}

const TRUE: (usize, usize) = (1, 0);

fn not_judged(deck: &str, ours: &[u8], theirs: &[u8], refusal: usize, place: usize, column: usize) {
    assert_eq!(judge(deck.as_bytes(), ours, theirs), Judged { refusal, place, column, ..Judged::default() }, "{deck}");
}

#[test]
fn what_the_sample_writes_is_true() {
    let outputs = ["C1C2C3C401234C", "C1C2C3C409234C"];
    let judged = |blocks: &str| verdict(FIRST, &hex(P7), &reel_of(blocks));
    assert_eq!(judged(&outputs.join("|")), TRUE);
    assert_eq!(judged(&format!("{}|{}", outputs[1], outputs[0])), (0, 1));
    assert_eq!(judged(&format!("{}|{}", outputs[0], outputs[0])), (0, 2));
    assert_eq!(judged("C1C2C3C401234C|C1C2C3C409234F"), (0, 2));
    assert_eq!(judged(outputs[0]), (0, 2));
    assert_eq!(judged(""), (0, 1));
    assert_eq!(verdict(SIX, &hex(P7), &reel_of("C1C2C3C4234C|C1C2C3C4234C")), TRUE);
    not_judged(FIRST, &hex(P7), &reel_of(&outputs.concat()), 18, 1, 0);
    not_judged(FIRST, &hex(P7), &reel_of("C1C2C3C401234C|C1C2C3C4234C"), 18, 2, 0);
}

#[test]
fn counts_that_differ() {
    let deck = "// U TR,FF,A=(1,2),B=(1,3)\n// END\n";
    let judged = |ours: &str, theirs: &str| verdict(deck, &reel_of(ours), &reel_of(theirs));
    assert_eq!(judged("C1C2|C3C4|C5", "C1C2C3|C4C5"), TRUE);
    assert_eq!(judged("C1C2|C3C4|C5", "C1|C2C3|C4|C5"), TRUE);
    assert_eq!(judged("C1C2|C3C4|C5", "C1C2C3"), (0, 4));
    assert_eq!(judged("C1C2|C3", "C1C2C3|C4C5"), (0, 4));
    assert_eq!(judged("C1C2|C3", "C1C2|C4|C5"), (0, 3));
    assert_eq!(judged("C1C1|C1", "C1C1"), (0, 3));
    assert_eq!(judged("", "C1"), (0, 1));
    assert_eq!(judged("C1", ""), (0, 1));
    assert_eq!(judged("", ""), TRUE);
}

#[test]
fn positions_that_nothing_writes() {
    let deck = "// U TRF,FF,A=(3,3),B=(6,6)\n// FS 1,1,2/2,(P,2,2),4/1,1,4\n// END\n";
    let judged = |theirs: &str| verdict(deck, &reel_of("C1F2C3"), &reel_of(theirs));
    assert_eq!(judged("40C140C13C40"), TRUE);
    assert_eq!(judged("00C1FFC13C99"), TRUE);
    for wrong in ["40C240C13C40", "404040C13C40", "40C140023C40", "40C140C13F40", "40C140C12C40", "40C140404040"] {
        assert_eq!(judged(wrong), (0, 1), "{wrong}");
    }
}

#[test]
fn fills_zones_and_signs_are_written() {
    let judged = |step: char, ours: &str, theirs: &str| {
        verdict(&format!("// U TRF,FF,A=(1,1),B=(3,3)\n// FS 1,({step},1,3),1\n// END"), &reel_of(ours), &reel_of(theirs))
    };
    assert_eq!(judged('P', "C4", "00004C"), TRUE);
    for wrong in ["10004C", "01004C", "00014C", "40004C", "00004F", "00005C"] {
        assert_eq!(judged('P', "C4", wrong), (0, 1), "{wrong}");
    }
    assert_eq!(judged('U', "4C", "F0F0C4"), TRUE);
    for wrong in ["40F0C4", "E0F0C4", "F1F0C4", "F0F1C4", "F0F0F4", "F0F0C5"] {
        assert_eq!(judged('U', "4C", wrong), (0, 1), "{wrong}");
    }
}

/// A block of FV of these records in hex, with a blank between.
fn variable(records: &str) -> Vec<u8> {
    let words: Vec<u8> = records.split(' ').flat_map(|data| blocks::behind_word(0, &hex(data))).collect();
    blocks::behind_word(0, &words)
}

#[test]
fn tails_and_lengths() {
    let deck = |cv: &str| format!("// U TRF,FV,A=(2,30),B=(3,30)\n// FS 1,2,2{cv}\n// END\n");
    let ours = reel::write(&[variable("C1C2 C3C4D1D2")]);
    let judged = |cv: &str, theirs: &str| verdict(&deck(cv), &ours, &reel::write(&[variable(theirs)]));
    assert_eq!(judged("", "40C1C2 00C3C4"), TRUE);
    assert_eq!(judged("", "40C1C2 40C3C4D1D2"), (0, 2));
    assert_eq!(judged("", "40C1C240 40C3C4"), (0, 1));
    assert_eq!(judged("/CV", "40C1C2 FFC3C4D1D2"), TRUE);
    assert_eq!(judged("/CV", "40C1C2 40C3C4D1D3"), (0, 2));
    assert_eq!(judged("/CV", "40C1C2 40C3C4D1"), (0, 2));
    assert_eq!(judged("/CV", "40C1C2 40C3C4D1D240"), (0, 2));
    assert_eq!(judged("/CV", "40C1C2 40C3C4"), (0, 2));
    not_judged(&deck(""), &ours, &reel::write(&[variable("40C1C2"), variable("40C3")]), 18, 2, 0);
    let carried = |theirs: &str| verdict("// U TR,FV,A=(30),B=(20)\n// END", &ours, &reel::write(&[variable(theirs)]));
    assert_eq!(carried("C1C2 C3C4D1D2"), TRUE);
    assert_eq!(carried("C1C2 C3C4D1"), (0, 2));
    assert_eq!(carried("C1 C3C4D1D2"), (0, 1));
}

#[test]
fn judged_from_r_on() {
    let deck = |r| format!("// U TR,FF,A=(1,9),B=(1,9),R{r}\n// END");
    let judged = |r, theirs: &str| verdict(&deck(r), &reel_of("C1C2C3C4"), &reel_of(theirs));
    assert_eq!(judged(3, "C3C4"), TRUE);
    assert_eq!(judged(3, "C4C4"), (0, 1));
    assert_eq!(judged(3, "C3C5"), (0, 2));
    assert_eq!(judged(3, "C1C2C3C4"), (0, 1));
    assert_eq!(judged(5, ""), TRUE);
    assert_eq!(judged(5, "C5"), (0, 1));
    let packs = |r| format!("// U TRF,FF,A=(1,9),B=(1,9),R{r}\n// FS 1,(P,1,1),1\n// END");
    assert_eq!(verdict(&packs(2), &reel_of("00C2"), &reel_of("2C")), TRUE);
    not_judged(&packs(1), &reel_of("00C2"), &reel_of("002C"), 13, 1, 0);
}

#[test]
fn refusals_before_a_judgement() {
    let packs = "// U TRF,FF,A=(1,2),B=(1,2)\n// FS 1,(P,1,1),1\n// END";
    let (good, out) = (reel_of("C1C2"), reel_of("1C2C"));
    let no_reel = &out[..out.len() - 1];
    not_judged(packs, &[], no_reel, 11, 0, 0);
    not_judged(packs, &reel_of("C1C2C3"), no_reel, 12, 1, 0);
    not_judged(packs, &reel_of("C1|0000"), no_reel, 13, 2, 0);
    not_judged(packs, &good, no_reel, 17, 0, 0);
    not_judged(packs, &good, &[], 17, 0, 0);
    not_judged(packs, &good, &reel_of("00|1C2C3C"), 18, 2, 0);
    let narrow = "// U TR,FV,A=(30),B=(10)\n// END";
    let long = reel::write(&[variable("C1 C1C2C3")]);
    not_judged(narrow, &long, no_reel, 14, 2, 0);
    not_judged(narrow, &long, &long, 14, 2, 0);
    not_judged(narrow, &reel::write(&[variable("C1 C2")]), &reel::write(&[variable("C2"), variable("C1 C2")]), 18, 2, 0);
}

#[test]
fn only_tr_and_trf_are_judged() {
    let refused = |cards: &str, number, place, column| not_judged(&format!("{cards}\n// END"), &[], &[], number, place, column);
    refused("// U TC,FF,A=(1,1),B=(1,1)", 8, 1, 0);
    refused("// U TC,FF,A=(1,1),B=(1,1)\n// FS 1,1,1", 8, 1, 0);
    refused("// U TC,FS,A=(9),B=(9)\n// FS CV", 8, 1, 0);
    refused("// U TF,FF,A=(1,1),B=(1,1)\n// FS 1,1,1", 8, 1, 0);
    refused("// U TF,FF,A=(1,1),B=(1,1)\n// FS 1,1,1\n// FS CV", 8, 1, 0);
    refused("// U TF,FF,A=(1,1),B=(1,1)\n// FS 1,2,1", 8, 1, 0);
    refused("// U TF,FF,A=(1,1),B=(1,1),R0\n// FS 1,1,1", 7, 1, 29);
    refused("// U TC,TC", 4, 1, 9);
    refused("// U TC,x", 3, 1, 9);
    refused("// U TR,FF,A=(1,1),B=(1,1)\n// FS 1,1,1", 8, 2, 0);
    refused("// U TRF,FF,A=(1,1),B=(1,1)\n// FS 1,1,1\n// FS CV", 8, 3, 0);
    refused("// U TRF,FF,A=(1,1),B=(1,1)\n// FS 1,1,1/1,2,1", 9, 2, 0);
    refused("// U TRF,FF,A=(2,2),B=(3,3)\n// FS 1,(P,2,2),1/1,(U,1,1),3", 10, 0, 0);
    refused("// U TRF,FF,A=(1,1),B=(1,1)\n// FS 1,1,1", 11, 0, 0);
}

#[test]
fn judged_with_keys() {
    let deck = keyed("K=2,D=4", "6,12", &["1,(P,4,3),4/(K,1),2,1"]);
    let ours = reel_of("C1C2F1F2F3C4|C3C4F5F6F7D8");
    assert_eq!(verdict(&deck, &ours, &reel_of("C1C24001234C C3C44005678D")), TRUE);
    assert_eq!(verdict(&deck, &ours, &reel_of("C1C20001234C|C3C4FF05678D")), TRUE);
    assert_eq!(verdict(&deck, &ours, &reel_of("C1C24001234C|C3C54005678D")), (0, 2));
    not_judged(&deck, &reel_of("C1C2F1F2F3C4 C3C4F5F6F7D8"), &[], 12, 1, 0);
}

#[test]
fn judged_records_longer_than_a_block() {
    let deck = spanned("TR", 99, 16, 1);
    let ours = reel::write(&[span(&[(0, &[7; 20]), (0, &[9; 3])])]);
    let judged = |blocks: &[Vec<u8>]| verdict(&deck, &ours, &reel::write(blocks));
    let written = run(deck.as_bytes(), &ours, 65_536).reel;
    assert_eq!(verdict(&deck, &ours, &written), TRUE);
    let three = span(&[(0, &[9; 3])]);
    assert_eq!(judged(&[span(&[(1, &[7; 2]), (3, &[7; 2])]), span(&[(3, &[7; 8])]), span(&[(2, &[7; 8])]), three.clone()]), TRUE);
    assert_eq!(judged(&[span(&[(1, &[7; 8])]), span(&[(3, &[7; 8])]), span(&[(2, &[7; 3])]), three.clone()]), (0, 1));
    assert_eq!(judged(&[span(&[(1, &[7; 8])]), span(&[(3, &[7; 8])]), span(&[(2, &[7; 4])])]), (0, 2));
    let refused = |blocks: &[Vec<u8>], place| not_judged(&deck, &ours, &reel::write(blocks), 18, place, 0);
    refused(&[span(&[(1, &[7; 8])]), span(&[(3, &[7; 8])])], 2);
    refused(&[span(&[(1, &[7; 8])]), three.clone()], 2);
    refused(&[span(&[(1, &[7; 8])]), span(&[(2, &[7; 9])])], 2);
}

/// Document 02 has no 15 for it: whole records in blocks of their own take less room than ours, which are cut.
#[test]
fn a_true_reel_shorter_than_ours() {
    let records: Vec<Vec<u8>> = (0..16).map(|at| blocks::behind_word(0, &vec![at; 4_083])).collect();
    let ours: Vec<Vec<u8>> = records.chunks(8).map(|some| blocks::behind_word(0, &some.concat())).collect();
    let theirs: Vec<Vec<u8>> = records.iter().map(|record| blocks::behind_word(0, record)).collect();
    let (deck, ours, theirs) = (spanned("TR", 32_760, 4_096, 1), reel::write(&ours), reel::write(&theirs));
    let ran = run(deck.as_bytes(), &ours, 65_536);
    assert_eq!((ran.refusal, ran.place, theirs.len()), (15, 65_588, 65_528));
    assert_eq!(verdict(&deck, &ours, &theirs), TRUE);
}

#[test]
fn keeping_is_what_the_outputs_show() {
    let items = ["1,1,1", "2,2,2", "3,1,1", "1,(P,3,2),2", "1,(P,2,1),4", "2,(P,2,3),1",
        "1,(U,2,3),1", "2,(U,1,1),3", "2,(U,2,2),2", "1,(U,3,4),1", "1,3,1"];
    for one in items {
        for two in items {
            for three in items {
                let deck = format!("// U TF,FF,A=(3,3),B=(4,4)\n// FS {one}/{two}/{three}\n// END");
                if let Ok(plan) = plan::accepted(deck.as_bytes()) {
                    assert_eq!(lost_by_trying(&plan), plan::lost(&plan), "{deck}");
                }
            }
        }
    }
}

/// The lowest half of which another permitted value gives the same output record.
fn lost_by_trying(plan: &plan::Plan) -> Option<usize> {
    let output = |record: &[u8]| halves::finished(&plan.fields, 4, parts::halves_of(plan.a, record), |value| value);
    let base: Vec<u8> = plan.values.iter().map(|v| v.trailing_zeros() as u8).collect();
    (0..base.len()).find(|half| {
        let mut other = base.clone();
        other[*half] = 15 - plan.values[*half].leading_zeros() as u8;
        other != base && output(&other) == output(&base)
    })
}
