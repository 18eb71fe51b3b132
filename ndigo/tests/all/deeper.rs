//! A longer look: what it finds is better, checked, and as good as what was planted.
use crate::common::*;
use ::deeper::planted::{Planted, Random, DEFAULTS};
use ::deeper::Proposal;
use ndigo::asked::read;
use ndigo::deeper::{look, Check, Ended, Outcome};
use ndigo::model::{Sheet, MAXPATHS};
use ndigo::search::answers;
use ndigomarr::Answer;
use std::time::Duration;

/// Long enough for an emulator.
const LONG: Duration = Duration::from_secs(60);

fn of(text: &str) -> Sheet {
    read(text.as_bytes(), false).ok().unwrap().0
}

fn answered(sheet: &Sheet) -> Answer {
    answers(sheet).unwrap().remove(0).unwrap()
}

fn seed() -> u64 {
    let seed = std::time::SystemTime::now().duration_since(std::time::UNIX_EPOCH).unwrap().as_nanos() as u64;
    println!("seed {seed}");
    seed
}

#[test]
fn the_better_path_stands_below_the_answer() {
    let sheet = example("mistake-stopped-early");
    let outcome = ask("deeper", &sheet, &[]);
    assert_eq!((outcome.status, outcome.err.as_str()), (0, ""));
    let proved = ask("answer", &sheet, &[]).text();
    let more = outcome.text().strip_prefix(&proved).unwrap().to_string();
    insta::assert_snapshot!(more, @r###"
    deeper  a BETTER PATH: 2 of 3 rows, in this order:
              left   10 to 10, size 4 (line 11 of the sheet, row 0 from 0)
              right  30 to 30, size 4 (line 13 of the sheet, row 2 from 0)
    score   1 (sizesim 1, seqsim 1)
    parts   the one part was used, none was left out
    checked found outside the proved search; checked by it: a path of this table, with exactly this score
    looked  its bounds, which are not proved, rule out every path that scores higher than this by over 0.000001
    "###);
}

#[test]
fn where_there_is_nothing_to_look_for() {
    let last = |sheet: &str| ask("deeper", sheet, &[]).text().lines().last().unwrap().to_string();
    assert_eq!(last(GOOD), "deeper  nothing to look for: all paths were scored, and none is better");
    let alone = last(&format!("{GOOD}setting\tvalue\none-to-one\tyes\n"));
    assert_eq!(alone, "deeper  nothing was looked for: one-to-one asks for rows alone, and all were tried");
    let refused = ask("deeper", GOOD.replace("10\t14", "15\t14"), &[]);
    assert_eq!((refused.status, refused.text().contains("deeper")), (1, false), "{}", refused.text());
    let several = format!("{HEADINGS}A\t10\t14\t-4\tAGCT\nB\t30\t30\t5\tCCCCC\n\npart\thaplotype\tsize\tletters\nP\tx\t5\tCCCCC\nQ\ty\t-4\tAGCT\nsetting\tvalue\nmaxpaths\t0\n");
    let text = ask("deeper", several, &[]).text();
    assert_eq!((text.matches("haplotype ").count(), text.matches("deeper  a BETTER PATH: 1 of 2 rows").count(), text.matches("\nchecked ").count()), (2, 2, 2), "{text}");
}

#[test]
fn no_better_path_is_said_too() {
    // the parts cancel out, and no path but the empty one, which is scored first, has size 0
    let text = ask("deeper", format!("{GOOD}Q\t-5\tCCCCC\nsetting\tvalue\nmaxpaths\t0\nseqsim\t0\nfnmax\t0\n"), &[]).text();
    let below = "deeper  no better path was found\nlooked  its bounds, which are not proved, rule out every path that scores higher than the answer by over 0.000001\n";
    assert!(text.ends_with(below), "{text}");
}

#[test]
fn a_time_must_be_a_time() {
    for wrong in ["0", "-1", "NaN", "inf", "86401", "soon"] {
        let outcome = ask("deeper", GOOD, &[&format!("--seconds={wrong}")]);
        assert_eq!((outcome.status, outcome.out.len()), (2, 0), "{wrong}");
        assert!(outcome.err.contains("write a number of seconds above 0 and up to 86400, such as 0.5 or 60"), "{}", outcome.err);
    }
    assert_eq!(ask("deeper", GOOD, &["--seconds", "0.5"]).status, 0);
    let alone = call(&["batch", "-", "--out", "x.tsv", "--seconds", "2"], b"");
    assert_eq!(alone.status, 2);
    assert!(alone.err.contains("--deeper"), "{}", alone.err);
}

#[test]
fn the_check_says_no() {
    let text = format!("{HEADINGS}A\t10\t14\t-4\tAGCT\nB\t12\t12\t5\tCCCCC\nC\t30\t30\t5\tCCCCC\n\npart\tsize\tletters\nP\t5\tCCCCC\nQ\t5\tCCCCC\n");
    let check = |text: &str| Check::of(&of(text)).unwrap();
    let says = |text: &str, rows: &[usize], positions: &[usize], score: f32| check(text).says_yes(&Proposal { rows: rows.to_vec(), positions: positions.to_vec(), score });
    assert!(says(&text, &[1, 2], &[0, 1], 1.0));
    assert!(says(&text, &[2], &[0], 0.9) && says(&text, &[2], &[1], 0.9));
    let no: [(&[usize], &[usize], f32); 12] = [
        (&[1, 2], &[0, 1], 0.99), (&[1, 2], &[0, 1], f32::NAN), (&[2, 1], &[0, 1], 1.0), (&[1, 1], &[0, 1], 1.0), (&[1, 3], &[0, 1], 1.0), (&[0, 1], &[0, 1], 1.0), (&[0], &[0, 1], 1.0),
        (&[1, 2], &[1, 0], 1.0), (&[1, 2], &[0, 2], 1.0), (&[1, 2], &[], 1.0), (&[], &[0, 1], 0.0), (&[2], &[0], 0.900_001),
    ];
    for (rows, positions, score) in no {
        assert!(!says(&text, rows, positions, score), "{rows:?} {positions:?} {score}");
    }
    let whole = format!("{text}setting\tvalue\npileupmax\t2\n");
    assert!(says(&whole, &[1, 2], &[0, 1], 1.0) && !says(&whole, &[2], &[0], 0.9));
}

#[test]
fn a_refusal_is_a_no() {
    let says = |start: u32| {
        let sheet = of(&format!("{HEADINGS}A\t{start}\t14\t5\tCCCCC\n\npart\tsize\tletters\nP\t5\tCCCCC\n"));
        Check::of(&sheet).unwrap().says_yes(&Proposal { rows: vec![0], positions: vec![0], score: 1.0 })
    };
    assert!(says(14) && !says(15));
}

/// The windows of N are the row's alone: read as A they are too many, not read they are none.
#[test]
fn letters_are_read_as_the_sheet_says() {
    for (letters, wanted) in [(0, None), (1, Some(1.0))] {
        let sheet = of(&format!("{HEADINGS}A\t10\t10\t5\tCCCCCNNNNNNNN\n\npart\tsize\tletters\nP\t5\tCCCCC\nsetting\tvalue\nmaxpaths\t0\nletters\t{letters}\n"));
        let proposal = Proposal { rows: vec![0], positions: vec![0], score: 1.0 };
        assert_eq!(Check::of(&sheet).unwrap().says_yes(&proposal), wanted.is_some(), "letters {letters}");
        let Outcome::Looked(looked) = look(&sheet, &answered(&sheet), LONG, &mut |_| {}) else { panic!("nothing to look for") };
        assert_eq!((looked.better.map(|better| better.answer.score), looked.ended), (wanted, Ended::RuledOut), "letters {letters}");
    }
}

/// Stopped at once, the look finds what the search finds when it scores all paths: the same score, bit for bit.
#[test]
fn it_comes_to_what_all_paths_come_to() {
    let mut random = Random(seed());
    for _ in 0..12 {
        let variants = random.within(4, 9) as usize;
        let (planted, ..) = Planted::findable(&mut random, variants, 4, DEFAULTS);
        let mut sheet = of(&planted.sheet());
        let all = answered(&sheet);
        assert!(all.complete);
        sheet.settings.words[MAXPATHS] = 0;
        let first = answered(&sheet);
        let Outcome::Looked(looked) = look(&sheet, &first, LONG, &mut |_| {}) else { panic!("nothing to look for") };
        assert_eq!(looked.ended, Ended::RuledOut);
        let best = looked.better.map_or(first.score, |better| better.answer.score);
        assert_eq!(best.to_bits(), all.score.to_bits(), "{best} and {}; {}", all.score, planted.sheet());
    }
}

/// Whether the answer, or what is found below it, scores at least what the truth scores; never less than the answer.
fn right(random: &mut Random, variants: usize) -> bool {
    let (planted, _, wanted) = Planted::findable(random, variants, 4, DEFAULTS);
    let sheet = of(&planted.sheet());
    let answer = answered(&sheet);
    let Outcome::Looked(looked) = look(&sheet, &answer, LONG, &mut |_| {}) else { return answer.score >= wanted };
    assert!(!matches!(looked.ended, Ended::Doubted(_)), "{}", planted.sheet());
    let Some(better) = looked.better else { return answer.score >= wanted };
    assert!(better.answer.score > answer.score);
    assert!(Check::of(&sheet).unwrap().says_yes(&Proposal { rows: better.answer.rows.clone(), positions: better.used, score: better.answer.score }));
    better.answer.rows == planted.truth || better.answer.score >= wanted
}

#[test]
fn planted_tables() {
    let mut random = Random(seed());
    for (least, most, tables) in [(12, 16, 8), (64, 64, 3)] {
        let found = (0..tables).filter(|_| { let variants = random.within(least, most) as usize; right(&mut random, variants) }).count();
        assert!(found + 1 >= tables, "{found} of {tables} tables of {least} to {most} variants");
    }
}
