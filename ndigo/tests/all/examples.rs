//! The examples and the page for the first week: ndigo's answers, the program's, and what the page prints.
use crate::common::*;
use std::path::PathBuf;

/// Rows, score, sizesim, seqsim, full, scored, complete; none for a refusal.
type Lines = Result<(&'static str, u32, u32, u32, bool, u32, bool), u32>;

const ONE: u32 = 0x3f80_0000;

/// Each example's answer, by the documents' rules. Insertions have no length here, and none lies inside another row.
const ANSWERS: [(&str, Lines); 15] = [
    // 13 to 12: a start is greater than its end. The deletion 5 to 9 is none of the rules' business.
    ("counted-from-1", Err(7)),
    // N: of the 16 sets of four rows, the 4 that hold both Reef-B and Reef-C (124 < 126) are no chains: 12. The haplotype has size
    // 10. Only Reef-A with Wall-D has size 10, and with the same letters: n is 0 and each window's |x| + |y| is 2 or more, so seqsim
    // is 1.0. Two parts, two rows, none left out: no penalty, 1.0. A list that leaves parts out loses 0.1 for each.
    ("first-dive", Ok(("0 3", ONE, ONE, ONE, true, 12, true))),
    // Two rows that do not overlap: 4 chains. Both together have the parts' sizes (-5 + 6) and letters, so both similarities are 1.0.
    ("from-bed", Ok(("0 1", ONE, ONE, ONE, true, 4, true))),
    // Reef-B has three letters and k is 4: no window, so its row of features is all zero. The part of three letters would be taken.
    ("mistake-few-letters", Err(16)),
    // Sizes 2, 3 and 7; the haplotype's is 3. No other set of rows comes within 0.9 of 3 (2/3 is the nearest), so only row 1 scores.
    // Three rows without overlaps: 8 chains.
    ("mistake-names", Ok(("1", ONE, ONE, ONE, true, 8, true))),
    // The same rows by depth: their starts are 20, 30 and 10, and 10 is less than 30.
    ("mistake-names-by-depth", Err(8)),
    // Two paths are scored: the empty one, and then the nearest to size 8, row 1 with distance 0. Its sizesim is 1.0. C: 4 and 8,
    // T: 4 and 0, so n = 4 + 4, d = 12 + 4 and seqsim = 1 - 8/16. (0.5 + 1) / 2 = 0.75.
    ("mistake-stopped-early", Ok(("1", 0x3f40_0000, ONE, 0x3f00_0000, true, 2, false))),
    // All 8 chains: rows 0 and 2 have size 8 and eight Cs, so both similarities are 1.0; gpenalty is 0. With row 1 no chain has
    // eight Cs and nothing else.
    ("mistake-stopped-early-mended", Ok(("0 2", ONE, ONE, ONE, true, 8, true))),
    // The rows overlap (102 < 104), so there are 3 chains: none, 0, 1. Highest node first: row 1 is queued before row 0. Both have
    // distance 0; the earliest queued is taken first, so row 0 is scored last, and of two equal scores the later one stays.
    // Features are -4 and -4: n is 0, seqsim 1.0.
    ("mistake-tie", Ok(("0", ONE, ONE, ONE, true, 3, true))),
    // One-to-one: the latest node among equals is row 1; V + 2 nodes are tried.
    ("mistake-tie-one-to-one", Ok(("1", ONE, ONE, ONE, true, 4, true))),
    // The read's Ns as A: its windows are GC CT TA AA AT TC CG. Reef-A has CC for CG: n = 2, d = 14. Reef-B has TG GG GT for TA AA AT:
    // n = 6. So row 0, seqsim 1 - 2/14, and half of that and 1. Both rows together have twice the size. Two rows without overlaps: 4 chains.
    ("n-counts-as-a", Ok(("0", 0x3f6d_b6dc, ONE, 0x3f5b_6db7, true, 4, true))),
    // Without the windows that hold an N the read has GC CT TC CG. Reef-B has all of them and three more: n = 3, d = 11. Reef-A lacks CG
    // and has four more: n = 5. So row 1, seqsim 1 - 3/11.
    ("n-left-out", Ok(("1", 0x3f5d_1746, ONE, 0x3f3a_2e8c, true, 4, true))),
    // The whole haplotype has size 7, and 4/7 is under 0.9. Leaving out the noise (one part, fpenalty 0.25): size 4 and four Cs, so
    // (1 + 1) / 2 - 0.25 = 0.75; one part, one row. The other list has size 3, and 3/4 is under 0.9.
    ("part-left-out", Ok(("0", 0x3f40_0000, ONE, ONE, false, 2, true))),
    // sizesim 1.5 is outside 0 to 1, and 2 comes before 7 and 8.
    ("refused", Err(2)),
    // The paper's own seven lines, and its row again as its record.
    ("worked-example", Ok(("0", ONE, ONE, ONE, true, 4, true))),
];

/// The same of each haplotype, of an example that has several.
const OF_SEVERAL: [(&str, [Lines; 2]); 1] = [
    // Anna's reads are the first dive's. Ben's is Reef-C, of the 12 chains: size -6 and the same letters, so both similarities are 1.0;
    // Reef-B has its size and other letters (no window of four in common, so its seqsim is 0).
    ("two-divers", [Ok(("0 3", ONE, ONE, ONE, true, 12, true)), Ok(("2", ONE, ONE, ONE, true, 12, true))]),
];

/// The program's text about a sheet's job: the records of the rows are the sheet's own, or else the row numbers.
fn program_text(name: &str, lines: &Lines) -> String {
    let yes = |flag: bool| if flag { "yes" } else { "no" };
    let sheet = ndigo::sheet::read(example(name).as_bytes()).sheet;
    match lines {
        Err(number) => format!("refused {number}\n"),
        Ok((rows, score, sizesim, seqsim, full, scored, complete)) => {
            let records = rows.split(' ').map(|row| sheet.number(row.parse().unwrap()).to_string()).collect::<Vec<_>>().join(" ");
            format!(
                "rows {rows}\nrecords {records}\nscore {score:08x}\nsizesim {sizesim:08x}\nseqsim {seqsim:08x}\nfull {}\nscored {scored}\ncomplete {}\n",
                yes(*full), yes(*complete)
            )
        }
    }
}

/// target/bin/ndigomarr or what NDIGOMARR names; none where it is missing and not asked for.
pub fn program() -> Option<PathBuf> {
    let path = std::env::var_os("NDIGOMARR").map_or_else(|| root().join("target/bin/ndigomarr"), |named| root().join(named));
    if path.exists() {
        return Some(path);
    }
    assert_ne!(std::env::var("NDIGO_NEEDS_PROGRAM").as_deref(), Ok("1"), "the program {} is missing", path.display());
    None
}

/// The job with 63 as its maxpaths where it has more, since that is what the program takes. It stands at one place in both editions.
fn within_63(mut job: Vec<u8>) -> Vec<u8> {
    if u32::from_le_bytes([job[5], job[6], job[7], job[8]]) > 63 {
        job[5..9].copy_from_slice(&63u32.to_le_bytes());
    }
    job
}

pub fn run_program(program: &PathBuf, job: Vec<u8>) -> String {
    let done = assert_cmd::Command::new(program).write_stdin(job).output().unwrap();
    String::from_utf8(done.stdout).unwrap()
}

#[test]
fn every_example_has_its_answer() {
    let mut names: Vec<&str> = ANSWERS.iter().map(|(name, _)| *name).chain(OF_SEVERAL.iter().map(|(name, _)| *name)).collect();
    names.sort_unstable();
    assert_eq!(names, example_names());
}

fn assert_answered(name: &str, document: &serde_json::Value, lines: &Lines) {
    match *lines {
        Err(number) => assert_eq!(document["refused"], number, "{name}"),
        Ok((rows, score, sizesim, seqsim, full, scored, complete)) => {
            let answer = &document["answer"];
            let found: Vec<String> = answer["path"].as_array().unwrap().iter().map(|row| row["row"].to_string()).collect();
            assert_eq!(found.join(" "), rows, "{name}");
            let bits = ["score", "sizesim", "seqsim"].map(|field| u32::from_str_radix(answer[field]["bits"].as_str().unwrap(), 16).unwrap());
            assert_eq!((bits, answer["target"] == "whole", answer["scored"].as_u64()), ([score, sizesim, seqsim], full, Some(scored.into())), "{name}");
            assert_eq!(answer["complete"], complete, "{name}");
        }
    }
}

/// One object on a line for each haplotype.
fn documents(outcome: &Outcome) -> Vec<serde_json::Value> {
    outcome.text().lines().map(|line| serde_json::from_str(line).unwrap()).collect()
}

#[test]
fn answers() {
    for (name, lines) in ANSWERS {
        let outcome = ask("answer", example(name), &["--json"]);
        assert_eq!(outcome.status, i32::from(lines.is_err()), "{name}");
        let [document] = &documents(&outcome)[..] else { panic!("{name}: {}", outcome.text()) };
        assert_answered(name, document, &lines);
    }
    for (name, each) in OF_SEVERAL {
        let documents = documents(&ask("answer", example(name), &["--json"]));
        assert_eq!(documents.len(), each.len(), "{name}");
        documents.iter().zip(&each).for_each(|(document, lines)| assert_answered(name, document, lines));
    }
}

#[test]
fn the_program_answers_alike() {
    let Some(program) = program() else { return };
    for (name, lines) in ANSWERS {
        let made = within_63(job(example(name)));
        assert_eq!(run_program(&program, made.clone()), program_text(name, &lines), "{name}");
        let again = job(ask("show", made, &[]).out);
        assert_eq!(run_program(&program, again), program_text(name, &lines), "{name}");
    }
    for (name, each) in OF_SEVERAL {
        let blocks: String = each.iter().enumerate().map(|(place, lines)| format!("hap {place}\n{}", program_text(name, lines))).collect();
        assert_eq!(run_program(&program, within_63(job(example(name)))), blocks, "{name}");
    }
}

#[test]
fn the_picture_of_the_first_dive() {
    let path = root().join("examples/first-dive.tsv");
    let drawn = call(&["draw", path.to_str().unwrap()], b"").text();
    assert!(drawn.contains("class=\"chosen-name\" text-anchor=\"start\">Wall-D<"));
    assert!(drawn == file("docs/first-dive.svg"), "draw it again: ndigo draw examples/first-dive.tsv > docs/first-dive.svg");
}

/// The blocks of a page that begin so, without their beginnings.
fn blocks(page: &str, begin: &str) -> Vec<String> {
    let page = file(page);
    let fenced = page.split("```\n").skip(1).step_by(2);
    fenced.filter_map(|block| block.strip_prefix(begin)).map(str::to_string).collect()
}

/// What a command of a page prints: ndigo's, or that of the program behind it.
fn printed(command: &str) -> Option<String> {
    let words: Vec<&str> = command.split_whitespace().collect();
    assert_eq!(words[0], "ndigo", "{command}");
    let end = words.iter().position(|word| *word == "|").unwrap_or(words.len());
    let done = assert_cmd::Command::cargo_bin("ndigo").unwrap().args(&words[1..end]).current_dir(root()).output().unwrap();
    if end == words.len() {
        return Some(String::from_utf8([done.stdout, done.stderr].concat()).unwrap());
    }
    assert_eq!(words[end..], ["|", "target/bin/ndigomarr"]);
    let program = program()?;
    Some(run_program(&program, done.stdout))
}

#[test]
fn the_pages_print_what_the_commands_print() {
    for (page, count) in [("docs/FIRST-WEEK.md", 21), ("docs/COORDINATES.md", 4), ("docs/DEEPER.md", 1)] {
        let blocks = blocks(page, "$ ");
        assert_eq!(blocks.len(), count, "{page}");
        for block in blocks {
            let (command, text) = block.split_once('\n').unwrap();
            if let Some(printed) = printed(command) {
                assert_eq!(printed, text, "{page}: {command}");
            }
        }
    }
}

/// A reader pastes the page's table into a file, and it is the example's.
#[test]
fn the_tables_of_the_first_week_can_be_pasted() {
    let [tables, whole] = ["variant", "setting"].map(|first| blocks("docs/FIRST-WEEK.md", first).into_iter().map(|block| format!("{first}{block}")).collect::<Vec<_>>());
    let [first, by_depth] = &tables[..] else { panic!("{tables:?}") };
    let [names] = &whole[..] else { panic!("{whole:?}") };
    for (name, block) in [("first-dive", first), ("mistake-names-by-depth", by_depth)] {
        let example = ndigo::sheet::read(example(name).as_bytes());
        let read = ndigo::sheet::read(block.as_bytes());
        assert_eq!((read.faults, read.notes), (vec![], vec![]), "{name}");
        let rows = |sheet: &ndigo::model::Sheet| sheet.variants.iter().map(|v| (v.name().to_string(), v.start, v.end, v.record, v.sequence.size, v.sequence.letters.clone())).collect::<Vec<_>>();
        assert_eq!(rows(&read.sheet), rows(&example.sheet), "{name}");
    }
    let answer = ask("answer", first, &[]);
    assert!(answer.status == 0 && answer.text().contains("Reef-A") && answer.text().contains("Wall-D"), "{}", answer.text());
    assert_eq!(job(names), job(example("mistake-names")));
    let answer = ask("answer", names, &[]);
    assert!(answer.text().starts_with("path    1 of 3 rows, in this order:\n          St-2  record 4702 "), "{}", answer.text());
}

#[test]
fn the_table_of_the_page_on_coordinates_can_be_pasted() {
    let block = &blocks("docs/COORDINATES.md", "variant")[0];
    assert_eq!(job(format!("variant{block}")), job(example("from-bed")));
}

#[test]
fn the_sorted_copy_holds_the_same_records() {
    let read = |name: &str| ndigo::sheet::read(example(name).as_bytes()).sheet;
    let (first, copy) = (read("mistake-names"), read("mistake-names-by-depth"));
    let pairs = |sheet: &ndigo::model::Sheet| { let mut pairs: Vec<_> = sheet.variants.iter().map(|v| (v.record, v.name().to_string())).collect(); pairs.sort(); pairs };
    assert_eq!(pairs(&first), pairs(&copy));
    assert_eq!((first.variants[1].name(), copy.variants[1].name()), ("St-2", "St-3"));
}
