//! What a look came to, in words below an answer and as cells of a batch's line.
use super::{Better, Ended, Looked, Outcome};
use crate::answer::{decimal, left_out, listed_names, parted_by_commas, parts_words_of, path_lines, printed, titled, Lines};
use crate::model::{counted, Sheet};
use ::deeper::Step;

/// What a path that was found so is worth.
const CHECKED: &str = "found outside the proved search; checked by it: a path of this table, with exactly this score";

/// The cells of a batch's line.
pub const CELLS: [&str; 8] =
    ["deeper", "deeper_names", "deeper_records", "deeper_score", "deeper_sizesim", "deeper_seqsim", "deeper_left_out", "deeper_words"];

fn how_far(looked: &Looked) -> String {
    let lists = counted(looked.lists, "part list");
    match looked.ended {
        Ended::RuledOut => format!("its bounds, which are not proved, rule out every path that scores higher than {} by over 0.000001", if looked.better.is_some() { "this" } else { "the answer" }),
        Ended::TimeRanOut => format!(
            "time ran out after {} seconds with {} of {lists} still open: BETTER ONES MAY EXIST; --seconds gives it longer",
            looked.time.as_secs_f64(), looked.lists - looked.closed
        ),
        Ended::Doubted(count) => format!(
            "the check said no to {}, so this search misread the rules and its bounds say nothing: BETTER ONES MAY EXIST; please report the sheet",
            counted(count as usize, "proposal")
        ),
    }
}

fn better_lines(own: &Sheet, better: &Better) -> Lines {
    let Better { answer, used } = better;
    let mut path = path_lines(own, answer);
    path[0] = format!("a BETTER PATH: {}", path[0]);
    let mut lines = titled("deeper", path);
    lines.extend(titled("score", vec![format!("{} (sizesim {}, seqsim {})", decimal(answer.score), decimal(answer.sizesim), decimal(answer.seqsim))]));
    lines.extend(titled("parts", vec![parts_words_of(own, answer, || Some(used.clone()))]));
    lines.extend(titled("checked", vec![CHECKED.into()]));
    lines
}

/// Below the answer of a haplotype in a sheet of its own.
pub fn below(own: &Sheet, outcome: &Outcome) -> String {
    let alone = |words: &str| printed(&titled("deeper", vec![words.into()]));
    let looked = match outcome {
        Outcome::AllScored => return alone("nothing to look for: all paths were scored, and none is better"),
        Outcome::OneToOne => return alone("nothing was looked for: one-to-one asks for rows alone, and all were tried"),
        Outcome::NotCounted => return alone("nothing was looked for: the letters cannot be counted"),
        Outcome::Looked(looked) => looked,
    };
    let mut lines = looked.better.as_ref().map_or_else(|| titled("deeper", vec!["no better path was found".into()]), |better| better_lines(own, better));
    lines.extend(titled("looked", vec![how_far(looked)]));
    printed(&lines)
}

/// How far a look is, while it goes on.
pub fn progress(step: Step) -> String {
    let Step { lists, beams, closed, best } = step;
    let lists = counted(lists, "part list");
    if closed == 0 { format!("beams over {beams} of {lists}, best {}", decimal(best)) } else { format!("{closed} of {lists} ruled out, best {}", decimal(best)) }
}

/// Under the headings; all empty where there was nothing to look for.
pub fn cells(own: &Sheet, outcome: &Outcome) -> Vec<String> {
    let Outcome::Looked(looked) = outcome else { return vec![String::new(); CELLS.len()] };
    let Some(Better { answer, .. }) = &looked.better else {
        let mut cells = vec![String::new(); CELLS.len()];
        cells[0] = "none".into();
        cells[CELLS.len() - 1] = how_far(looked);
        return cells;
    };
    let mut cells = vec!["better".into(), listed_names(own, answer), parted_by_commas(answer.records.iter())];
    cells.extend([answer.score, answer.sizesim, answer.seqsim].map(decimal));
    cells.push(left_out(answer).map_or(String::new(), |parts| parts.to_string()));
    cells.push(format!("{CHECKED}; {}", how_far(looked)));
    cells
}
