//! A job in one line of words, and bytes that are no job as hexadecimal.
use crate::call::Call;
use crate::job::{self, Edition, Job, Part, Settings, Variant};
use crate::moving;
use crate::proposal::Proposal;
use crate::rules::DOCUMENT;
use crate::several::Several;

fn letters(bytes: &[u8], negative: bool) -> String {
    let shown = match bytes.len() {
        0 => "no letters".to_string(),
        1..=40 => bytes.escape_ascii().to_string(),
        n => format!("{}.. ({n} letters)", bytes[..20].escape_ascii()),
    };
    if negative { format!("{shown} negative") } else { shown }
}

fn settings(s: &Settings) -> String {
    let mut words = vec![format!("k {}", s.k)];
    for (set, word) in [(s.squish, "squish"), (s.one_to_one, "one-to-one"), (!s.full, "bare")] {
        if set {
            words.push(word.to_string());
        }
    }
    if s.letters != 0 {
        words.push(format!("letters {}", s.letters));
    }
    words.push(format!(
        "maxpaths {} maxnodes {} fnmax {} pileupmax {} minkfreq {} sizesim {:?} seqsim {:?} fpenalty {:?} gpenalty {:?}",
        s.maxpaths, s.maxnodes, s.fnmax, s.pileupmax, s.minkfreq, s.sizesim, s.seqsim, s.fpenalty, s.gpenalty
    ));
    words.join(" ")
}

pub fn job(job: &Job) -> String {
    let number = |v: &Variant| if job.edition == Edition::Two { format!(" number {}", v.number) } else { String::new() };
    let variants: Vec<String> = job
        .variants
        .iter()
        .map(|v| format!("{}-{} size {} {}{}", v.start, v.end, v.size, letters(&v.letters, v.negative), number(v)))
        .collect();
    let part = |p: &Part| format!("size {} {}", p.size, letters(&p.letters, p.negative));
    let list = |parts: &Vec<Part>| format!("parts [{}]", parts.iter().map(part).collect::<Vec<String>>().join(", "));
    let haplotypes: Vec<String> = job.haplotypes.iter().map(list).collect();
    let edition = if job.edition == Edition::Two { "edition 2; " } else { "" };
    format!("{edition}{}; variants [{}]; {}", settings(&job.settings), variants.join(", "), haplotypes.join("; next "))
}

pub fn bytes(bytes: &[u8]) -> String {
    match job::read(&DOCUMENT, bytes) {
        Ok(good) => job(&good),
        Err(number) => {
            let hex: String = bytes.iter().take(100).map(|b| format!("{b:02x}")).collect();
            format!("{} bytes {hex}{} ({number} by the form)", bytes.len(), if bytes.len() > 100 { ".." } else { "" })
        }
    }
}

pub fn call(call: &Call) -> String {
    let show = |row: &[i32]| if row.len() > 64 { format!("{:?}..", &row[..64]) } else { format!("{row:?}") };
    format!(
        "{}; starts {:?} ends {:?} sizes {:?} features {} record numbers {:?} part sizes {:?} part features {} queue room {} answer room {} second buffer {:?}",
        settings(&call.settings),
        call.starts,
        call.ends,
        call.sizes,
        show(&call.features),
        call.numbers,
        call.part_sizes,
        show(&call.part_features),
        call.queue_room,
        call.answer_room,
        call.record_buffer
    )
}

pub fn asked_of_mover(asked: &moving::Asked) -> String {
    format!("moving to edition {} with room for {} bytes: {}", asked.edition, asked.lent.len(), bytes(&asked.bytes))
}

pub fn proposal(proposal: &Proposal) -> String {
    format!("rows {:?} positions {:?} score {:?} ({:08x})", proposal.rows, proposal.positions, proposal.score, proposal.score.to_bits())
}

pub fn several(several: &Several) -> String {
    format!(
        "{} part ends {:?} feature ends {:?} row buffer {:?} reports {:?}",
        call(&Call { answer_room: several.row_buffer.len(), ..several.call.clone() }),
        several.part_ends,
        several.feature_ends,
        several.row_buffer,
        several.reports
    )
}
