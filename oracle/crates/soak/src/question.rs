//! What is asked of the library, with what it must say: a whole job, a search for one haplotype or for several.
use crate::harness::{fault_words, Reply, QUEUE_CHANGED};
use crate::message::{self, How};
use judge::answer::Answer;
use judge::call::Call;
use judge::describe;
use judge::document::record_buffer;
use judge::rules::DOCUMENT;
use judge::several::{Seen, Several};

pub enum Question {
    Job { bytes: Vec<u8>, must: String },
    /// what the answer buffer and the report hold before the call stands behind it
    Haplotype { call: Call, rows: Vec<u32>, report: [u32; 7], must: Answer },
    Haplotypes { several: Several, must: Vec<Answer> },
}

/// Words of what differs, where something does.
pub type Difference = Option<String>;

impl Question {
    pub fn message(&self, how: How) -> Vec<u8> {
        match self {
            Question::Job { bytes, .. } => message::answer(bytes, how),
            Question::Haplotype { call, rows, report, .. } => message::haplotype(call, rows, report, how),
            Question::Haplotypes { several, .. } => message::haplotypes(several, how),
        }
    }

    pub fn describe(&self) -> String {
        match self {
            Question::Job { bytes, .. } => describe::bytes(bytes),
            Question::Haplotype { call, .. } => describe::call(call),
            Question::Haplotypes { several, .. } => describe::several(several),
        }
    }

    /// What differs in a reply from what must be said, the lent buffers whole.
    pub fn differs(&self, reply: &Result<Reply, String>) -> Difference {
        let reply = match reply {
            Err(ended) => return Some(format!("no answer: the process ended with {ended}")),
            Ok(reply) => reply,
        };
        let searched = self.searched();
        if reply.fault != 0 && !(searched && reply.fault == QUEUE_CHANGED) {
            return Some(fault_words(reply.fault));
        }
        match self {
            Question::Job { must, .. } => {
                let is = String::from_utf8_lossy(&reply.bytes);
                (reply.bytes != must.as_bytes()).then(|| format!("must be\n{must}  is\n{is}"))
            }
            Question::Haplotype { call, rows, must, .. } => unlike(&seen_of_one(call, rows, must), reply),
            Question::Haplotypes { several, must } => unlike(&several.seen(&DOCUMENT, must), reply),
        }
    }

    /// Whether the queue may have been used.
    fn searched(&self) -> bool {
        match self {
            Question::Job { .. } => false,
            Question::Haplotype { call, must, .. } => must.refusal == 0 && call.searches(&DOCUMENT),
            Question::Haplotypes { several, must } => several.call.searches(&DOCUMENT) && must.iter().any(|answer| answer.refusal == 0),
        }
    }
}

/// What is seen after a call for one haplotype: its rows at the front of the answer buffer, its records at that of the second, its report.
fn seen_of_one(call: &Call, rows: &[u32], must: &Answer) -> Seen {
    let rest = rows.iter().skip(must.rows.len());
    Seen {
        returned: must.refusal,
        rows: must.rows.iter().chain(rest).copied().collect(),
        records: record_buffer(&DOCUMENT, call, must),
        reports: must.report()[1..].to_vec(),
    }
}

fn unlike(must: &Seen, reply: &Reply) -> Difference {
    let words: Vec<u32> = reply.bytes.chunks(4).map(|word| u32::from_le_bytes(word.try_into().expect("four bytes"))).collect();
    let (rows, rest) = words.split_at(must.rows.len());
    let (records, reports) = rest.split_at(must.records.len());
    let is = Seen { returned: reply.returned as u32, rows: rows.to_vec(), records: records.to_vec(), reports: reports.to_vec() };
    (is != *must).then(|| format!("must be {must:?}\n  is      {is:?}"))
}
