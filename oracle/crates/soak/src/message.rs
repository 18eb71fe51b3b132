//! The calls that the harness is asked for, as bytes; `calls.c` reads them.
use judge::call::Call;
use judge::several::Several;

/// The kinds of calls, by their numbers in `calls.c`.
const ANSWER: u64 = 0;
const HAPLOTYPE: u64 = 1;
const HAPLOTYPES: u64 = 2;
const SPOIL: u64 = 3;
const OVERREAD: u64 = 4;
const BLOCKS: u64 = 5;

/// Where what is lent lies, by the numbers in `calls.c`.
#[derive(Clone, Copy, Debug, PartialEq, Eq)]
pub enum Placing {
    EndsAtPage,
    BeginsAtPage,
    BetweenGuards,
    OnHeap,
}

impl Placing {
    pub const ALL: [(Placing, &'static str); 4] = [
        (Placing::EndsAtPage, "ends at a page that nobody may touch"),
        (Placing::BeginsAtPage, "begins behind such a page"),
        (Placing::BetweenGuards, "between guard bytes"),
        (Placing::OnHeap, "a heap block of its own"),
    ];
}

/// How a call is made: where what it is lent lies, and the number from which the buffers' bytes are drawn.
#[derive(Clone, Copy, Debug)]
pub struct How {
    pub placing: Placing,
    pub drawn: u64,
}

fn head(kind: u64, how: How) -> Vec<u8> {
    [kind, how.placing as u64, how.drawn].iter().flat_map(|word| word.to_le_bytes()).collect()
}

fn slice<T, const N: usize>(bytes: &mut Vec<u8>, list: &[T], of: impl Fn(&T) -> [u8; N]) {
    bytes.extend_from_slice(&((list.len() * N) as u64).to_le_bytes());
    bytes.extend(list.iter().flat_map(of));
}

/// A job, to be answered.
pub fn answer(job: &[u8], how: How) -> Vec<u8> {
    let mut bytes = head(ANSWER, how);
    slice(&mut bytes, job, |&byte| [byte]);
    bytes
}

/// A search for one haplotype, whose report is of seven words.
pub fn haplotype(call: &Call, rows: &[u32], report: &[u32; 7], how: How) -> Vec<u8> {
    search(HAPLOTYPE, call, (&[], &[]), [rows, &call.record_buffer, report], how)
}

/// A search for several.
pub fn haplotypes(several: &Several, how: How) -> Vec<u8> {
    let call = &several.call;
    search(HAPLOTYPES, call, (&several.part_ends, &several.feature_ends), [&several.row_buffer, &call.record_buffer, &several.reports], how)
}

fn search(kind: u64, call: &Call, ends: (&[u64], &[u64]), written: [&[u32]; 3], how: How) -> Vec<u8> {
    let mut bytes = head(kind, how);
    bytes.extend(call.settings.words().iter().flat_map(|word| word.to_le_bytes()));
    let longs = |bytes: &mut Vec<u8>, list: &[u64]| slice(bytes, list, |x| x.to_le_bytes());
    let signed = |bytes: &mut Vec<u8>, list: &[i32]| slice(bytes, list, |x| x.to_le_bytes());
    let words = |bytes: &mut Vec<u8>, list: &[u32]| slice(bytes, list, |x| x.to_le_bytes());
    longs(&mut bytes, &call.starts);
    longs(&mut bytes, &call.ends);
    signed(&mut bytes, &call.sizes);
    signed(&mut bytes, &call.features);
    words(&mut bytes, &call.numbers);
    longs(&mut bytes, ends.0);
    longs(&mut bytes, ends.1);
    signed(&mut bytes, &call.part_sizes);
    signed(&mut bytes, &call.part_features);
    bytes.extend((call.queue_room as u64).to_le_bytes());
    written.iter().for_each(|list| words(&mut bytes, list));
    bytes
}

/// A byte changed at this place of the text, or beside it, in place of a call.
pub fn spoil(at: i64, how: How) -> Vec<u8> {
    [head(SPOIL, how), at.to_le_bytes().to_vec()].concat()
}

/// A byte read behind a job, in place of a call.
pub fn overread(job: &[u8], how: How) -> Vec<u8> {
    let mut bytes = head(OVERREAD, how);
    slice(&mut bytes, job, |&byte| [byte]);
    bytes
}

/// Which blocks were reached: a byte for each.
pub fn blocks() -> Vec<u8> {
    head(BLOCKS, How { placing: Placing::EndsAtPage, drawn: 0 })
}
