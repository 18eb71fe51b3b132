//! The judge: what documents 01 and 02 and kanpig's Rust together say about a job.
//!
//! - `job`: a job, its bytes, and the faults of the job form.
//! - `call`: a haplotype as the library is asked for it, its rows counted, and the refusals 1 to 12, 14 and 16; `several`: several over one table.
//! - `moving`: a job moved from one edition of the form to the other, by the judge and by the document.
//! - `proposal`: a path that someone else proposes, and the judge's answer to it.
//! - `rust`: the answer by kanpig's Rust, unchanged or ordered.
//! - `answer`: an answer and its eight lines.
//! - `program`: what the program must print for given bytes.
//! - `rules`: the documents' sentences, each a rule; `mistakes`: the same with one rule misread, planted to be found.
//! - `document`: the documents written down once more, independent of the Rust; `met`: what it met on its way.
//! - `meta`: a haplotype's data, made and combined, by the document and by the Rust.
//! - `library`: the library of this project, linked.
//! - `generate`, `exhaust`: the jobs that are compared; `random`: the numbers they are made from.
//! - `kinds`: what a job reached, to be counted.
//! - `shrink`: the smallest job that still shows a difference; `describe`: a job in words.
pub mod answer;
pub mod call;
pub mod describe;
pub mod document;
pub mod exhaust;
pub mod generate;
pub mod job;
pub mod kinds;
pub mod library;
pub mod met;
pub mod meta;
pub mod mistakes;
pub mod moving;
pub mod program;
pub mod proposal;
pub mod random;
pub mod rules;
pub mod rust;
pub mod several;
pub mod shrink;
