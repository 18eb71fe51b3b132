//! The sentences of document 01 that a mistake misreads, in its order, and then document 02's, each a rule with a name. `DOCUMENT` holds
//! them as the papers say them; document.rs, call.rs and job.rs ask for them by name. The other limits stand where call.rs and program.rs ask them.
use crate::answer::{Report, Target};
use crate::document::{PartList, Scored};
use crate::job::Settings;
use std::collections::HashSet;
use std::ops::Range;

/// Makes of each rule a field of `Rules`, its value in `DOCUMENT`, and the method that asks for it.
macro_rules! rules {
    ($($(#[$sentence:meta])* fn $name:ident($($given:ident: $kind:ty),*) -> $answer:ty $body:block)*) => {
        #[derive(Clone, Copy)]
        pub struct Rules {
            $($(#[$sentence])* pub $name: fn($($kind),*) -> $answer,)*
        }

        impl Rules {
            pub const NAMES: &'static [&'static str] = &[$(stringify!($name)),*];

            $($(#[$sentence])* pub fn $name(&self, $($given: $kind),*) -> $answer {
                (self.$name)($($given),*)
            })*
        }

        pub const DOCUMENT: Rules = Rules {
            $($name: {
                fn $name($($given: $kind),*) -> $answer $body
                $name
            },)*
        };
    };
}

pub const SIZE_LIMIT: u32 = 131_072;

rules! {
    // Numbers a job may hold

    /// "a size at most 131,072 in magnitude"
    fn size_is_over(size: i32) -> bool {
        size.unsigned_abs() > SIZE_LIMIT
    }

    /// "Thresholds `sizesim` and `seqsim` 0 to 1, `fpenalty` and `gpenalty` 0 to 1,000; minus zero is accepted." "NaN or outside" is a 2.
    fn float_is_good(float: f32, top: f32) -> bool {
        float >= 0.0 && float <= top
    }

    /// 7: "a start is greater than its end"
    fn is_reversed(start: u64, end: u64) -> bool {
        start > end
    }

    /// 8: "a start is less than the row before's"
    fn falls(start: u64, before: u64) -> bool {
        start < before
    }

    /// "Checked in this order"; document 02, P3: "14 for a repeated number, after 8 and before 9"; P1: 27 "in the library for a count not 1 to 16, after 4";
    /// P11: "16, after 10 and before 11"
    fn refusals() -> &'static [u32] {
        &[1, 2, 3, 4, 27, 5, 6, 7, 8, 14, 9, 10, 16, 11, 12]
    }

    // From letters to similarity

    /// "A, G, C and T give 0, 1, 2, 3 in either case; any other byte gives 0." Document 02, P6: "0 is document 01's reading", and with 1 a byte other
    /// than these has no code.
    fn code(letter: u8, letters: u32) -> Option<usize> {
        match letter {
            b'A' | b'a' => Some(0),
            b'G' | b'g' => Some(1),
            b'C' | b'c' => Some(2),
            b'T' | b't' => Some(3),
            _ => (letters != 1).then_some(0),
        }
    }

    /// "each window adds 1 to its own, or subtracts 1 for a negative sequence"
    fn window_adds(negative: bool) -> i32 {
        if negative { -1 } else { 1 }
    }

    /// "over entries with |x| + |y| at least minkfreq, d is the sum of |x| + |y| and n the sum of |x − y|"
    fn n_and_d(a: &[i32], b: &[i32], minkfreq: u32) -> (u64, u64) {
        let (mut n, mut d) = (0, 0);
        for (x, y) in a.iter().zip(b) {
            let both = x.unsigned_abs() + y.unsigned_abs();
            if both >= minkfreq {
                d += u64::from(both);
                n += u64::from(x.abs_diff(*y));
            }
        }
        (n, d)
    }

    /// "Zero d gives 0.0; else zero n gives 1.0; else 1.0 − (n / d), rounded after the division and after the subtraction."
    fn seqsim(n: u64, d: u64) -> f32 {
        match (n, d) {
            (_, 0) => 0.0,
            (0, _) => 1.0,
            _ => 1.0 - (n as f32 / d as f32),
        }
    }

    /// "of two sizes' magnitudes: equal ones give 1.0; else smaller over larger, each first raised to at least 1, one division"
    fn sizesim(a: u64, b: u64) -> f32 {
        if a == b { 1.0 } else { a.min(b).max(1) as f32 / a.max(b).max(1) as f32 }
    }

    /// "the larger start is less than the smaller end"; document 02, P5: "a zero-length interval also overlaps one whose start is less
    /// than it and whose end is greater"
    fn overlaps(a: (u64, u64), b: (u64, u64)) -> bool {
        let inside = |point: (u64, u64), other: (u64, u64)| point.0 == point.1 && other.0 < point.0 && other.1 > point.0;
        a.0.max(b.0) < a.1.min(b.1) || inside(a, b) || inside(b, a)
    }

    // Parts, graph, paths

    /// "if m is at least pileupmax, only the whole haplotype"
    fn only_the_whole(m: usize, pileupmax: usize) -> bool {
        m >= pileupmax
    }

    /// "Else lists of m parts, then m − 1, down to the larger of 1 and m − fnmax"
    fn list_lengths(m: usize, fnmax: usize) -> Vec<usize> {
        (m.saturating_sub(fnmax).max(1)..=m).rev().collect()
    }

    /// "only rows leave the library": what stands in an answer for a row
    fn row_number(row: usize) -> u32 {
        row as u32
    }

    /// "a bare graph has only the empty one"; document 02, P5: "no two rows of a chain may overlap, neighbours or not"
    fn may_follow(full: bool, chain: &[usize], overlaps: &dyn Fn(usize) -> bool) -> bool {
        full && !chain.iter().any(|&row| overlaps(row))
    }

    // Score of a chain

    /// "skip if the signs of the sizes (−, 0, +) differ"
    fn sign(size: i64) -> i64 {
        size.signum()
    }

    /// "skip if sizesim .. is below its threshold"
    fn sizesim_is_below(sizesim: f32, threshold: f32) -> bool {
        sizesim < threshold
    }

    /// "skip if .. seqsim is below its threshold"
    fn seqsim_is_below(seqsim: f32, threshold: f32) -> bool {
        seqsim < threshold
    }

    /// "(seqsim + sizesim) / 2, minus fpenalty × partial, minus gpenalty × g, each operation rounded, in that order"
    fn score(s: &Settings, seqsim: f32, sizesim: f32, partial: u32, g: u64) -> f32 {
        (seqsim + sizesim) / 2.0 - s.fpenalty * partial as f32 - s.gpenalty * g as f32
    }

    /// "g is |n − length|, or length − 1 with `squish`." "Under squish an empty chain accepts no list": it has no g.
    fn g(squish: bool, list: &PartList, length: u64) -> Option<u64> {
        if squish { length.checked_sub(1) } else { Some(list.n.abs_diff(length)) }
    }

    /// "It replaces the best only if greater."
    fn list_replaces(score: f32, best: &Scored) -> bool {
        score > best.score
    }

    /// "which target matched: .. the whole haplotype, or a part list and how many parts it leaves out"
    fn target(list: &PartList) -> Target {
        if list.partial == 0 { Target::Whole } else { Target::Partial(list.partial) }
    }

    // Search

    /// "takes the queued chain whose size is nearest the haplotype's, the earliest queued among equals": the least of these is taken
    fn turn(size: i64, haplotype: i64, queued: i64) -> (u64, i64) {
        (size.abs_diff(haplotype), queued)
    }

    /// "then queues its extensions, highest node first"
    fn extension_order(later: Range<usize>) -> Vec<usize> {
        later.rev().collect()
    }

    /// "Stop after maxpaths + 1 scored"
    fn most_scored(maxpaths: u32) -> u32 {
        maxpaths + 1
    }

    /// "or when none is queued": then the search is complete
    fn is_complete(queued: usize, _scored: u32, _most: u32) -> bool {
        queued == 0
    }

    /// "A later equal score replaces an earlier one"
    fn chain_replaces(score: f32, best: &Scored) -> bool {
        score >= best.score
    }

    // One-to-one

    /// "runs when asked or when V exceeds maxnodes, full graph or bare (any other job is in search mode)"
    fn is_one_to_one(s: &Settings, v: usize) -> bool {
        s.one_to_one || v > s.maxnodes as usize
    }

    /// "against the whole haplotype only"
    fn node_only_the_whole(_m: usize, _pileupmax: usize) -> bool {
        true
    }

    /// "those whose scoring accepts it with seqsim above 0 are candidates"
    fn is_candidate(seqsim: f32) -> bool {
        seqsim > 0.0
    }

    /// "the highest score, latest node among equals"
    fn node_replaces(score: f32, best: &Scored) -> bool {
        score >= best.score
    }

    // Job form and program

    /// "20 unknown kind, 21 input ends inside a record or without 0x00, 22 out of place, 24 a flag not 0 or 1, 13, 23 padding not zero; 25 bytes
    /// after 0x00. Within a record in that order." Document 02, P1: "27 for a seventeenth, front to back after 22"
    fn form_faults() -> &'static [u32] {
        &[20, 21, 22, 27, 24, 13, 23, 25]
    }

    /// "seven lines"; document 02, P3: "one more line, `records`, directly after `rows`"
    fn lines() -> &'static [&'static str] {
        &["rows", "records", "score", "sizesim", "seqsim", "full", "scored", "complete"]
    }

    // Document 02, P3: a station record number on every variant

    /// "Each variant carries a u32 record number": 6 for other than V of them
    fn numbers_disagree(numbers: usize, v: usize) -> bool {
        numbers != v
    }

    /// 14: "a repeated number"
    fn repeats(numbers: &[u32]) -> bool {
        let different: HashSet<&u32> = numbers.iter().collect();
        different.len() < numbers.len()
    }

    /// "a second lent buffer, at least V entries"; "the second buffer too short is a 12", in search mode and in one-to-one
    fn second_is_short(room: usize, v: usize, _searches: bool) -> bool {
        room < v
    }

    /// "the answer lists these in the rows' order"
    fn records(numbers: &[u32], rows: &[usize]) -> Vec<u32> {
        rows.iter().map(|&row| numbers[row]).collect()
    }

    /// The second buffer as the first: the records stand at its front "and its rest is unchanged"; a refusal leaves it as it was.
    fn second_after(before: &[u32], records: &[u32], _refused: bool) -> Vec<u32> {
        records.iter().chain(before.iter().skip(records.len())).copied().collect()
    }

    /// "A job in the present form gets its row numbers as record numbers."
    fn present_numbers(v: usize) -> Vec<u32> {
        (0..v as u32).collect()
    }

    // Document 02, P1: several haplotypes over one table

    /// "up to 16"; "27 for a seventeenth"; "in the library for a count not 1 to 16"
    fn count_is_refused(count: usize) -> bool {
        !(1..=16).contains(&count)
    }

    /// "a record 0x05 with empty body, after a part list (it may be empty), begins the next": behind settings, with no letters owed
    fn next_may_begin(_parts: usize) -> bool {
        true
    }

    /// A variant behind 0x05 is out of place, as behind a part.
    fn variant_may_follow_next() -> bool {
        false
    }

    /// "The limit of 8 parts in the program is per haplotype."
    fn parts_exceed_memory(parts: &[usize]) -> bool {
        parts.iter().any(|&m| m > 8)
    }

    /// "Settings, table, room and form refusals .. come first"; "a job with one keeps document 01's order": whether the parts wait until those are asked
    fn parts_wait(count: usize) -> bool {
        count > 1
    }

    /// "a refusal 5, 6, 9 or 10 from its parts answers that haplotype only. Settings, table, room and form refusals still answer the whole job"
    fn answers_the_whole(_number: u32, from_parts: bool) -> bool {
        !from_parts
    }

    /// A refused haplotype keeps none of the others from its answer.
    fn is_answered(_at: usize, _first_refused: usize) -> bool {
        true
    }

    /// "Answer room is V rows for each haplotype"; P3's second buffer: "at least V entries for each haplotype"
    fn rows_needed(v: usize, count: usize) -> usize {
        v * count
    }

    /// Eight words of report for each haplotype; too few are a 12.
    fn reports_are_short(words: usize, count: usize) -> bool {
        words < 8 * count
    }

    /// The queue's room "is used again for each haplotype".
    fn entries_needed(of_one: usize, _count: usize) -> usize {
        of_one
    }

    /// "unequal numbers of ends, falling ends, or a last end that is not the slice's length is a 6 of the whole call"
    fn ends_disagree(part_ends: &[u64], feature_ends: &[u64], parts: usize, features: usize) -> bool {
        let cut = |ends: &[u64], length: usize| ends.is_sorted() && ends.last() == Some(&(length as u64));
        part_ends.len() != feature_ends.len() || !cut(part_ends, parts) || !cut(feature_ends, features)
    }

    /// "a haplotype is a stretch of the part sizes and a stretch of the part features, given by two slices of ends"
    fn stretch(ends: &[u64], at: usize) -> Range<usize> {
        let from = if at == 0 { 0 } else { ends[at - 1] };
        from as usize..ends[at] as usize
    }

    /// "V rows for each haplotype, in its own stretch"; `listed` is how many rows the haplotypes before it have
    fn answer_front(at: usize, v: usize, _listed: usize) -> usize {
        at * v
    }

    /// "a refused one's stretch is unchanged"; else the list stands at its front, and its rest is unchanged
    fn stretch_after(before: &[u32], list: &[u32], _refused: bool) -> Vec<u32> {
        list.iter().chain(before.iter().skip(list.len())).copied().collect()
    }

    /// A haplotype's refusal and document 01's seven, all zeros where it is refused.
    fn report_after(_before: Report, said: Report) -> Report {
        said
    }

    /// "with one haplotype every refusal is the whole call's; with several .. the call returns 0"
    fn returned(own: &[u32]) -> u32 {
        if let [only] = own { *only } else { 0 }
    }

    /// "With more than one, each block of lines follows a line `hap`"
    fn hap_lines_stand(answers: usize) -> bool {
        answers > 1
    }

    /// "a line `hap` and its number from 0"
    fn hap_number(at: usize) -> usize {
        at
    }

    // Document 02, P6: unread letters are not A

    /// "A library setting other than 0 or 1 is a 3."
    fn letters_are_refused(letters: u32) -> bool {
        letters > 1
    }

    /// "1 leaves out each window that holds a byte other than A, G, C, T in either case": one is kept exactly when each of its k bytes has a code
    fn is_kept(codes: &[Option<usize>], at: usize, k: usize) -> bool {
        codes[at..at + k].iter().all(Option::is_some)
    }

    /// "Old jobs read as 0."
    fn present_letters() -> u32 {
        0
    }

    // Document 02, P7: job form, edition 2, and the way back

    /// "the two editions are not mixed in one job": whether a variant of this kind stands in a job whose first record has that kind
    fn is_of_the_edition(first: u8, kind: u8) -> bool {
        matches!((first, kind), (0x01, 0x02) | (0x11, 0x12))
    }

    /// "`letters` over 1 is 24"
    fn letters_are_no_flag(held: u8) -> bool {
        held > 1
    }

    /// "the old 40 bytes and `letters`"
    fn letters_of(held: u8) -> u32 {
        held.into()
    }

    /// "the old 25 bytes and the record number"
    fn record_number(held: u32, _row: usize) -> u32 {
        held
    }

    /// "for moving, after form faults and in this order, 22 .., 28 .., 29 .., 30"; 20 stands for whatever fault the form has
    fn move_refusals() -> &'static [u32] {
        &[20, 22, 28, 29, 30]
    }

    /// 22: "for a job already in the edition asked for", and for an edition that there is not
    fn move_is_none(own: u32, asked: u32) -> bool {
        own == asked || !(1..=2).contains(&asked)
    }

    /// 28: "when a record number is not its row"
    fn number_would_be_lost(number: u32, row: usize) -> bool {
        number as usize != row
    }

    /// 29: "when letters is 1"
    fn reading_would_be_lost(held: u8) -> bool {
        held == 1
    }

    /// 30: "for too little room"
    fn room_is_little(room: usize, need: usize) -> bool {
        room < need
    }

    /// "an accepted edition 1 job": accepted is its form; "1 to 12 and 26 play no part". Which of a search's refusals are asked before 22
    fn move_asks_too() -> &'static [u32] {
        &[]
    }

    /// It "copies what the editions share byte for byte, so that a NaN's bits survive": a body of settings, or of a variant
    fn shared_bytes(body: &[u8]) -> Vec<u8> {
        body.to_vec()
    }

    /// "with row numbers as record numbers"
    fn moved_number(row: usize) -> u32 {
        row as u32
    }

    /// "and letters 0"
    fn moved_letters() -> u8 {
        0
    }

    /// What is lent after moving: the job at its front, its rest unchanged; nothing is written on a refusal.
    fn lent_after(before: &[u8], moved: &[u8], refused: bool) -> Vec<u8> {
        if refused { before.to_vec() } else { moved.iter().chain(before.iter().skip(moved.len())).copied().collect() }
    }

    /// It "returns how many bytes it wrote", on a refusal 0.
    fn written(length: usize, refused: bool) -> u64 {
        if refused { 0 } else { length as u64 }
    }

    // Document 02, P11: rows that can match nothing

    /// 16: a row that "is all zero"
    fn is_blank(row: &[i32]) -> bool {
        row.iter().all(|&x| x == 0)
    }

    /// "A variant whose feature row is all zero is now refused in every mode; a part of that kind is still taken": which variants' rows are, and which
    /// parts'; whether the call is in search mode, and whether the graph is full
    fn blank_is_refused(variants: &[bool], _parts: &[bool], _searches: bool, _full: bool) -> bool {
        variants.contains(&true)
    }

    // Whose reads these were (document 02, P12)

    /// "Refusals, in order: 50 .., 51 .., 52 .., 53"
    fn meta_refusals() -> &'static [u32] {
        &[50, 51, 52, 53]
    }

    /// 50: "for a sample count not 1 to 8"
    fn samples_are_refused(samples: u64) -> bool {
        !(1..=8).contains(&samples)
    }

    /// 51: "for a sample index at or above it"
    fn index_is_refused(index: u64, samples: u64) -> bool {
        index >= samples
    }

    /// 52: "for unequal counts (the Rust stops at the shorter)"
    fn counts_disagree(left: u64, right: u64) -> bool {
        left != right
    }

    /// 53: "when a coverage sum passes 64 bits"
    fn sum_passes(left: u64, right: u64) -> bool {
        left.checked_add(right).is_none()
    }

    /// "the others a blank of one sample"
    fn blank_on_refusal(_asked: u64) -> u64 {
        1
    }

    /// "sample flags": that of a sample is 2 to its index
    fn flag_of(index: u64) -> u64 {
        1 << index
    }

    /// "Combining adds coverage"
    fn coverage_of_both(left: u64, right: u64) -> u64 {
        left.wrapping_add(right)
    }

    /// "keeps the left tag where there is one and otherwise takes the right"
    fn tag_of_both(left: u64, right: u64) -> u64 {
        if left == 0 { right } else { left }
    }

    /// "joins the flags"
    fn flags_of_both(left: u64, right: u64) -> u64 {
        left | right
    }

    /// "and keeps the left id"
    fn id_of_both(left: u64, _right: u64) -> u64 {
        left
    }

    /// "combine hands both inputs back as they were"
    fn left_after(before: [u64; 28], combined: [u64; 28], refused: bool) -> [u64; 28] {
        if refused { before } else { combined }
    }

    // Document 02, P13: check a path someone else proposes

    /// "Table, part and settings refusals come first; a proposal over 64 rows or 64 positions is a 54 after them."
    fn proposal_refusals() -> &'static [u32] {
        &[1, 2, 3, 4, 5, 6, 7, 8, 9, 10, 16, 54]
    }

    /// "over 64 rows or 64 positions"
    fn proposal_is_long(rows: usize, positions: usize) -> bool {
        rows > 64 || positions > 64
    }

    /// "the rows are a chain": as they are sent each is later than the one before
    fn rows_ascend(rows: &[u32]) -> bool {
        rows.windows(2).all(|pair| pair[0] < pair[1])
    }

    /// "the positions are one of the part lists"
    fn is_a_part_list(positions: &[u32], lists: &[Vec<u32>], _m: usize) -> bool {
        lists.iter().any(|list| list == positions)
    }

    /// "gives that score, greater than 0, bit for bit"
    fn is_that_score(score: f32, proposed: f32) -> bool {
        score > 0.0 && score.to_bits() == proposed.to_bits()
    }

    /// "whether the job asks for one-to-one, or V exceeds maxnodes, plays no part"
    fn mode_forbids(_s: &Settings, _v: usize) -> bool {
        false
    }
}
