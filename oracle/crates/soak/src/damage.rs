//! Damage that keeps most of a job's form: each way changes one thing, and a job meets one to four of them.
use crate::records::pieces;
use judge::job::{self, record_length, shape, LETTERS_AT, NUMBER_AT};
use judge::moving::other_edition;
use judge::random::Random;
use judge::rules::DOCUMENT;
use std::ops::Range;

type Way = fn(&mut Random, &mut Vec<u8>, &[u8]);

/// The ways, each under its name. The last slice is another job.
pub const WAYS: [(&str, Way); 26] = [
    ("bits flipped", flip_bits),
    ("a byte set", set_byte),
    ("cut anywhere", |r, bytes, _| bytes.truncate(place(r, bytes))),
    ("cut at a record's border", |r, bytes, _| bytes.truncate(border(r, bytes))),
    ("joined with another job", join),
    ("a record repeated", |r, bytes, _| repeat(r, bytes, 1)),
    ("a record removed", |r, bytes, _| drop(bytes.drain(piece(r, bytes)))),
    ("a record moved", move_record),
    ("two records swapped", swap_records),
    ("a letter count off by one", count_off),
    ("a letter count at a limit", count_at_limit),
    ("a setting at its limit or past it", setting_at_limit),
    ("a float setting at its limit or past it", float_at_limit),
    ("a flag over 1", flag_over),
    ("16 or 17 variants", |r, bytes, _| fill_up(r, bytes, &[0x02, 0x12], &[16, 17])),
    ("8 or 9 parts", |r, bytes, _| fill_up(r, bytes, &[0x03], &[8, 9])),
    ("16 or 17 haplotypes", fill_haplotypes),
    ("a size at its limit or past it", size_at_limit),
    ("bounds turned or falling", bounds),
    ("a record number repeated", repeat_number),
    ("padding", padding),
    ("the other edition's kind", other_kind),
    ("a record of the other edition", other_record),
    ("the whole job in the other edition", move_edition),
    ("an unknown kind", unknown_kind),
    ("bytes behind the end", behind),
];

/// Rare, since such jobs are long.
pub const LENGTH: &str = "32,768 bytes, one less or one past";

/// One to four ways are taken; their places in `WAYS` are noted, behind them that of `LENGTH`.
pub fn damage(r: &mut Random, bytes: &mut Vec<u8>, other: &[u8], noted: &mut [u64]) {
    if r.below(400) == 0 {
        noted[WAYS.len()] += 1;
        stretch(r, bytes);
    }
    for _ in 0..r.pick(&[1, 1, 1, 2, 2, 3, 4]) {
        let way = r.below(WAYS.len() as u64) as usize;
        noted[way] += 1;
        if bytes.is_empty() {
            bytes.push(r.below(6) as u8);
        }
        (WAYS[way].1)(r, bytes, other);
    }
}

fn place(r: &mut Random, bytes: &[u8]) -> usize {
    r.below(bytes.len() as u64) as usize
}

fn piece(r: &mut Random, bytes: &[u8]) -> Range<usize> {
    r.pick(&pieces(bytes))
}

fn border(r: &mut Random, bytes: &[u8]) -> usize {
    piece(r, bytes).start
}

/// A whole record of one of these kinds.
fn record_of(r: &mut Random, bytes: &[u8], kinds: &[u8]) -> Option<Range<usize>> {
    let whole = |range: &Range<usize>| kinds.contains(&bytes[range.start]) && range.len() == record_length(bytes[range.start]);
    let found: Vec<Range<usize>> = pieces(bytes).into_iter().filter(whole).collect();
    (!found.is_empty()).then(|| r.pick(&found))
}

fn put(bytes: &mut [u8], at: usize, value: &[u8]) {
    bytes[at..at + value.len()].copy_from_slice(value);
}

fn flip_bits(r: &mut Random, bytes: &mut Vec<u8>, _: &[u8]) {
    for _ in 0..1 + r.below(3) {
        let at = if r.chance(30) { border(r, bytes) } else { place(r, bytes) };
        bytes[at] ^= 1 << r.below(8);
    }
}

fn set_byte(r: &mut Random, bytes: &mut Vec<u8>, _: &[u8]) {
    let at = if r.chance(30) { border(r, bytes) } else { place(r, bytes) };
    let any = r.next() as u8;
    bytes[at] = r.pick(&[0, 1, 2, 0xff, any]);
}

/// The front of this job and the back of another, cut at records' borders.
fn join(r: &mut Random, bytes: &mut Vec<u8>, other: &[u8]) {
    let front = border(r, bytes);
    let back = if other.is_empty() { 0 } else { border(r, other) };
    bytes.truncate(front);
    bytes.extend_from_slice(&other[back..]);
}

fn repeat(r: &mut Random, bytes: &mut Vec<u8>, times: usize) {
    let range = piece(r, bytes);
    let record = bytes[range.clone()].repeat(times);
    bytes.splice(range.end..range.end, record);
}

fn move_record(r: &mut Random, bytes: &mut Vec<u8>, _: &[u8]) {
    let record: Vec<u8> = bytes.drain(piece(r, bytes)).collect();
    let to = if bytes.is_empty() { 0 } else { border(r, bytes) };
    bytes.splice(to..to, record);
}

fn swap_records(r: &mut Random, bytes: &mut Vec<u8>, _: &[u8]) {
    let (one, other) = (piece(r, bytes), piece(r, bytes));
    let (first, second) = if one.start <= other.start { (one, other) } else { (other, one) };
    if first.start < second.start {
        let (front, back) = (bytes[first.clone()].to_vec(), bytes[second.clone()].to_vec());
        bytes.splice(second, front);
        bytes.splice(first, back);
    }
}

/// Where a variant or a part has its letter count.
fn count_field(r: &mut Random, bytes: &[u8]) -> Option<usize> {
    let range = record_of(r, bytes, &[0x02, 0x03, 0x12])?;
    shape(bytes[range.start])?.count.map(|at| range.start + 1 + at)
}

fn count_off(r: &mut Random, bytes: &mut Vec<u8>, _: &[u8]) {
    if let Some(at) = count_field(r, bytes) {
        let count = u32::from_le_bytes(bytes[at..at + 4].try_into().expect("four bytes"));
        let off = r.pick(&[count.wrapping_add(1), count.wrapping_sub(1)]);
        put(bytes, at, &off.to_le_bytes());
    }
}

fn count_at_limit(r: &mut Random, bytes: &mut Vec<u8>, _: &[u8]) {
    if let Some(at) = count_field(r, bytes) {
        let count: u32 = r.pick(&[0, 1, 3, 15, 16, 17, 131_071, 131_072, 131_073, u32::MAX]);
        put(bytes, at, &count.to_le_bytes());
    }
}

/// Where the settings have their wholes, with each one's limits and one past them, the program's too.
const WHOLES: [(usize, &[u32]); 5] = [
    (4, &[0, 62, 63, 64, 4_095, 4_096, u32::MAX]),
    (8, &[0, 1, 15, 16, 65_535, 65_536, u32::MAX]),
    (12, &[0, 1, 65_535, 65_536, u32::MAX]),
    (16, &[0, 1, 12, 13, u32::MAX]),
    (20, &[0, 1, 16_777_216, 16_777_217, u32::MAX]),
];

fn setting_at_limit(r: &mut Random, bytes: &mut Vec<u8>, _: &[u8]) {
    let Some(range) = record_of(r, bytes, &[0x01, 0x11]) else { return };
    let body = range.start + 1;
    if r.chance(30) {
        bytes[body] = r.pick(&[0, 1, 3, 4, 5, 6, 7, 255]);
        return;
    }
    let (at, values) = r.pick(&WHOLES);
    put(bytes, body + at, &r.pick(values).to_le_bytes());
}

const FLOATS: [f32; 14] =
    [0.0, -0.0, 0.5, 1.0, 1.000_000_1, 0.999_999_94, 1000.0, 1000.0001, -1e-45, 1e-45, f32::NAN, f32::INFINITY, f32::NEG_INFINITY, -1.0];

fn float_at_limit(r: &mut Random, bytes: &mut Vec<u8>, _: &[u8]) {
    let Some(range) = record_of(r, bytes, &[0x01, 0x11]) else { return };
    let at = range.start + 1 + 24 + 4 * r.below(4) as usize;
    put(bytes, at, &r.pick(&FLOATS).to_bits().to_le_bytes());
}

fn flag_over(r: &mut Random, bytes: &mut Vec<u8>, _: &[u8]) {
    let Some(range) = record_of(r, bytes, &[0x01, 0x02, 0x03, 0x11, 0x12]) else { return };
    let kind = bytes[range.start];
    let mut flags = shape(kind).expect("a known kind").flags.to_vec();
    if kind == 0x11 {
        flags.push(LETTERS_AT);
    }
    bytes[range.start + 1 + r.pick(&flags)] = r.pick(&[0, 1, 2, 2, 3, 128, 255]);
}

/// A record of these kinds with the letters that follow it.
fn event_of(r: &mut Random, bytes: &[u8], kinds: &[u8]) -> Option<Range<usize>> {
    let first = record_of(r, bytes, kinds)?;
    let mut until = first.end;
    while bytes.get(until) == Some(&0x04) && until + record_length(0x04) <= bytes.len() {
        until += record_length(0x04);
    }
    Some(first.start..until)
}

/// A variant or a part repeated until the whole job, or its one haplotype, has so many.
fn fill_up(r: &mut Random, bytes: &mut Vec<u8>, kinds: &[u8], counts: &[usize]) {
    let Some(event) = event_of(r, bytes, kinds) else { return };
    let is_of = |range: &Range<usize>| kinds.contains(&bytes[range.start]);
    let have = pieces(bytes).iter().filter(|range| is_of(range)).count();
    let more = r.pick(counts).saturating_sub(have);
    let events = bytes[event.clone()].repeat(more);
    bytes.splice(event.end..event.end, events);
    if kinds.contains(&0x12) && r.chance(70) {
        number_rows(bytes);
    }
}

/// Each variant of edition 2 with its row as record number, so that none is repeated.
fn number_rows(bytes: &mut [u8]) {
    let variants = pieces(bytes).into_iter().filter(|range| range.len() == record_length(0x12) && bytes[range.start] == 0x12);
    for (row, range) in variants.collect::<Vec<_>>().into_iter().enumerate() {
        put(bytes, range.start + 1 + NUMBER_AT, &(row as u32).to_le_bytes());
    }
}

fn fill_haplotypes(r: &mut Random, bytes: &mut Vec<u8>, _: &[u8]) {
    let have = 1 + pieces(bytes).iter().filter(|range| bytes[range.start] == 0x05).count();
    let more = r.pick(&[16usize, 17]).saturating_sub(have);
    let at = if r.chance(70) { bytes.len() - 1 } else { border(r, bytes) };
    bytes.splice(at..at, vec![0x05; more]);
}

fn size_at_limit(r: &mut Random, bytes: &mut Vec<u8>, _: &[u8]) {
    let Some(range) = record_of(r, bytes, &[0x02, 0x03, 0x12]) else { return };
    let at = range.start + 1 + if bytes[range.start] == 0x03 { 0 } else { 16 };
    let size: i32 = r.pick(&[0, 1, -1, 131_072, -131_072, 131_073, -131_073, i32::MIN, i32::MAX]);
    put(bytes, at, &size.to_le_bytes());
}

fn bounds(r: &mut Random, bytes: &mut Vec<u8>, _: &[u8]) {
    let Some(range) = record_of(r, bytes, &[0x02, 0x12]) else { return };
    let at = range.start + 1;
    let field = |at: usize| u64::from_le_bytes(bytes[at..at + 8].try_into().expect("eight bytes"));
    let (start, end) = (field(at), field(at + 8));
    let (start, end) = r.pick(&[
        (end.wrapping_add(1), end),
        (start.wrapping_sub(1), end),
        (start.wrapping_add(1), end),
        (start, start),
        (start, start.wrapping_sub(1)),
        (start, start.wrapping_add(1)),
        (0, end),
        (u64::MAX, u64::MAX),
        (start, u64::MAX),
    ]);
    put(bytes, at, &start.to_le_bytes());
    put(bytes, at + 8, &end.to_le_bytes());
}

fn repeat_number(r: &mut Random, bytes: &mut Vec<u8>, _: &[u8]) {
    let (Some(from), Some(to)) = (record_of(r, bytes, &[0x12]), record_of(r, bytes, &[0x12])) else { return };
    let at = |range: &Range<usize>| range.start + 1 + NUMBER_AT;
    let mut number: [u8; 4] = bytes[at(&from)..at(&from) + 4].try_into().expect("four bytes");
    if r.chance(30) {
        number[r.below(4) as usize] ^= 1;
    }
    put(bytes, at(&to), &number);
}

fn padding(r: &mut Random, bytes: &mut Vec<u8>, _: &[u8]) {
    let Some(range) = record_of(r, bytes, &[0x04]) else { return };
    let any = r.below(16) as usize;
    let at = range.start + 1 + r.pick(&[15, 15, any]);
    bytes[at] = r.pick(&[0, 1, b'A', 0xff]);
}

fn other_kind(r: &mut Random, bytes: &mut Vec<u8>, _: &[u8]) {
    if let Some(range) = record_of(r, bytes, &[0x01, 0x02, 0x11, 0x12]) {
        bytes[range.start] ^= 0x10;
    }
}

/// A record with its body as long as the other edition has it, in the place of one.
fn other_record(r: &mut Random, bytes: &mut Vec<u8>, _: &[u8]) {
    let Some(range) = record_of(r, bytes, &[0x01, 0x02, 0x11, 0x12]) else { return };
    let mut record = bytes[range.clone()].to_vec();
    record[0] ^= 0x10;
    record.resize(record_length(record[0]), r.below(2) as u8);
    bytes.splice(range, record);
}

fn move_edition(_: &mut Random, bytes: &mut Vec<u8>, _: &[u8]) {
    if let Ok(job) = job::read(&DOCUMENT, bytes) {
        *bytes = other_edition(&job).bytes();
    }
}

fn unknown_kind(r: &mut Random, bytes: &mut Vec<u8>, _: &[u8]) {
    let at = border(r, bytes);
    let any = r.next() as u8;
    let kind = r.pick(&[0x06, 0x10, 0x13, 0x21, 0x80, 0xff, any]);
    if r.chance(50) {
        bytes[at] = kind;
    } else {
        bytes.insert(at, kind);
    }
}

fn behind(r: &mut Random, bytes: &mut Vec<u8>, other: &[u8]) {
    let any = r.next() as u8;
    let more = [vec![0x00], vec![any], vec![0x05], vec![0x00; 40], other.to_vec()];
    bytes.extend(r.pick(&more));
}

/// As long as the program reads, a byte less or one more: letters of one variant or part, and for what no record of letters fills, haplotypes without parts.
fn stretch(r: &mut Random, bytes: &mut Vec<u8>) {
    let want = r.pick(&[32_767usize, 32_768, 32_768, 32_769]);
    let Some(event) = event_of(r, bytes, &[0x02, 0x03, 0x12]) else { return };
    let Some(at) = shape(bytes[event.start]).and_then(|shape| shape.count).map(|at| event.start + 1 + at) else { return };
    let record = record_length(0x04);
    let head = record_length(bytes[event.start]);
    let fixed = bytes.len() - (event.len() - head);
    let records = want.saturating_sub(fixed) / record;
    put(bytes, at, &(16 * records as u32).to_le_bytes());
    let letters: Vec<u8> = (0..records).flat_map(|_| std::iter::once(0x04).chain((0..16).map(|_| r.pick(b"ACGTacgtN")).collect::<Vec<u8>>())).collect();
    bytes.splice(event.start + head..event.end, letters);
    let last = bytes.len() - 1;
    bytes.splice(last..last, vec![0x05; want.saturating_sub(last + 1).min(record)]);
}
