//! A job's records changed as a fuzzer of bytes does not: swapped, repeated, taken out, moved, of the other edition, a field at a telling value; two jobs joined;
//! and the form mended, so that most of what comes out is read to its end.
use judge::job::{shape, LETTERS_AT, NUMBER_AT};
use judge::moving::records;
use judge::random::Random;

type Records = Vec<Vec<u8>>;

/// The whole records, and what is left behind them as one more.
fn cut(bytes: &[u8]) -> Records {
    let mut found: Records = records(bytes).into_iter().map(<[u8]>::to_vec).collect();
    let whole = found.iter().map(Vec::len).sum();
    found.extend((whole < bytes.len()).then(|| bytes[whole..].to_vec()));
    found
}

pub fn changed(r: &mut Random, bytes: &[u8]) -> Vec<u8> {
    let mut found = cut(bytes);
    (0..1 + r.below(3)).for_each(|_| change(r, &mut found));
    if r.chance(75) { mended(r, &found.concat()) } else { found.concat() }
}

pub fn mended(r: &mut Random, bytes: &[u8]) -> Vec<u8> {
    mend(r, cut(bytes)).concat()
}

/// The front of one job and the back of another.
pub fn joined(r: &mut Random, one: &[u8], other: &[u8]) -> Vec<u8> {
    let (mut front, back) = (cut(one), cut(other));
    front.truncate(r.below(front.len() as u64 + 1) as usize);
    front.extend(back.into_iter().skip(r.below(records(other).len() as u64 + 1) as usize));
    if r.chance(75) { mend(r, front).concat() } else { front.concat() }
}

fn change(r: &mut Random, found: &mut Records) {
    if found.is_empty() {
        return found.push(vec![r.pick(&[0x00, 0x01, 0x05, 0x11])]);
    }
    let count = found.len() as u64;
    let (at, to) = (r.below(count) as usize, r.below(count) as usize);
    match r.below(12) {
        0 => found.swap(at, to),
        1 => found.insert(to, found[at].clone()),
        2 => drop(found.remove(at)),
        3 => found[at.min(to)..=at.max(to)].rotate_left(1),
        4 => exchange_edition(&mut found[at], to as u32),
        5 => found.iter_mut().zip(0..).for_each(|(record, number)| exchange_edition(record, number)),
        6 => found.insert(to, vec![0x05]),
        7 => found.insert(to, vec![0x03, r.below(4) as u8, 0, 0, 0, 0, 0, 0, 0, 0]),
        8 => take_field(r, found, at, to),
        _ => change_field(r, &mut found[at]),
    }
}

/// Settings or a variant of one edition as of the other, a variant of edition 2 with this record number.
fn exchange_edition(record: &mut Vec<u8>, number: u32) {
    match (record[0], record.len()) {
        (0x01, 41) => record.push(0),
        (0x02, 26) => record.extend(number.to_le_bytes()),
        (0x11, 42) => record.truncate(1 + LETTERS_AT),
        (0x12, 30) => record.truncate(1 + NUMBER_AT),
        _ => return,
    }
    record[0] ^= 0x10;
}

/// A field of one record as another of its kind has it, or one more or less.
fn take_field(r: &mut Random, found: &mut Records, at: usize, from: usize) {
    let other = found[from].clone();
    let (starts, lengths): (&[usize], &[usize]) = match (other[0], other.len()) {
        (0x02, 26) => (&[1, 9, 17], &[8, 8, 4]),
        (0x12, 30) => (&[1, 9, 17, 26], &[8, 8, 4, 4]),
        (0x03, 10) => (&[1], &[4]),
        _ => return,
    };
    let (field, into) = (r.below(starts.len() as u64) as usize, r.below(starts.len() as u64) as usize);
    if found[at].len() != other.len() || lengths[field] != lengths[into] {
        return;
    }
    let mut held = other[starts[field]..][..lengths[field]].to_vec();
    held[0] = held[0].wrapping_add(r.pick(&[0, 0, 1, 255]));
    found[at][starts[into]..][..held.len()].copy_from_slice(&held);
}

/// One field of a record at a value that tells something.
fn change_field(r: &mut Random, record: &mut [u8]) {
    const WHOLES: [u32; 16] = [0, 1, 2, 3, 5, 8, 10, 12, 13, 63, 64, 4_095, 65_535, 65_536, 16_777_216, 16_777_217];
    const FLOATS: [f32; 12] = [0.0, -0.0, 0.1, 0.3, 0.5, 1.0, 1.000_000_1, 1e-45, 1000.0, 1000.0001, f32::NAN, f32::INFINITY];
    const SIZES: [i32; 10] = [0, 1, -1, 2, -2, 4, 131_072, 131_073, -131_072, -131_073];
    let (whole, float, size) = (r.pick(&WHOLES).to_le_bytes(), r.pick(&FLOATS).to_le_bytes(), r.pick(&SIZES).to_le_bytes());
    let (flag, k, letter) = (r.pick(&[0, 1, 1, 2]), r.below(7) as u8, r.pick(b"AACCGGTTacgtNn\0"));
    let at = match (record[0], record.len(), r.below(4)) {
        (0x01, 41, 0) | (0x11, 42, 0) => return record[1] = k,
        (0x11, 42, 1) if flag > 0 => return record[1 + LETTERS_AT] = flag - 1,
        (0x01, 41, 1) | (0x11, 42, 1) => return record[2 + r.below(3) as usize] = flag,
        (0x01, 41, 2) | (0x11, 42, 2) => return record[5 + 4 * r.below(5) as usize..][..4].copy_from_slice(&whole),
        (0x01, 41, _) | (0x11, 42, _) => return record[25 + 4 * r.below(4) as usize..][..4].copy_from_slice(&float),
        (0x02, 26, 0) | (0x12, 30, 0) => return record[17..21].copy_from_slice(&size),
        (0x03, 10, 0) => return record[1..5].copy_from_slice(&size),
        (0x02, 26, 1) | (0x12, 30, 1) => 21,
        (0x03, 10, 1) => 5,
        (0x02, 26, 2) | (0x12, 30, 2) => 22,
        (0x03, 10, 2) => 6,
        (0x02, 26, _) | (0x12, 30, _) => r.pick(&[1, 9]),
        (0x04, 17, _) => return record[1 + r.below(16) as usize] = letter,
        _ => return,
    };
    record[at] = if matches!(at, 21 | 5) { flag } else { record[at].wrapping_add(r.pick(&[0, 1, 255])) };
}

/// The records that a job may have, in their order: settings of one edition, variants, parts, the end; letters as their counts say, padded by zeros; mostly rising starts.
fn mend(r: &mut Random, found: Records) -> Records {
    let (settings, others): (Records, Records) = found.into_iter().partition(|record| matches!((record[0], record.len()), (0x01, 41) | (0x11, 42)));
    let Some(settings) = settings.into_iter().next() else { return others };
    let variant = settings[0] + 1;
    let mut sequences: Vec<Records> = vec![];
    for mut record in others {
        match (record[0], record.len(), sequences.last_mut()) {
            (0x04, 17, Some(sequence)) if sequence[0][0] != 0x05 => sequence.push(record),
            (0x02, 26, _) | (0x12, 30, _) | (0x03, 10, _) | (0x05, 1, _) => {
                if record[0] ^ variant == 0x10 {
                    exchange_edition(&mut record, sequences.len() as u32);
                }
                sequences.push(vec![record]);
            }
            _ => {}
        }
    }
    sequences.iter_mut().for_each(|sequence| mend_letters(r, sequence));
    let start = |sequence: &Records| u64::from_le_bytes(sequence[0][1..9].try_into().expect("eight bytes"));
    let (mut variants, parts): (Vec<Records>, Vec<Records>) = sequences.into_iter().partition(|sequence| sequence[0][0] == variant);
    if r.chance(90) {
        variants.sort_by_key(start);
    }
    [settings].into_iter().chain(variants.into_iter().chain(parts).flatten()).chain([vec![0x00]]).collect()
}

/// The count of letters as many as stand behind, and zeros behind the last.
fn mend_letters(r: &mut Random, sequence: &mut Records) {
    let Some(at) = shape(sequence[0][0]).and_then(|shape| shape.count).map(|at| at + 1) else { return };
    let room = 16 * (sequence.len() - 1);
    let count = u32::from_le_bytes(sequence[0][at..at + 4].try_into().expect("four bytes")) as usize;
    let count = if count <= room && count + 16 > room { count } else { room - r.below(16).min(room as u64) as usize };
    sequence[0][at..at + 4].copy_from_slice(&(count as u32).to_le_bytes());
    if room > 0 {
        sequence.last_mut().expect("letters")[1 + 16 - (room - count)..].fill(0);
    }
}
