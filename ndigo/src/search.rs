//! The proved library, asked about a sheet.
use crate::job::LETTERS_LIMIT;
use crate::model::{Sequence, Sheet, MAXPATHS, SEQSIM, SIZESIM};
use crate::refusals::{self, Refusal};
use ndigomarr::{Answer, Haplotype, Room, Settings, Table, Target};
use std::cell::RefCell;

/// Of a table or a haplotype that is too long anyway, one more than the limit is enough to be refused.
const ENOUGH: usize = 65;

/// What the library must see: that, and every sequence over the limit, since letters are counted before rows are.
fn seen(row: usize, sequence: &Sequence) -> bool {
    row < ENOUGH || sequence.letters.len() > LETTERS_LIMIT
}

pub fn table(sheet: &Sheet, settings: &Settings) -> Result<Table, ndigomarr::Refusal> {
    let mut table = settings.table();
    for (_, variant) in sheet.variants.iter().enumerate().filter(|(row, variant)| seen(*row, &variant.sequence)) {
        let sequence = &variant.sequence;
        table.add(variant.start, variant.end, sequence.size, &sequence.letters, sequence.negative)?;
    }
    let numbers: Vec<u32> = (0..table.len()).map(|row| sheet.number(row) as u32).collect();
    Ok(table.with_record_numbers(&numbers))
}

pub fn haplotype(parts: &[Sequence], settings: &Settings) -> Result<Haplotype, ndigomarr::Refusal> {
    let mut haplotype = settings.haplotype();
    for (_, part) in parts.iter().enumerate().filter(|(row, part)| seen(*row, part)) {
        haplotype.add(part.size, &part.letters, part.negative)?;
    }
    Ok(haplotype)
}

thread_local! {
    /// Kept from one call to the next: asking for it anew takes longer than a small search.
    static ROOM: RefCell<Room> = RefCell::new(Room::new());
}

/// The answer of each haplotype, by one call of the library.
fn asked(sheet: &Sheet) -> Result<Vec<Result<Answer, ndigomarr::Refusal>>, ndigomarr::Refusal> {
    let settings = sheet.settings.to_library();
    let table = table(sheet, &settings)?;
    let haplotypes: Result<Vec<Haplotype>, _> = sheet.part_lists().into_iter().map(|parts| haplotype(parts, &settings)).collect();
    let haplotypes = haplotypes?;
    ROOM.with(|room| ndigomarr::apply_haplotypes_in(&settings, &table, &haplotypes, &mut room.borrow_mut()))
}

/// The library's own refusal first, then what else is told of the sheet.
pub fn with_first(refusal: ndigomarr::Refusal, mut reasons: Vec<Refusal>) -> Vec<Refusal> {
    if reasons.first().map(|reason| reason.number) != Some(refusal.number()) {
        reasons.insert(0, Refusal::of_number(refusal.number()));
    }
    reasons
}

/// A haplotype's answer, or every reason why it alone is refused.
pub type Own = Result<Answer, Vec<Refusal>>;

/// The library's answer for each haplotype, or every reason why the whole sheet is refused. With one haplotype every refusal is the sheet's.
pub fn answers(sheet: &Sheet) -> Result<Vec<Own>, Vec<Refusal>> {
    let several = sheet.part_lists().len() > 1;
    let whole = |refusal| with_first(refusal, if several { refusals::of_whole(sheet) } else { refusals::of(sheet) });
    let own = asked(sheet).map_err(whole)?;
    let each = sheet.each();
    let alone = |(answer, own): (Result<Answer, ndigomarr::Refusal>, &Sheet)| {
        answer.map_err(|refusal| with_first(refusal, refusals::of_parts(own)).into_iter().map(|reason| reason.of_haplotype(own)).collect())
    };
    Ok(own.into_iter().zip(&each).map(alone).collect())
}

/// Whether a path that someone else proposes for a haplotype, in a sheet of its own, is a good one; or every reason why that is refused.
/// Record numbers play no part in it.
pub fn check_path(own: &Sheet, rows: &[usize], positions: &[usize], score: f32) -> Result<bool, Vec<Refusal>> {
    let settings = own.settings.to_library();
    let asked = table(own, &settings).and_then(|table| ndigomarr::check_path(&settings, &table, &haplotype(&own.parts, &settings)?, rows, positions, score));
    asked.map_err(|refusal| with_first(refusal, refusals::of(own).into_iter().filter(|reason| reason.number != 14).collect()))
}

/// Every reason why the library refuses, as `answers` gives them; the search itself is left at its first path, since it refuses nothing.
pub fn refused(sheet: &Sheet) -> Vec<Refusal> {
    let mut short = sheet.clone();
    let maxpaths = &mut short.settings.words[MAXPATHS];
    *maxpaths = if *maxpaths <= 4095 { 0 } else { *maxpaths };
    match answers(&short) {
        Err(reasons) => reasons,
        Ok(each) => each.into_iter().filter_map(Result::err).flatten().collect(),
    }
}

/// Where a haplotype, in a sheet of its own, found nothing: the best path with both thresholds at 0, if even that finds one.
pub fn without_thresholds(own: &Sheet) -> Option<Answer> {
    let mut free = own.clone();
    free.settings.words[SIZESIM] = 0;
    free.settings.words[SEQSIM] = 0;
    asked(&free).ok()?.pop()?.ok().filter(|answer| answer.target != Target::Nothing)
}

/// Whether the search will stop before it has scored all paths.
#[derive(Clone, Copy, Debug, PartialEq, Eq)]
pub enum Foretold {
    ScoresAll,
    StopsEarly,
    /// The table has as many paths as can be counted, and as many are scored: only if these are all are all scored.
    Open,
}

/// What the chain count says beforehand. It counts up to 4,096, so at the largest maxpaths a row less is asked about too: a table
/// that has so many paths without one of its rows has more with it.
pub fn foretold(sheet: &Sheet) -> Foretold {
    const CAP: u32 = 4096;
    let settings = sheet.settings.to_library();
    let count = |without: Option<usize>, cap: u32| {
        let mut table = Table::new(settings.k);
        for (_, variant) in sheet.variants.iter().take(ENOUGH).enumerate().filter(|(row, _)| Some(*row) != without) {
            table.add_counted(variant.start, variant.end, 0, &[]);
        }
        ndigomarr::count_chains(&table, settings.full, cap).unwrap_or(0)
    };
    let scored = settings.maxpaths.saturating_add(1);
    if sheet.one_to_one() || scored > CAP || count(None, CAP.min(scored + 1)) < CAP.min(scored + 1) {
        Foretold::ScoresAll
    } else if scored < CAP || (0..sheet.variants.len()).any(|row| count(Some(row), CAP) == CAP) {
        Foretold::StopsEarly
    } else {
        Foretold::Open
    }
}

/// Size and features, by the library's own counter.
pub fn counted(sequence: &Sequence, settings: &Settings) -> Option<(i64, Vec<i32>)> {
    Some((i64::from(sequence.size), ndigomarr::seq_to_kmer(&sequence.letters, settings.k, sequence.negative, settings.letters).ok()?))
}

fn summed<'a>(counted: impl Iterator<Item = &'a (i64, Vec<i32>)>, k: u8) -> (i64, Vec<i32>) {
    counted.fold((0, vec![0; 1 << (2 * k)]), |(size, mut features), (more, row)| {
        features.iter_mut().zip(row).for_each(|(sum, entry)| *sum += entry);
        (size + more, features)
    })
}

/// Every ascending list of `count` places below `length`, in lexicographic order.
fn lists(length: usize, count: usize) -> Vec<Vec<usize>> {
    let mut all = vec![vec![]];
    for taken in 0..count {
        let extended = |list: &Vec<usize>| {
            let from = list.last().map_or(0, |last| last + 1);
            (from..=length + taken - count).map(|next| [list.clone(), vec![next]].concat()).collect::<Vec<_>>()
        };
        all = all.iter().flat_map(extended).collect();
    }
    all
}

/// How alike some rows and some parts are.
pub struct Alike {
    /// Whether the sizes have one sign.
    pub signs: bool,
    pub sizesim: f32,
    pub seqsim: f32,
}

/// By the library's own similarities; none where a sequence or a sum is over its limit.
pub fn alike(sheet: &Sheet, rows: &[usize], parts: &[usize]) -> Option<Alike> {
    let settings = sheet.settings.to_library();
    let rows: Option<Vec<_>> = rows.iter().map(|&row| counted(&sheet.variants[row].sequence, &settings)).collect();
    let parts: Option<Vec<_>> = parts.iter().map(|&part| counted(&sheet.parts[part], &settings)).collect();
    let ((size, features), (part_size, part_features)) = (summed(rows?.iter(), settings.k), summed(parts?.iter(), settings.k));
    Some(Alike {
        signs: size.signum() == part_size.signum(),
        sizesim: ndigomarr::sizesim(size.unsigned_abs(), part_size.unsigned_abs()).ok()?,
        seqsim: ndigomarr::seqsim(&features, &part_features, settings.minkfreq).ok()?,
    })
}

/// Which parts the answer's list holds; none where nothing was matched. The library says how many were left out; the list is the
/// first of that length, in the rules' order, that has the sign and both similarities of the answer, bit for bit: a later one that
/// scores the same replaces nothing.
pub fn used_parts(sheet: &Sheet, answer: &Answer) -> Option<Vec<usize>> {
    let all = sheet.parts.len();
    let left_out = match answer.target {
        Target::Nothing => return None,
        Target::Whole => return Some((0..all).collect()),
        Target::Partial(left_out) => left_out as usize,
    };
    let settings = sheet.settings.to_library();
    let rows: Option<Vec<_>> = answer.rows.iter().map(|&row| counted(&sheet.variants[row].sequence, &settings)).collect();
    let parts: Option<Vec<_>> = sheet.parts.iter().map(|part| counted(part, &settings)).collect();
    let (rows, parts) = (rows?, parts?);
    let (size, features) = summed(rows.iter(), settings.k);
    lists(all, all.checked_sub(left_out)?).into_iter().find(|list| {
        let (part_size, part_features) = summed(list.iter().map(|&part| &parts[part]), settings.k);
        let sizes = ndigomarr::sizesim(size.unsigned_abs(), part_size.unsigned_abs());
        let letters = ndigomarr::seqsim(&features, &part_features, settings.minkfreq);
        let same = |found: Result<f32, _>, wanted: f32| found.is_ok_and(|found| found.to_bits() == wanted.to_bits());
        size.signum() == part_size.signum() && same(sizes, answer.sizesim) && same(letters, answer.seqsim)
    })
}

#[cfg(test)]
mod tests {
    use super::lists;

    #[test]
    fn lists_in_order() {
        assert_eq!(lists(3, 2), [[0, 1], [0, 2], [1, 2]]);
        assert_eq!(lists(3, 3), [[0, 1, 2]]);
        assert_eq!(lists(11, 8).len(), 165);
    }
}
