//! The smallest job or call found that still shows something: pieces are left out or made plain as long as it still does.
use crate::call::{queue_need, Call};
use crate::job::{self, Edition, Job, Settings};
use crate::rules::DOCUMENT;
use crate::several::Several;
use std::collections::BTreeSet;

/// Settings with one of them plain.
fn plainer(settings: &Settings) -> Vec<Settings> {
    let mut all = vec![];
    let mut with = |change: &dyn Fn(&mut Settings)| {
        let mut one = settings.clone();
        change(&mut one);
        all.push(one);
    };
    with(&|s| s.squish = false);
    with(&|s| s.one_to_one = false);
    with(&|s| s.full = true);
    for letters in 0..3 {
        with(&|s| s.letters = letters);
    }
    for (value, field) in [(9, 0), (9, 1), (0, 2), (5, 3), (0, 4), (1, 4), (1, 0), (0, 0)] {
        with(&|s| *[&mut s.maxpaths, &mut s.maxnodes, &mut s.fnmax, &mut s.pileupmax, &mut s.minkfreq][field] = value);
    }
    for field in 0..4 {
        for value in [0.0, 0.5] {
            with(&|s| *[&mut s.sizesim, &mut s.seqsim, &mut s.fpenalty, &mut s.gpenalty][field] = value);
        }
    }
    all
}

fn smaller(job: &Job) -> Vec<Job> {
    let mut all = vec![];
    let mut with = |change: &dyn Fn(&mut Job)| {
        let mut one = job.clone();
        change(&mut one);
        all.push(one);
    };
    for i in 0..job.variants.len() {
        if job.variants.len() > 1 {
            with(&|j| drop(j.variants.remove(i)));
        }
        let v = &job.variants[i];
        for length in [0, v.letters.len() / 2, v.letters.len().saturating_sub(1)] {
            with(&|j| j.variants[i].letters.truncate(length));
        }
        for size in [0, 1, -1, v.size / 2] {
            with(&|j| j.variants[i].size = size);
        }
        with(&|j| j.variants[i].negative = false);
        with(&|j| j.variants[i].number = i as u32);
        for (start, end) in [(0, 0), (i as u64, i as u64), (v.start / 2, v.end / 2), (v.start, v.start), (v.start, v.end.saturating_sub(1))] {
            with(&|j| (j.variants[i].start, j.variants[i].end) = (start, end));
        }
    }
    for h in 0..job.haplotypes.len() {
        if job.haplotypes.len() > 1 {
            with(&|j| drop(j.haplotypes.remove(h)));
        }
        for i in 0..job.haplotypes[h].len() {
            with(&|j| drop(j.haplotypes[h].remove(i)));
            let p = &job.haplotypes[h][i];
            for length in [0, p.letters.len() / 2, p.letters.len().saturating_sub(1)] {
                with(&|j| j.haplotypes[h][i].letters.truncate(length));
            }
            for size in [0, 1, -1, p.size / 2] {
                with(&|j| j.haplotypes[h][i].size = size);
            }
            with(&|j| j.haplotypes[h][i].negative = false);
        }
    }
    with(&|j| j.settings.k = 1);
    with(&|j| (j.edition, j.settings.letters) = (Edition::One, 0));
    for settings in plainer(&job.settings) {
        with(&|j| j.settings = settings.clone());
    }
    all
}

/// How far settings are from the plain ones.
fn settings_weight(s: &Settings) -> u64 {
    let plain = [9, 9, 0, 5, 0];
    let wholes: u64 = s.wholes().iter().zip(plain).map(|(&x, p)| 10 * u64::from(x != p) + u64::from(x > p)).sum();
    let floats: u64 = s
        .floats()
        .iter()
        .map(|x| if x.to_bits() == 0 { 0 } else if *x == 0.5 { 1 } else { 3 })
        .sum();
    wholes + floats + 5 * u64::from(s.letters.min(3)) + 10 * u64::from(s.k) + 5 * (u64::from(s.squish) + u64::from(s.one_to_one) + u64::from(!s.full))
}

/// A measure that falls with every step taken, so that shrinking ends.
fn weight(job: &Job) -> u64 {
    let sequence = |letters: &[u8], size: i32, negative: bool| {
        20 + 5 * letters.len() as u64
            + u64::from(size.unsigned_abs()).min(1_000_000)
            + u64::from(size < 0)
            + u64::from(negative)
    };
    let variants: u64 = job
        .variants
        .iter()
        .map(|v| 1000 + sequence(&v.letters, v.size, v.negative) + (v.start >> 1) .min(1 << 40) + v.end.min(1 << 40))
        .sum();
    let odd_numbers = job.numbers().iter().zip(0..).filter(|&(&number, row)| number != row).count() as u64;
    let parts: u64 = job.haplotypes.iter().flatten().map(|p| 1000 + sequence(&p.letters, p.size, p.negative)).sum();
    variants + parts + 1000 * job.haplotypes.len() as u64 + settings_weight(&job.settings) + odd_numbers + 4 * u64::from(job.edition == Edition::Two)
}

/// Steps as long as some smaller job still shows it.
pub fn job(mut job: Job, shows: impl Fn(&Job) -> bool) -> Job {
    loop {
        let now = weight(&job);
        let next = smaller(&job).into_iter().find(|one| weight(one) < now && shows(one));
        match next {
            Some(one) => job = one,
            None => return job,
        }
    }
}

/// Bytes that are a job are made smaller as one; others by leaving bytes out.
pub fn bytes(bytes: Vec<u8>, shows: impl Fn(&[u8]) -> bool) -> Vec<u8> {
    if let Ok(good) = job::read(&DOCUMENT, &bytes) {
        return job(good, |one| shows(&one.bytes())).bytes();
    }
    let mut bytes = bytes;
    loop {
        let cuts = [64, 17, 10, 4, 1].into_iter().flat_map(|cut| (0..bytes.len()).map(move |at| (at, cut)));
        let next = cuts
            .filter(|(at, cut)| at + cut <= bytes.len())
            .map(|(at, cut)| [&bytes[..at], &bytes[at + cut..]].concat())
            .find(|fewer| shows(fewer));
        match next {
            Some(fewer) => bytes = fewer,
            None => return bytes,
        }
    }
}

/// An entry taken out where there is one.
fn leave_out<T>(list: &mut Vec<T>, at: usize, entries: usize) {
    let from = (at * entries).min(list.len());
    list.drain(from..(from + entries).min(list.len()));
}

fn without_row(call: &mut Call, row: usize) {
    let e = call.settings.entries();
    leave_out(&mut call.starts, row, 1);
    leave_out(&mut call.ends, row, 1);
    leave_out(&mut call.sizes, row, 1);
    leave_out(&mut call.features, row, e);
    leave_out(&mut call.numbers, row, 1);
    call.answer_room = call.answer_room.saturating_sub(1);
    call.record_buffer.pop();
}

/// Numbers as small as may be, equal where these are and in their order.
fn ranks(numbers: &[u32]) -> Vec<u32> {
    let different: BTreeSet<u32> = numbers.iter().copied().collect();
    numbers.iter().map(|&number| different.range(..number).count() as u32).collect()
}

/// A row or a part left out or made plain.
fn fewer(call: &Call, with: &mut dyn FnMut(&dyn Fn(&mut Call))) {
    for row in 0..call.starts.len() {
        with(&|c| without_row(c, row));
        with(&|c| {
            c.starts[row] = row as u64;
            c.ends.iter_mut().skip(row).take(1).for_each(|end| *end = row as u64);
        });
    }
    for part in 0..call.part_sizes.len() {
        with(&|c| leave_out(&mut c.part_sizes, part, 1));
        with(&|c| {
            leave_out(&mut c.part_sizes, part, 1);
            leave_out(&mut c.part_features, part, c.settings.entries());
        });
        with(&|c| c.part_sizes[part] = 1);
    }
    for at in 0..call.sizes.len() {
        with(&|c| c.sizes[at] = 1);
    }
}

fn smaller_call(call: &Call) -> Vec<Call> {
    let mut all = vec![];
    let mut with = |change: &dyn Fn(&mut Call)| {
        let mut one = call.clone();
        change(&mut one);
        all.push(one);
    };
    fewer(call, &mut with);
    with(&|c| c.numbers = ranks(&call.numbers));
    for at in 0..call.numbers.len() {
        for number in (0..=at as u32).rev() {
            with(&|c| c.numbers[at] = number);
        }
    }
    for length in 0..call.record_buffer.len() {
        with(&|c| c.record_buffer.truncate(length));
        with(&|c| c.record_buffer[length] = 9);
    }
    with(&|c| c.features.fill(1));
    with(&|c| c.part_features.fill(1));
    with(&|c| c.queue_room = queue_need(&c.settings, c.starts.len()));
    with(&|c| c.answer_room = c.starts.len());
    for settings in plainer(&call.settings) {
        with(&|c| c.settings = settings.clone());
    }
    all
}

fn call_weight(call: &Call) -> u64 {
    let sizes = call.sizes.iter().chain(&call.part_sizes).map(|&size| 1000 + u64::from(size != 1));
    let features = call.features.iter().chain(&call.part_features).map(|&count| 1 + u64::from(count != 1));
    let bounds = call.starts.iter().enumerate().map(|(row, &start)| 1000 + u64::from(start != row as u64));
    let ends = call.ends.iter().enumerate().map(|(row, end)| 1000 + u64::from(call.starts.get(row) != Some(end)));
    let numbers = call.numbers.iter().map(|&number| 100 + u64::from(number).min(99));
    let second = call.record_buffer.iter().map(|&old| 100 + u64::from(old != 9));
    let rooms = u64::from(call.answer_room != call.starts.len()) + u64::from(call.queue_room != queue_need(&call.settings, call.starts.len()));
    sizes.chain(features).chain(bounds).chain(ends).chain(numbers).chain(second).sum::<u64>() + rooms + settings_weight(&call.settings)
}

/// Steps as long as some smaller call still shows it.
pub fn call(mut call: Call, shows: impl Fn(&Call) -> bool) -> Call {
    loop {
        let now = call_weight(&call);
        let next = smaller_call(&call).into_iter().find(|one| call_weight(one) < now && shows(one));
        match next {
            Some(one) => call = one,
            None => return call,
        }
    }
}

/// A haplotype left out with its stretches, whole where its ends are good.
fn without_haplotype(several: &mut Several, at: usize) {
    let cut = |ends: &mut Vec<u64>, length: usize| {
        let from = if at == 0 { 0 } else { ends[at - 1] };
        let until = ends.remove(at).min(length as u64).max(from);
        ends.iter_mut().skip(at).for_each(|end| *end = end.saturating_sub(until - from));
        from.min(length as u64) as usize..until as usize
    };
    if at < several.part_ends.len() {
        let stretch = cut(&mut several.part_ends, several.call.part_sizes.len());
        several.call.part_sizes.drain(stretch);
    }
    if at < several.feature_ends.len() {
        let stretch = cut(&mut several.feature_ends, several.call.part_features.len());
        several.call.part_features.drain(stretch);
    }
    let v = several.rows();
    several.row_buffer.truncate(several.row_buffer.len().saturating_sub(v));
    several.call.record_buffer.truncate(several.call.record_buffer.len().saturating_sub(v));
    several.reports.truncate(several.reports.len().saturating_sub(8));
}

/// The last part of a haplotype left out with its row of features.
fn without_last_part(several: &mut Several, at: usize) {
    let e = several.call.settings.entries();
    let (until, features) = (several.part_ends[at] as usize, several.feature_ends[at] as usize);
    several.call.part_sizes.remove(until - 1);
    several.call.part_features.drain(features - e..features);
    several.part_ends.iter_mut().skip(at).for_each(|end| *end -= 1);
    several.feature_ends.iter_mut().skip(at).for_each(|end| *end -= e as u64);
}

/// A haplotype, a part or a row left out, or a row made plain.
fn fewer_of_several(several: &Several, with: &mut dyn FnMut(&dyn Fn(&mut Several))) {
    let e = several.call.settings.entries() as u64;
    for at in 0..several.count() {
        with(&|s| without_haplotype(s, at));
        let has = |ends: &[u64], room: usize, need: u64| {
            let from = if at == 0 { Some(0) } else { ends.get(at - 1).copied() };
            let until = ends.get(at).copied().unwrap_or(0);
            until <= room as u64 && from.is_some_and(|from| from + need <= until)
        };
        if has(&several.part_ends, several.call.part_sizes.len(), 1) && has(&several.feature_ends, several.call.part_features.len(), e) {
            with(&|s| without_last_part(s, at));
        }
    }
    let table = Call { part_sizes: vec![], ..several.call.clone() };
    fewer(&table, &mut |change| {
        with(&|s| {
            let (rows, before) = (s.rows(), s.call.record_buffer.clone());
            change(&mut s.call);
            let lost = (rows - s.rows()) * s.count();
            s.row_buffer.truncate(s.row_buffer.len().saturating_sub(lost));
            s.call.record_buffer = before[..before.len().saturating_sub(lost)].to_vec();
        });
    });
}

fn smaller_several(several: &Several) -> Vec<Several> {
    let mut all = vec![];
    let mut with = |change: &dyn Fn(&mut Several)| {
        let mut one = several.clone();
        change(&mut one);
        all.push(one);
    };
    fewer_of_several(several, &mut with);
    with(&|s| s.call.numbers = ranks(&several.call.numbers));
    with(&|s| s.call.features.fill(1));
    with(&|s| s.call.part_features.fill(1));
    with(&|s| s.call.part_sizes.fill(1));
    with(&|s| s.call.queue_room = queue_need(&s.call.settings, s.rows()));
    with(&|s| s.row_buffer.fill(9));
    with(&|s| s.call.record_buffer.fill(9));
    with(&|s| s.reports.fill(9));
    with(&|s| s.row_buffer.truncate(s.rows() * s.count()));
    with(&|s| s.call.record_buffer.truncate(s.rows() * s.count()));
    with(&|s| s.reports.truncate(8 * s.count()));
    for settings in plainer(&several.call.settings) {
        with(&|s| s.call.settings = settings.clone());
    }
    all
}

fn several_weight(several: &Several) -> u64 {
    let words = several.row_buffer.iter().chain(&several.reports).map(|&old| 100 + u64::from(old != 9)).sum::<u64>();
    let unlike = |s: &Several| u64::from(s.call.queue_room != queue_need(&s.call.settings, s.rows()));
    call_weight(&several.call) + words + 2000 * (several.part_ends.len() + several.feature_ends.len()) as u64 + unlike(several)
}

/// Steps as long as some smaller call for several still shows it.
pub fn several(mut several: Several, shows: impl Fn(&Several) -> bool) -> Several {
    loop {
        let now = several_weight(&several);
        let next = smaller_several(&several).into_iter().find(|one| several_weight(one) < now && shows(one));
        match next {
            Some(one) => several = one,
            None => return several,
        }
    }
}
