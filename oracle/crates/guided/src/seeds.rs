//! What a run begins with: the examples, the stored list, and jobs of the judge's generators in both editions, of one haplotype and of several, good and bad.
use crate::MOST;
use judge::generate::{edition_two_input, input, move_asked, several_input};
use judge::random::Random;
use std::fs;
use std::io;
use std::path::Path;

/// The stored list's jobs: each is four bytes of length and its bytes.
fn stored(mut list: &[u8]) -> Vec<Vec<u8>> {
    let mut jobs = vec![];
    while let Some((length, behind)) = list.split_first_chunk::<4>() {
        let (job, next) = behind.split_at(u32::from_le_bytes(*length) as usize);
        jobs.push(job.to_vec());
        list = next;
    }
    jobs
}

fn examples(folder: &Path) -> io::Result<Vec<Vec<u8>>> {
    let files: Vec<_> = fs::read_dir(folder)?.collect::<io::Result<_>>()?;
    let jobs = files.iter().map(|file| file.path()).filter(|path| path.extension().is_some_and(|end| end == "job"));
    jobs.map(fs::read).collect()
}

/// Those of the checkout in which this runs, and so many drawn jobs of each kind.
pub fn seeds(seed: u64, of_each: u64) -> io::Result<Vec<Vec<u8>>> {
    let mut jobs = examples(Path::new("examples"))?;
    jobs.extend(stored(&fs::read("crates/replay/stdin")?));
    for i in 0..of_each {
        let r = &mut Random::new(seed.wrapping_add(i << 32));
        jobs.extend([input(r), several_input(r), edition_two_input(r), move_asked(r).bytes]);
    }
    jobs.retain(|job| job.len() <= MOST);
    Ok(jobs)
}

/// Two jobs and no more, the worked one in each edition: what the guidance finds from there it finds by itself.
pub fn plain() -> io::Result<Vec<Vec<u8>>> {
    let worked = fs::read("examples/worked.job")?;
    let job = judge::job::read(&judge::rules::DOCUMENT, &worked).expect("examples/worked.job is a job");
    Ok(vec![worked, judge::moving::other_edition(&job).bytes()])
}
