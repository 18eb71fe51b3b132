//! A job's bytes moved from one edition of the form to the other, and back where that loses nothing.
use crate::{checked, raw, Refusal};

/// The shortest record of a variant, which grows by a number of four bytes; the settings grow by one.
const VARIANT: usize = 26;

/// A job's bytes in the edition asked for, 1 or 2.
///
/// To edition 2 the row numbers become record numbers and `letters` is 0. Refused by the form's first
/// fault, then by 22 for a job already in that edition or an edition that there is not, 28 for a
/// record number that is not its row, 29 for `letters` 1. There and back gives the first bytes.
///
/// ```
/// use ndigomarr::{move_job, Refusal};
///
/// let mut job = vec![0; 42]; // settings, and the end
/// job[0] = 1;
/// let second = move_job(&job, 2)?;
/// assert_eq!((second[0], second.len()), (0x11, 43));
/// assert_eq!(move_job(&second, 1)?, job);
/// assert_eq!(move_job(&job, 1), Err(Refusal::OutOfPlace));
/// # Ok::<(), ndigomarr::Refusal>(())
/// ```
pub fn move_job(job: &[u8], edition: u32) -> Result<Vec<u8>, Refusal> {
    let mut out = vec![0; job.len() + 1 + 4 * (job.len() / VARIANT)];
    let mut written = 0;
    let number = raw::move_job(job, edition, &mut out, &mut written);
    out.truncate(written as usize);
    checked(number, out)
}

/// What a safe caller cannot see: the lent buffer itself.
#[cfg(test)]
mod tests {
    use crate::raw::move_job;

    /// Settings of k 4 whose first float is a NaN that signals, a variant of one letter and the end.
    fn job() -> Vec<u8> {
        let mut job = vec![0; 41];
        (job[0], job[1]) = (1, 4);
        job[25..29].copy_from_slice(&[1, 0, 0xa0, 0x7f]);
        let mut variant = [0; 26];
        (variant[0], variant[22]) = (2, 1);
        job.extend(variant);
        job.push(4);
        job.extend(*b"A\0\0\0\0\0\0\0\0\0\0\0\0\0\0\0");
        job.push(0);
        job
    }

    #[test]
    fn what_the_editions_share_is_copied_and_the_rest_of_the_buffer_stays() {
        let (first, mut out, mut written) = (job(), [7; 100], 9);
        assert_eq!(move_job(&first, 2, &mut out, &mut written), 0);
        assert_eq!(written as usize, first.len() + 5);
        let mut wanted = vec![0x11];
        wanted.extend(&first[1..41]);
        wanted.extend([0, 0x12]);
        wanted.extend(&first[42..67]);
        wanted.extend([0; 4]);
        wanted.extend(&first[67..]);
        assert_eq!(&out[..wanted.len()], wanted);
        assert!(out[wanted.len()..].iter().all(|&byte| byte == 7));
        let mut back = vec![7; first.len()];
        assert_eq!(move_job(&wanted, 1, &mut back, &mut written), 0);
        assert_eq!((back, written as usize), (first.clone(), first.len()));
    }

    /// The refusal, after which nothing is written.
    fn refused(job: &[u8], edition: u32, room: usize) -> u32 {
        let (mut out, mut written) = (vec![7; room], 9);
        let number = move_job(job, edition, &mut out, &mut written);
        assert!(out.iter().all(|&byte| byte == 7));
        assert_eq!(written, 0);
        number
    }

    #[test]
    fn refusals_come_in_their_order_and_write_nothing() {
        let first = job();
        let mut second = vec![0; first.len() + 5];
        assert_eq!(move_job(&first, 2, &mut second, &mut 0), 0);
        assert_eq!(refused(&first[..first.len() - 1], 2, 0), 21);
        for (edition, job) in [(1, &first), (2, &second), (0, &first), (3, &second)] {
            assert_eq!(refused(job, edition, 0), 22);
        }
        assert_eq!(refused(&first, 2, first.len() + 4), 30);
        assert_eq!(refused(&second, 1, first.len() - 1), 30);
        let mut letters = second.clone();
        letters[41] = 1;
        assert_eq!(refused(&letters, 1, 0), 29);
        let mut number = letters.clone();
        number[68] = 1;
        assert_eq!(refused(&number, 1, 0), 28);
        assert_eq!(refused(&number, 2, 0), 22);
    }
}
