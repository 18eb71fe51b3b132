//! The second program for `letters` 1 (document 02, P6), which the Rust does not have: "1 leaves out each window that holds a byte other than
//! A, G, C, T in either case". Written from the papers' sentences alone and sharing nothing with the judge: the text is cut at such bytes, words are
//! counted as words, and a row lists all words in the papers' order. No number stands for a letter or a window anywhere.
use std::collections::HashMap;

/// "A, G, C and T give 0, 1, 2, 3": the order in which they are listed.
const ORDER: [u8; 4] = *b"AGCT";

/// What stands between bytes that were not read, "in either case".
fn pieces(text: &[u8]) -> impl Iterator<Item = Vec<u8>> + '_ {
    text.split(|byte| !b"AGCTagct".contains(byte)).map(<[u8]>::to_ascii_uppercase)
}

/// All words of k letters, "first letter highest": those of k - 1 letters in their order, each with a letter behind it.
pub fn words(k: usize) -> Vec<Vec<u8>> {
    let longer = |word: Vec<u8>| ORDER.map(|letter| [&word[..], &[letter]].concat());
    (0..k).fold(vec![vec![]], |shorter, _| shorter.into_iter().flat_map(longer).collect())
}

/// How often each word of k letters stands in the text, whole in one piece.
fn counted(k: usize, text: &[u8]) -> HashMap<Vec<u8>, i32> {
    let mut times = HashMap::new();
    for piece in pieces(text) {
        for word in piece.windows(k) {
            *times.entry(word.to_vec()).or_default() += 1;
        }
    }
    times
}

/// The row of a text: "each window adds 1 to its own, or subtracts 1 for a negative sequence".
pub fn row(k: u8, text: &[u8], negative: bool) -> Vec<i32> {
    let times = counted(k.into(), text);
    let entry = |word: &Vec<u8>| times.get(word).copied().unwrap_or(0) * if negative { -1 } else { 1 };
    words(k.into()).iter().map(entry).collect()
}

#[cfg(test)]
mod tests {
    use super::*;

    #[test]
    fn by_hand() {
        assert_eq!(words(1), [b"A", b"G", b"C", b"T"]);
        assert_eq!((words(2)[1].as_slice(), words(2)[4].as_slice(), words(3).len()), (&b"AG"[..], &b"GA"[..], 64));
        assert_eq!(row(1, b"aNcR-\xffnT", false), [1, 0, 1, 1]);
        assert_eq!(row(1, b"aNcR-\xffnT", true), [-1, 0, -1, -1]);
        let mut ac_and_gt = vec![0; 16];
        (ac_and_gt[2], ac_and_gt[7]) = (1, 1);
        assert_eq!(row(2, b"ACNGT", false), ac_and_gt);
        assert_eq!(row(3, b"ACNGT", false), vec![0; 64]);
        assert_eq!(row(2, b"", false), vec![0; 16]);
    }
}
