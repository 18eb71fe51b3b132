//! From a file's bytes to lines of text. Spreadsheets save UTF-8 with or without its mark, UTF-16 with one, or Windows-1252.
use encoding_rs::{Encoding, WINDOWS_1252};

/// Whether the bytes begin with a byte-order mark.
pub fn marked(data: &[u8]) -> bool {
    Encoding::for_bom(data).is_some()
}

/// The text, and a note where the coding had to be guessed. None where the bytes are no text at all.
pub fn decoded(data: &[u8]) -> Option<(String, Option<String>)> {
    if let Some((coding, mark)) = Encoding::for_bom(data) {
        let text = coding.decode_without_bom_handling_and_without_replacement(&data[mark..])?;
        return Some((text.into_owned(), None));
    }
    // a zero byte stands in no text of one byte a letter; UTF-16 without its mark is full of them, and may pass for UTF-8
    if data.contains(&0) {
        return None;
    }
    match std::str::from_utf8(data) {
        Ok(text) => Some((text.to_string(), None)),
        Err(fault) => {
            let line = 1 + data[..fault.valid_up_to()].iter().filter(|&&byte| byte == b'\n').count();
            let (text, _, _) = WINDOWS_1252.decode(data);
            let note = format!("line {line}: this is no UTF-8; the sheet was read as Windows-1252");
            Some((text.into_owned(), Some(note)))
        }
    }
}

/// The lines, whichever of the three line ends they have.
pub fn lines(text: &str) -> Vec<&str> {
    text.split('\n').flat_map(|line| line.strip_suffix('\r').unwrap_or(line).split('\r')).collect()
}

#[cfg(test)]
mod tests {
    use super::*;

    #[test]
    fn line_ends() {
        for text in ["a\nb\n", "a\r\nb\r\n", "a\rb\r"] {
            assert_eq!(lines(text)[..2], ["a", "b"], "{text:?}");
        }
    }

    #[test]
    fn codings() {
        assert_eq!(decoded(b"\xef\xbb\xbfa"), Some(("a".into(), None)));
        assert_eq!(decoded(b"\xff\xfea\0"), Some(("a".into(), None)));
        assert_eq!(decoded(b"\xfe\xff\0a"), Some(("a".into(), None)));
        assert_eq!((decoded(b"\xff\0a"), decoded(b"a\0")), (None, None));
        let (text, note) = decoded(b"ok\nR\xe9cif").unwrap();
        assert_eq!(text, "ok\nRécif");
        assert_eq!(note.as_deref(), Some("line 2: this is no UTF-8; the sheet was read as Windows-1252"));
    }
}
