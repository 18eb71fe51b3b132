//! From a line to its cells, by the delimiter that its heading row told.

/// What parts the cells of a line.
#[derive(Clone, Copy, Debug, PartialEq, Eq)]
pub enum Delimiter {
    Character(char),
    /// Runs of at least so many blanks. With two, a cell may hold single ones, as the words of a remark do.
    Blanks(usize),
}

/// In the order in which they are tried on a heading row.
pub const DELIMITERS: [Delimiter; 5] =
    [Delimiter::Character('\t'), Delimiter::Character(','), Delimiter::Character(';'), Delimiter::Blanks(2), Delimiter::Blanks(1)];

impl Delimiter {
    /// How many bytes of delimiter the text begins with.
    fn at(self, text: &str) -> usize {
        match self {
            Self::Character(character) => if text.starts_with(character) { character.len_utf8() } else { 0 },
            Self::Blanks(least) => {
                let run = text.bytes().take_while(|byte| matches!(byte, b' ' | b'\t')).count();
                if run >= least { run } else { 0 }
            }
        }
    }

    /// Where the next delimiter begins, or the text's end.
    fn next(self, text: &str) -> usize {
        let next = match self {
            Self::Character(character) => text.find(character),
            Self::Blanks(least) => {
                let blank = |byte: &u8| matches!(byte, b' ' | b'\t');
                text.as_bytes().windows(least).position(|run| run.iter().all(blank))
            }
        };
        next.unwrap_or(text.len())
    }
}

/// The text of a quoted cell and how long it was with its quotes; none where no quote closes it before a delimiter.
fn quoted(text: &str, delimiter: Delimiter) -> Option<(String, usize)> {
    let mut place = 1;
    loop {
        place += text[place..].find('"')? + 1;
        let rest = &text[place..];
        if rest.starts_with('"') {
            place += 1;
        } else if rest.is_empty() || delimiter.at(rest) > 0 {
            return Some((text[1..place - 1].replace("\"\"", "\""), place));
        } else {
            return None;
        }
    }
}

/// The cells without blanks around them, or the column of a cell whose quote is not closed.
pub fn cells(line: &str, delimiter: Delimiter) -> Result<Vec<String>, usize> {
    let mut rest = match delimiter {
        Delimiter::Blanks(_) => line.trim(),
        Delimiter::Character(_) => line,
    };
    let mut cells = Vec::new();
    loop {
        let end = if rest.starts_with('"') {
            let (cell, end) = quoted(rest, delimiter).ok_or(cells.len() + 1)?;
            cells.push(cell.trim().to_string());
            end
        } else {
            let end = delimiter.next(rest);
            cells.push(rest[..end].trim().to_string());
            end
        };
        if end == rest.len() {
            return Ok(cells);
        }
        rest = &rest[end + delimiter.at(&rest[end..])..];
    }
}

#[cfg(test)]
mod tests {
    use super::*;

    const COMMA: Delimiter = Delimiter::Character(',');

    #[test]
    fn characters_and_blanks() {
        assert_eq!(cells("a,,b ", COMMA).unwrap(), ["a", "", "b"]);
        assert_eq!(cells("a,", COMMA).unwrap(), ["a", ""]);
        assert_eq!(cells("", COMMA).unwrap(), [""]);
        assert_eq!(cells("  a   b c  d ", Delimiter::Blanks(2)).unwrap(), ["a", "b c", "d"]);
        assert_eq!(cells("  a   b c  d ", Delimiter::Blanks(1)).unwrap(), ["a", "b", "c", "d"]);
        assert_eq!(cells("é 礁  b", Delimiter::Blanks(2)).unwrap(), ["é 礁", "b"]);
    }

    #[test]
    fn quotes() {
        assert_eq!(cells("\"the \"\"old\"\" reef\",\"1,200\",x", COMMA).unwrap(), ["the \"old\" reef", "1,200", "x"]);
        assert_eq!(cells("\"Reef A\" 10", Delimiter::Blanks(1)).unwrap(), ["Reef A", "10"]);
        assert_eq!(cells("a,\"b,c", COMMA), Err(2));
        assert_eq!(cells("a,\"b\"c", COMMA), Err(2));
        assert_eq!(cells("\"", COMMA), Err(1));
        assert_eq!(cells("5\" pipe,2", COMMA).unwrap(), ["5\" pipe", "2"]);
    }
}
