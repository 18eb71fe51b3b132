//! What single cells say. Each reader gives the value, or what stands there and what to write instead.
use crate::float::{self, NoFloat};

/// What stands there, and what to write instead.
pub type Wrong = (String, String);

/// A whole number, and whether its thousands were parted by commas.
pub struct Whole {
    pub value: i128,
    pub commas: bool,
}

/// `1,200`: one to three digits, and then threes.
fn thousands(digits: &str) -> Option<String> {
    let mut groups = digits.split(',');
    let first = groups.next()?;
    let rest: Vec<&str> = groups.collect();
    let good = (1..=3).contains(&first.len()) && !rest.is_empty() && rest.iter().all(|group| group.len() == 3);
    good.then(|| digits.replace(',', ""))
}

fn plain_whole(text: &str) -> Option<Whole> {
    // spreadsheets write the long minus too
    let (sign, digits) = match text.strip_prefix(['-', '−']) {
        Some(rest) => (-1, rest),
        None => (1, text.strip_prefix('+').unwrap_or(text)),
    };
    let grouped = thousands(digits);
    let commas = grouped.is_some();
    let digits = grouped.unwrap_or_else(|| digits.to_string());
    let good = (1..=20).contains(&digits.len()) && digits.bytes().all(|byte| byte.is_ascii_digit());
    good.then(|| digits.parse::<i128>().ok())?.map(|value| Whole { value: sign * value, commas })
}

pub fn whole(text: &str, low: i128, high: i128) -> Result<Whole, Wrong> {
    match plain_whole(text) {
        Some(whole) if (low..=high).contains(&whole.value) => Ok(whole),
        Some(_) => Err((format!("\"{text}\" is out of range"), format!("write a whole number from {low} to {high}"))),
        None => Err((format!("\"{text}\" is no whole number"), format!("write a whole number from {low} to {high}, in digits"))),
    }
}

pub fn flag(text: &str) -> Result<bool, Wrong> {
    match text.to_lowercase().as_str() {
        "yes" | "true" | "1" => Ok(true),
        "no" | "false" | "0" => Ok(false),
        _ => Err((format!("\"{text}\" is neither yes nor no"), "write yes or no".into())),
    }
}

pub fn float(text: &str) -> Result<u32, Wrong> {
    float::bits(text).map_err(|why| match why {
        NoFloat::TooLarge => (format!("\"{text}\" is larger than any 32-bit float"), "write a smaller number".into()),
        NoFloat::Form => {
            let with_point = text.replace(',', ".");
            let meant = if float::bits(&with_point).is_ok() { with_point } else { "0.9".into() };
            (format!("\"{text}\" is no number"), format!("write digits with a point, such as {meant}, or 32 bits, such as bits:7fc00000"))
        }
    })
}

/// Letters A to Z as they stand, or any bytes by `hex:`.
pub fn letters(text: &str) -> Result<Vec<u8>, Wrong> {
    if let Some(bytes) = text.strip_prefix("hex:").and_then(hex_bytes) {
        return Ok(bytes);
    }
    match text.chars().enumerate().find(|(_, letter)| !letter.is_ascii_alphabetic()) {
        None => Ok(text.as_bytes().to_vec()),
        Some((place, stranger)) => Err((
            format!("\"{}\" stands at letter {}", stranger.escape_debug(), place + 1),
            "write letters A to Z only, or any bytes in hexadecimal, such as hex:4e2e".into(),
        )),
    }
}

fn hex_bytes(hex: &str) -> Option<Vec<u8>> {
    let good = hex.len() % 2 == 0 && hex.bytes().all(|byte| byte.is_ascii_hexdigit());
    good.then(|| (0..hex.len()).step_by(2).filter_map(|at| u8::from_str_radix(&hex[at..at + 2], 16).ok()).collect())
}

/// The letters as a cell holds them.
pub fn letters_text(letters: &[u8]) -> String {
    if letters.iter().all(u8::is_ascii_alphabetic) {
        letters.iter().map(|&letter| char::from(letter)).collect()
    } else {
        format!("hex:{}", letters.iter().map(|byte| format!("{byte:02x}")).collect::<String>())
    }
}

#[cfg(test)]
mod tests {
    use super::*;

    #[test]
    fn wholes_as_people_write_them() {
        let read = |text| whole(text, -5000, 5000).map(|whole| whole.value).ok();
        for (text, value) in [("50", 50), ("+50", 50), ("1,200", 1200), ("-1,200", -1200), ("−4", -4), ("007", 7), ("-0", 0)] {
            assert_eq!(read(text), Some(value), "{text}");
        }
        for bad in ["", "1,20", "12,00", ",200", "1200,", "1.0", "1 200", "5001", "++5", "five", "1,2000", "0x10"] {
            assert_eq!(read(bad), None, "{bad}");
        }
        assert_eq!(whole("18446744073709551616", 0, u64::MAX.into()).map(|whole| whole.value).ok(), None);
    }

    #[test]
    fn letters_there_and_back() {
        for text in ["", "AGct", "NnRY", "hex:00ff", "hex:20"] {
            assert_eq!(letters_text(&letters(text).unwrap()), text);
        }
        assert_eq!(letters("hex:4").unwrap_err().0, "\":\" stands at letter 4");
        assert_eq!(letters("A G").unwrap_err().0, "\" \" stands at letter 2");
    }
}
