//! Names cut in the middle where they are too long: station names often differ at their ends only.
use super::svg::{width, Look};
use std::collections::HashSet;

/// Both ends of words that are wider than this.
pub fn cut(words: &str, room: f64, look: Look) -> String {
    if width(words, look) <= room {
        return words.into();
    }
    let letters: Vec<char> = words.chars().collect();
    let kept = |count: usize| {
        let tail = count * 2 / 5;
        let head: String = letters[..count - tail].iter().collect();
        let end: String = letters[letters.len() - tail..].iter().collect();
        format!("{head}…{end}")
    };
    // the more letters are kept, the wider: halve the stretch between a count that fits and one that does not
    let (mut fits, mut over) = (0, letters.len());
    while over - fits > 1 {
        let middle = (fits + over) / 2;
        if width(&kept(middle), look) <= room { fits = middle } else { over = middle }
    }
    kept(fits)
}

/// The names as they are shown: cut to the room only as far as they stay distinct.
pub fn shown(names: &[&str], room: f64, look: Look) -> Vec<String> {
    let longest = names.iter().map(|name| width(name, look)).fold(0.0, f64::max);
    let mut room = room;
    loop {
        let cut: Vec<String> = names.iter().map(|name| cut(name, room, look)).collect();
        if room >= longest || cut.iter().collect::<HashSet<_>>().len() == cut.len() {
            return cut;
        }
        room = (room + 20.0).max(room * 1.1);
    }
}

#[cfg(test)]
mod tests {
    use super::super::svg::PLAIN;
    use super::*;

    #[test]
    fn both_ends_stay() {
        let short = cut("a station name that nobody could fit beside its row, number 12", 150.0, PLAIN);
        assert!(short.starts_with("a station") && short.ends_with("12") && short.contains('…'));
        assert_eq!(cut("short", 150.0, PLAIN), "short");
    }

    #[test]
    fn names_stay_distinct() {
        let middle: Vec<String> = (0..20).map(|at| format!("a-long-common-beginning-{at:02}-and-a-long-common-ending")).collect();
        let names: Vec<&str> = middle.iter().map(String::as_str).collect();
        let shown = shown(&names, 100.0, PLAIN);
        assert_eq!(shown.iter().collect::<HashSet<_>>().len(), 20);
    }
}
