//! What a sheet says: settings, variants and parts under the sheet's own names. A job holds the same without names.

/// What the job form holds of a setting.
#[derive(Clone, Copy, Debug, PartialEq, Eq)]
pub enum Kind {
    Byte,
    Flag,
    Count,
    Float,
}

/// A setting: its name on a sheet, its kind, the default as a sheet writes it, and its meaning in words.
pub struct Setting {
    pub name: &'static str,
    pub kind: Kind,
    pub default: &'static str,
    pub meaning: &'static str,
}

const fn setting(name: &'static str, kind: Kind, default: &'static str, meaning: &'static str) -> Setting {
    Setting { name, kind, default, meaning }
}

/// All settings, in the order of the library's words. The defaults are kanpig's where the library takes them.
pub const SETTINGS: [Setting; 14] = [
    setting("k", Kind::Byte, "4", "letters in a window, 1 to 6"),
    setting("squish", Kind::Flag, "no", "yes: prefer paths of few rows"),
    setting("one-to-one", Kind::Flag, "no", "yes: try each row alone"),
    setting("full", Kind::Flag, "yes", "no: a bare graph, which has only the empty path"),
    setting("maxpaths", Kind::Count, "4095", "one path more than this is scored, at most 4095"),
    setting("maxnodes", Kind::Count, "5000", "with more variants than this, each row is tried alone"),
    setting("fnmax", Kind::Count, "3", "how many parts may be left out"),
    setting("pileupmax", Kind::Count, "12", "with this many parts or more, none may be left out"),
    setting("minkfreq", Kind::Count, "2", "windows counted less often than this are not compared"),
    setting("letters", Kind::Byte, "0", "1: windows with a letter that is not A, G, C or T are left out; 0: it counts as A"),
    setting("sizesim", Kind::Float, "0.9", "least similarity of sizes, 0 to 1"),
    setting("seqsim", Kind::Float, "0.9", "least similarity of letters, 0 to 1"),
    setting("fpenalty", Kind::Float, "0.1", "taken off for each part left out, 0 to 1000"),
    setting("gpenalty", Kind::Float, "0.02", "taken off for each row too many or too few, 0 to 1000"),
];

pub const K: usize = 0;
pub const MAXPATHS: usize = 4;
pub const LETTERS: usize = 9;
pub const SIZESIM: usize = 10;
pub const SEQSIM: usize = 11;

/// The place of the setting of this name.
pub fn place_of(name: &str) -> Option<usize> {
    SETTINGS.iter().position(|setting| setting.name == name)
}

/// The values as words, flags as 0 and 1 and floats by their bits, so that a NaN comes back as it was.
#[derive(Clone, Debug, PartialEq, Eq)]
pub struct Settings {
    pub words: [u32; 14],
    /// The line that named each; none for a default.
    pub lines: [Option<usize>; 14],
    /// Which version of which book they are, where they are not the sheet's own.
    pub version: Option<String>,
}

impl Default for Settings {
    fn default() -> Self {
        Self::of_library(&ndigomarr::Settings::default())
    }
}

impl Settings {
    pub fn of_words(words: [u32; 14]) -> Self {
        Self { words, lines: [None; 14], version: None }
    }

    pub fn of_library(s: &ndigomarr::Settings) -> Self {
        let counts = [s.maxpaths, s.maxnodes, s.fnmax, s.pileupmax, s.minkfreq, s.letters.into()];
        let floats = [s.sizesim, s.seqsim, s.fpenalty, s.gpenalty].map(f32::to_bits);
        let mut words = [u32::from(s.k), s.squish.into(), s.one_to_one.into(), s.full.into(), 0, 0, 0, 0, 0, 0, 0, 0, 0, 0];
        words[4..10].copy_from_slice(&counts);
        words[10..].copy_from_slice(&floats);
        Self::of_words(words)
    }

    pub fn to_library(&self) -> ndigomarr::Settings {
        let w = &self.words;
        ndigomarr::Settings {
            k: u8::try_from(w[0]).unwrap_or(u8::MAX),
            squish: w[1] == 1,
            one_to_one: w[2] == 1,
            full: w[3] == 1,
            maxpaths: w[4],
            maxnodes: w[5],
            fnmax: w[6],
            pileupmax: w[7],
            minkfreq: w[8],
            letters: u8::try_from(w[9]).unwrap_or(u8::MAX),
            sizesim: f32::from_bits(w[10]),
            seqsim: f32::from_bits(w[11]),
            fpenalty: f32::from_bits(w[12]),
            gpenalty: f32::from_bits(w[13]),
        }
    }

    /// A value as a sheet writes it.
    pub fn text(&self, place: usize) -> String {
        let word = self.words[place];
        match SETTINGS[place].kind {
            Kind::Flag => if word == 1 { "yes" } else { "no" }.to_string(),
            Kind::Float => crate::float::text(word),
            Kind::Byte | Kind::Count => word.to_string(),
        }
    }
}

/// What a variant and a part have in common; a part has nothing more.
#[derive(Clone, Debug, PartialEq, Eq)]
pub struct Sequence {
    pub name: String,
    pub size: i32,
    /// Whether its letters count negative.
    pub negative: bool,
    pub letters: Vec<u8>,
    /// Its line on the sheet, from 1; 0 where there is no sheet.
    pub line: usize,
}

/// Whether a letter was read: A, G, C or T in either case. No other has a code.
pub fn is_read(letter: u8) -> bool {
    matches!(letter.to_ascii_uppercase(), b'A' | b'G' | b'C' | b'T')
}

impl Sequence {
    /// The lengths of the stretches of letters whose windows are counted: all letters are one with `letters` 0, and with 1 each stretch
    /// between letters that were not read.
    pub fn stretches(&self, letters: u32) -> Vec<usize> {
        if letters == 1 { self.letters.split(|&letter| !is_read(letter)).map(<[u8]>::len).collect() } else { vec![self.letters.len()] }
    }

    /// How many letters were not read.
    pub fn unread(&self) -> usize {
        self.letters.iter().filter(|&&letter| !is_read(letter)).count()
    }

    /// How many windows of k letters are counted.
    pub fn windows(&self, k: u32, letters: u32) -> usize {
        self.stretches(letters).into_iter().map(|length| (length + 1).saturating_sub(k as usize)).sum()
    }
}

#[derive(Clone, Debug, PartialEq, Eq)]
pub struct Variant {
    pub start: u64,
    pub end: u64,
    /// Its record's number at the station: all variants of a numbered sheet have one, and no other has.
    pub record: Option<u32>,
    pub sequence: Sequence,
}

impl Variant {
    pub fn name(&self) -> &str {
        &self.sequence.name
    }

    pub fn line(&self) -> usize {
        self.sequence.line
    }
}

/// A haplotype that the sheet names: its parts end before this place of all parts, and begin where those of the one before it end.
#[derive(Clone, Debug, PartialEq, Eq)]
pub struct Haplotype {
    pub name: String,
    pub end: usize,
}

#[derive(Clone, Debug, Default, PartialEq, Eq)]
pub struct Sheet {
    pub settings: Settings,
    pub variants: Vec<Variant>,
    /// The parts of all haplotypes, one haplotype's behind the other's.
    pub parts: Vec<Sequence>,
    /// None where the sheet names none: all parts are of one haplotype then.
    pub haplotypes: Vec<Haplotype>,
    /// Whether it has a column `record`, as a job of edition 2 has, without any variant too.
    pub numbered: bool,
}

impl Sheet {
    /// The parts of each haplotype; there is always one.
    pub fn part_lists(&self) -> Vec<&[Sequence]> {
        if self.haplotypes.is_empty() {
            return vec![&self.parts];
        }
        let begins = std::iter::once(0).chain(self.haplotypes.iter().map(|haplotype| haplotype.end));
        begins.zip(&self.haplotypes).map(|(begin, haplotype)| &self.parts[begin..haplotype.end]).collect()
    }

    /// Each haplotype in a sheet of its own, under its name.
    pub fn each(&self) -> Vec<Sheet> {
        let lists = self.part_lists();
        lists.iter().enumerate().map(|(place, parts)| {
            let name = self.haplotypes.get(place).map(|haplotype| Haplotype { name: haplotype.name.clone(), end: parts.len() });
            Sheet { parts: parts.to_vec(), haplotypes: name.into_iter().collect(), ..self.without_parts() }
        }).collect()
    }

    /// The name of its one haplotype, where the sheet names it.
    pub fn haplotype(&self) -> Option<&str> {
        self.haplotypes.first().map(|haplotype| haplotype.name.as_str())
    }

    /// The table alone: what refuses it refuses every haplotype.
    pub fn without_parts(&self) -> Sheet {
        Sheet { settings: self.settings.clone(), variants: self.variants.clone(), numbered: self.numbered, ..Sheet::default() }
    }

    /// Whether each row is tried alone: asked for, or more rows than maxnodes.
    pub fn one_to_one(&self) -> bool {
        let settings = self.settings.to_library();
        settings.one_to_one || self.variants.len() as u64 > u64::from(settings.maxnodes)
    }

    /// What tells a row beside its name: its record number, or else its row number.
    pub fn number(&self, row: usize) -> u64 {
        self.variants[row].record.map_or(row as u64, u64::from)
    }

    /// Variants and then parts, as the rules look at them.
    pub fn sequences(&self) -> impl Iterator<Item = &Sequence> {
        self.variants.iter().map(|variant| &variant.sequence).chain(&self.parts)
    }

    /// Sorts the variants by start, equal ones as they stood; how many changed their place.
    pub fn sort(&mut self) -> usize {
        let mut places: Vec<usize> = (0..self.variants.len()).collect();
        places.sort_by_key(|&place| self.variants[place].start);
        self.variants.sort_by_key(|variant| variant.start);
        places.iter().enumerate().filter(|(now, before)| now != *before).count()
    }
}

/// `1 row`, `2 rows`.
pub fn counted(count: usize, thing: &str) -> String {
    format!("{count} {thing}{}", if count == 1 { "" } else { "s" })
}

#[cfg(test)]
mod tests {
    use super::*;

    #[test]
    fn the_defaults_in_words_are_the_librarys() {
        let settings = Settings::default();
        for (place, setting) in SETTINGS.iter().enumerate() {
            assert_eq!(settings.text(place), setting.default, "{}", setting.name);
        }
        assert_eq!(settings.words[MAXPATHS], 4095);
    }

    #[test]
    fn settings_go_to_the_library_and_back() {
        let words = [3, 1, 0, 1, 9, 8, 7, 6, 5, 1, 0x3f00_0000, 0x3f80_0000, 0, 0x7f7f_ffff];
        assert_eq!(Settings::of_library(&Settings::of_words(words).to_library()).words, words);
    }
}
