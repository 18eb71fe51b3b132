//! A job and its bytes in either edition (document 01, "Job form and program"; document 02, P1 and P7).
use crate::rules::Rules;

pub const LETTER_LIMIT: u32 = 131_072;

#[derive(Clone, Debug)]
pub struct Settings {
    pub k: u8,
    pub squish: bool,
    pub one_to_one: bool,
    pub full: bool,
    pub maxpaths: u32,
    pub maxnodes: u32,
    pub fnmax: u32,
    pub pileupmax: u32,
    pub minkfreq: u32,
    /// document 02, P6: a word of the library's; a job of edition 2 has a byte for it, one of edition 1 no place
    pub letters: u32,
    pub sizesim: f32,
    pub seqsim: f32,
    pub fpenalty: f32,
    pub gpenalty: f32,
}

impl Settings {
    /// those of the job form
    pub fn wholes(&self) -> [u32; 5] {
        [self.maxpaths, self.maxnodes, self.fnmax, self.pileupmax, self.minkfreq]
    }

    pub fn floats(&self) -> [f32; 4] {
        [self.sizesim, self.seqsim, self.fpenalty, self.gpenalty]
    }

    /// As the library takes them: flags as 0 and 1, floats by their bits.
    pub fn words(&self) -> [u32; 14] {
        let [sizesim, seqsim, fpenalty, gpenalty] = self.floats().map(f32::to_bits);
        let [squish, one_to_one, full] = [self.squish, self.one_to_one, self.full].map(u32::from);
        let [maxpaths, maxnodes, fnmax, pileupmax, minkfreq] = self.wholes();
        [self.k.into(), squish, one_to_one, full, maxpaths, maxnodes, fnmax, pileupmax, minkfreq, self.letters, sizesim, seqsim, fpenalty, gpenalty]
    }

    /// 4^k, the entries of a feature row
    pub fn entries(&self) -> usize {
        1 << (2 * self.k)
    }
}

#[derive(Clone, Debug, PartialEq, Eq)]
pub struct Variant {
    pub start: u64,
    pub end: u64,
    pub size: i32,
    pub negative: bool,
    pub letters: Vec<u8>,
    /// the record number, for which edition 1 has no place
    pub number: u32,
}

#[derive(Clone, Debug, PartialEq, Eq)]
pub struct Part {
    pub size: i32,
    pub negative: bool,
    pub letters: Vec<u8>,
}

/// Document 02, P7: which kinds of settings and variant a job has.
#[derive(Clone, Copy, Debug, PartialEq, Eq)]
pub enum Edition {
    One,
    Two,
}

#[derive(Clone, Debug)]
pub struct Job {
    pub edition: Edition,
    pub settings: Settings,
    pub variants: Vec<Variant>,
    /// the parts of each; never none
    pub haplotypes: Vec<Vec<Part>>,
}

fn put_letters(bytes: &mut Vec<u8>, letters: &[u8]) {
    for record in letters.chunks(16) {
        bytes.push(0x04);
        bytes.extend_from_slice(record);
        bytes.resize(bytes.len() + 16 - record.len(), 0);
    }
}

fn put_part(bytes: &mut Vec<u8>, p: &Part) {
    bytes.push(0x03);
    bytes.extend_from_slice(&p.size.to_le_bytes());
    bytes.push(p.negative as u8);
    bytes.extend_from_slice(&(p.letters.len() as u32).to_le_bytes());
    put_letters(bytes, &p.letters);
}

impl Job {
    /// A job of its own with these parts over the same table.
    pub fn with_parts(&self, parts: &[Part]) -> Job {
        Job { edition: self.edition, settings: self.settings.clone(), variants: self.variants.clone(), haplotypes: vec![parts.to_vec()] }
    }

    /// "A job in the present form gets its row numbers as record numbers."
    pub fn numbers(&self) -> Vec<u32> {
        match self.edition {
            Edition::One => (0..).take(self.variants.len()).collect(),
            Edition::Two => self.variants.iter().map(|v| v.number).collect(),
        }
    }

    pub fn bytes(&self) -> Vec<u8> {
        let mut bytes = vec![];
        self.put_settings(&mut bytes);
        self.variants.iter().for_each(|v| self.put_variant(&mut bytes, v));
        for (i, parts) in self.haplotypes.iter().enumerate() {
            if i > 0 {
                bytes.push(0x05);
            }
            parts.iter().for_each(|p| put_part(&mut bytes, p));
        }
        bytes.push(0x00);
        bytes
    }

    fn put_settings(&self, bytes: &mut Vec<u8>) {
        let s = &self.settings;
        let kind = if self.edition == Edition::Two { 0x11 } else { 0x01 };
        bytes.extend([kind, s.k, s.squish as u8, s.one_to_one as u8, s.full as u8]);
        for whole in s.wholes() {
            bytes.extend_from_slice(&whole.to_le_bytes());
        }
        for float in s.floats() {
            bytes.extend_from_slice(&float.to_bits().to_le_bytes());
        }
        if self.edition == Edition::Two {
            bytes.push(s.letters as u8);
        }
    }

    fn put_variant(&self, bytes: &mut Vec<u8>, v: &Variant) {
        bytes.push(if self.edition == Edition::Two { 0x12 } else { 0x02 });
        bytes.extend_from_slice(&v.start.to_le_bytes());
        bytes.extend_from_slice(&v.end.to_le_bytes());
        bytes.extend_from_slice(&v.size.to_le_bytes());
        bytes.push(v.negative as u8);
        bytes.extend_from_slice(&(v.letters.len() as u32).to_le_bytes());
        if self.edition == Edition::Two {
            bytes.extend_from_slice(&v.number.to_le_bytes());
        }
        put_letters(bytes, &v.letters);
    }
}

/// What a record's kind fixes: the length of its body, and where in it the flags and the letter count stand.
pub struct Shape {
    pub body: usize,
    pub flags: &'static [usize],
    pub count: Option<usize>,
}

/// Where edition 2's settings have `letters`, and its variants their record number: behind what edition 1's have.
pub const LETTERS_AT: usize = 40;
pub const NUMBER_AT: usize = 25;

/// The kinds of records; there is no other.
pub fn shape(kind: u8) -> Option<Shape> {
    let (body, flags, count): (_, &[usize], _) = match kind {
        0x00 => (0, &[], None),
        0x01 => (40, &[1, 2, 3], None),
        0x02 => (25, &[20], Some(21)),
        0x03 => (9, &[4], Some(5)),
        0x04 => (16, &[], None),
        0x05 => (0, &[], None),
        0x11 => (41, &[1, 2, 3], None),
        0x12 => (29, &[20], Some(21)),
        _ => return None,
    };
    Some(Shape { body, flags, count })
}

/// How many bytes a record of this kind takes.
pub fn record_length(kind: u8) -> usize {
    1 + shape(kind).expect("a kind of record").body
}

#[derive(PartialEq)]
enum Stage {
    Front,
    Variants,
    Parts,
}

fn u32_at(bytes: &[u8], at: usize) -> u32 {
    u32::from_le_bytes(bytes[at..at + 4].try_into().unwrap())
}

fn u64_at(bytes: &[u8], at: usize) -> u64 {
    u64::from_le_bytes(bytes[at..at + 8].try_into().unwrap())
}

fn f32_at(bytes: &[u8], at: usize) -> f32 {
    f32::from_bits(u32_at(bytes, at))
}

struct Reader<'a> {
    rules: &'a Rules,
    /// the kind of the first record, which decides the edition
    first: u8,
    stage: Stage,
    owed: usize,
    settings: Option<Settings>,
    variants: Vec<Variant>,
    haplotypes: Vec<Vec<Part>>,
}

impl Reader<'_> {
    fn in_place(&self, kind: u8) -> bool {
        if self.owed > 0 {
            return kind == 0x04;
        }
        match (&self.stage, kind) {
            (Stage::Front, _) => matches!(kind, 0x01 | 0x11),
            (_, 0x05) => self.rules.next_may_begin(self.parts().len()),
            (Stage::Variants, 0x02 | 0x12) => self.rules.is_of_the_edition(self.first, kind),
            (_, _) => matches!(kind, 0x00 | 0x03),
        }
    }

    /// Those of the haplotype that is being read.
    fn parts(&self) -> &[Part] {
        self.haplotypes.last().expect("never none")
    }

    /// Whether the record of this kind, with all the bytes after it, has a fault. A fault may count on those before it.
    fn has_fault(&self, number: u32, kind: u8, after: &[u8]) -> bool {
        let Some(shape) = shape(kind) else { return number == 20 };
        match number {
            20 => false,
            21 => after.len() < shape.body,
            22 => !self.in_place(kind),
            27 => kind == 0x05 && self.rules.count_is_refused(self.haplotypes.len() + 1),
            24 => shape.flags.iter().any(|&at| after[at] > 1) || kind == 0x11 && self.rules.letters_are_no_flag(after[LETTERS_AT]),
            13 => shape.count.is_some_and(|at| u32_at(after, at) > LETTER_LIMIT),
            23 => kind == 0x04 && after[self.owed.min(16)..16].iter().any(|&padding| padding != 0),
            25 => kind == 0x00 && !after.is_empty(),
            _ => unreachable!("no fault of a record: {number}"),
        }
    }

    fn take(&mut self, kind: u8, body: &[u8]) {
        match kind {
            0x01 | 0x11 => self.take_settings(kind, body),
            0x02 | 0x12 => self.take_variant(body),
            0x03 => self.take_part(body),
            0x05 => self.begin_next(),
            _ => self.take_letters(body),
        }
    }

    fn take_settings(&mut self, kind: u8, body: &[u8]) {
        self.first = kind;
        self.stage = Stage::Variants;
        self.settings = Some(Settings {
            k: body[0],
            squish: body[1] == 1,
            one_to_one: body[2] == 1,
            full: body[3] == 1,
            maxpaths: u32_at(body, 4),
            maxnodes: u32_at(body, 8),
            fnmax: u32_at(body, 12),
            pileupmax: u32_at(body, 16),
            minkfreq: u32_at(body, 20),
            letters: body.get(LETTERS_AT).map_or(self.rules.present_letters(), |&held| self.rules.letters_of(held)),
            sizesim: f32_at(body, 24),
            seqsim: f32_at(body, 28),
            fpenalty: f32_at(body, 32),
            gpenalty: f32_at(body, 36),
        });
    }

    fn take_variant(&mut self, body: &[u8]) {
        self.owed = u32_at(body, 21) as usize;
        let held = body.get(NUMBER_AT..NUMBER_AT + 4).map(|held| u32_at(held, 0));
        let row = self.variants.len();
        self.variants.push(Variant {
            number: held.map_or(row as u32, |held| self.rules.record_number(held, row)),
            start: u64_at(body, 0),
            end: u64_at(body, 8),
            size: u32_at(body, 16) as i32,
            negative: body[20] == 1,
            letters: vec![],
        });
    }

    fn take_part(&mut self, body: &[u8]) {
        self.owed = u32_at(body, 5) as usize;
        self.stage = Stage::Parts;
        self.haplotypes.last_mut().expect("never none").push(Part {
            size: u32_at(body, 0) as i32,
            negative: body[4] == 1,
            letters: vec![],
        });
    }

    fn begin_next(&mut self) {
        self.stage = if self.rules.variant_may_follow_next() { Stage::Variants } else { Stage::Parts };
        self.haplotypes.push(vec![]);
    }

    fn take_letters(&mut self, body: &[u8]) {
        let here = self.owed.min(16);
        self.owed -= here;
        let letters = match self.stage {
            Stage::Parts => &mut self.haplotypes.last_mut().unwrap().last_mut().unwrap().letters,
            _ => &mut self.variants.last_mut().unwrap().letters,
        };
        letters.extend_from_slice(&body[..here]);
    }
}

/// The job in the bytes, or the first fault of the form.
pub fn read(rules: &Rules, bytes: &[u8]) -> Result<Job, u32> {
    let mut reader = Reader {
        rules,
        first: 0,
        stage: Stage::Front,
        owed: 0,
        settings: None,
        variants: vec![],
        haplotypes: vec![vec![]],
    };
    let mut left = bytes;
    loop {
        let (&kind, after) = left.split_first().ok_or(21u32)?;
        if let Some(&number) = rules.form_faults().iter().find(|&&number| reader.has_fault(number, kind, after)) {
            return Err(number);
        }
        if kind == 0x00 {
            break;
        }
        let (record, next) = left.split_at(record_length(kind));
        reader.take(kind, &record[1..]);
        left = next;
    }
    Ok(Job {
        edition: if reader.first == 0x11 { Edition::Two } else { Edition::One },
        settings: reader.settings.unwrap(),
        variants: reader.variants,
        haplotypes: reader.haplotypes,
    })
}
