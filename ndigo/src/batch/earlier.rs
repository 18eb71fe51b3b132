//! Lines of earlier runs over the same output, found again by what they were made from. Of each table 24 bytes are held.
use super::line::{Lines, COMPLETE, DEEPER, FILE, HEADINGS, JOB, MADE_FROM, NUMBER, OF, STATUS};
use super::output::Output;
use super::tally::{Status, Tally};
use csv::ByteRecord;
use std::collections::hash_map::DefaultHasher;
use std::fs::File;
use std::hash::{Hash, Hasher};
use std::io::{BufReader, Read, Seek, SeekFrom};
use std::os::unix::fs::FileExt;

/// Where a table's lines stand in an earlier file.
#[derive(Clone, Copy, Debug)]
struct Place {
    key: u64,
    begin: u64,
    length: u32,
}

/// An earlier file and its tables, by their keys.
struct Index {
    file: File,
    places: Vec<Place>,
}

pub struct Earlier {
    indexes: Vec<Index>,
}

fn key(cells: [&[u8]; 3]) -> u64 {
    let mut hasher = DefaultHasher::new();
    cells.hash(&mut hasher);
    hasher.finish()
}

fn records<R: Read>(bytes: R) -> csv::Reader<R> {
    csv::ReaderBuilder::new().delimiter(b'\t').has_headers(false).flexible(true).from_reader(bytes)
}

fn number(record: &ByteRecord, column: usize) -> Option<usize> {
    std::str::from_utf8(record.get(column)?).ok()?.parse().ok()
}

fn table_of(record: &ByteRecord) -> Option<[&[u8]; 3]> {
    (record.len() == HEADINGS.len()).then(|| [&record[FILE], &record[JOB], &record[MADE_FROM]])
}

/// Tables whose lines are all there, one behind the other; what was cut short by a stop is passed over.
pub fn whole_tables(file: &File, mut found: impl FnMut(u64, u64, u64)) -> std::io::Result<()> {
    let mut bytes = BufReader::new(file);
    bytes.seek(SeekFrom::Start(0))?;
    let mut reader = records(bytes);
    let mut record = ByteRecord::new();
    // the table that is being gathered: its key, where it begins and how many lines it has so far
    let mut open: Option<(u64, u64, usize)> = None;
    loop {
        let begin = reader.position().byte();
        if !reader.read_byte_record(&mut record)? {
            return Ok(());
        }
        let line = table_of(&record).map(key).zip(number(&record, NUMBER).zip(number(&record, OF)));
        let Some((key, (at, of))) = line else {
            open = None;
            continue;
        };
        open = match open {
            _ if at == 0 => Some((key, begin, 1)),
            Some((same, begin, lines)) if same == key && lines == at => Some((key, begin, lines + 1)),
            _ => None,
        };
        if let Some((key, begin, _)) = open.filter(|(_, _, lines)| *lines == of) {
            found(key, begin, reader.position().byte());
            open = None;
        }
    }
}

impl Index {
    fn of(file: File) -> std::io::Result<Self> {
        let mut places = Vec::new();
        whole_tables(&file, |key, begin, end| {
            if let Ok(length) = u32::try_from(end - begin) {
                places.push(Place { key, begin, length });
            }
        })?;
        places.sort_unstable_by_key(|place| place.key);
        Ok(Self { file, places })
    }

    fn lines(&self, wanted: [&[u8]; 3]) -> Option<Lines> {
        let key = key(wanted);
        let at = self.places.binary_search_by_key(&key, |place| place.key).ok()?;
        let place = self.places[at];
        let mut bytes = vec![0; place.length as usize];
        self.file.read_exact_at(&mut bytes, place.begin).ok()?;
        let mut tally = Tally::of_table(true);
        for record in records(&bytes[..]).into_byte_records() {
            let record = record.ok()?;
            // two keys may agree by chance
            table_of(&record).filter(|table| *table == wanted)?;
            tally.count(Status::of_word(&record[STATUS])?, &record[COMPLETE] == b"yes", &record[DEEPER]);
        }
        // the last line of a file may have lost its end
        bytes.ends_with(b"\n").then_some(Lines { bytes, tally })
    }
}

impl Earlier {
    /// What the output has from before. A file that cannot be read gives nothing, and its tables are answered again.
    pub fn of(output: &Output) -> Self {
        let files = output.earlier().into_iter().filter_map(|path| File::open(path).ok());
        Self { indexes: files.filter_map(|file| Index::of(file).ok()).collect() }
    }

    /// The lines of this table, where an earlier run made them of the same.
    pub fn lines(&self, file: &str, job: &str, made_from: &str) -> Option<Lines> {
        let wanted = [file.as_bytes(), job.as_bytes(), made_from.as_bytes()];
        self.indexes.iter().find_map(|index| index.lines(wanted))
    }
}
