// Made from docs/refusals.tsv by tools/refusals --write.

/// Why a call was refused: a row of the table of refusals. Its text is its number and the table's words.
#[derive(Clone, Copy, Debug, PartialEq, Eq, Hash)]
#[non_exhaustive]
pub enum Refusal {
    /// 1: k not 1 to 6
    BadK,
    /// 2: a float setting is NaN or outside its range
    BadFloat,
    /// 3: a whole-number setting over its limit
    BadNumber,
    /// 4: no variants
    NoVariants,
    /// 5: over 64 variants or over 64 parts
    TooMany,
    /// 6: lent lengths disagree with V, m or 4^k
    BadLengths,
    /// 7: a start is greater than its end
    StartAfterEnd,
    /// 8: a start is less than the row before's
    FallingStart,
    /// 9: a size over its limit
    BadSize,
    /// 10: a feature row over its limit
    BadRow,
    /// 11: search mode, and queue room under 1 + (maxpaths + 1) × V entries
    QueueRoom,
    /// 12: answer room under V rows
    AnswerRoom,
    /// 13: a sequence over its letter limit
    TooManyLetters,
    /// 14: a repeated record number
    RepeatedNumber,
    /// 16: a variant's feature row is all zero
    EmptyRow,
    /// 20: unknown kind
    UnknownKind,
    /// 21: input ends inside a record or without 0x00
    CutShort,
    /// 22: out of place
    OutOfPlace,
    /// 23: padding not zero
    BadPadding,
    /// 24: a flag not 0 or 1
    BadFlag,
    /// 25: bytes after 0x00
    BytesAfterEnd,
    /// 26: over the program's own limits
    TooLarge,
    /// 27: not 1 to 16 haplotypes
    TooManyHaplotypes,
    /// 28: a record number is not its row
    NumberNotRow,
    /// 29: letters is 1
    LettersOne,
    /// 30: too little room
    LittleRoom,
    /// 40: a bad line of BED, or a bad name to write
    BadLine,
    /// 41: a second name in BED
    SecondName,
    /// 42: a sixty-fifth line of BED
    TooManyLines,
    /// 43: too little room for BED text
    LittleTextRoom,
    /// 44: a row that isn't there
    MissingRow,
    /// 45: a version that isn't there
    MissingVersion,
    /// 46: all 255 versions are used
    VersionsUsed,
    /// 47: fewer than 43 bytes left in the book
    LittleBookRoom,
    /// 48: a book that breaks its rules or holds settings we would refuse
    BrokenBook,
    /// 49: a sheet that isn't its table's, or a table that breaks 5 to 8
    NotItsSheet,
    /// 50: a sample count not 1 to 8
    BadSamples,
    /// 51: a sample index at or above the sample count
    NoSuchSample,
    /// 52: unequal sample counts
    UnequalSamples,
    /// 53: a coverage sum passes 64 bits
    CoverageOverflow,
    /// 54: a proposal over 64 rows or over 64 positions
    LongProposal,
    /// A number that this table has not: the library that is linked is of another edition than this crate.
    Other(u32),
}

/// Number, case and words of each.
pub(crate) const TABLE: [(u32, Refusal, &str); 41] = [
    (1, Refusal::BadK, "k not 1 to 6"),
    (2, Refusal::BadFloat, "a float setting is NaN or outside its range"),
    (3, Refusal::BadNumber, "a whole-number setting over its limit"),
    (4, Refusal::NoVariants, "no variants"),
    (5, Refusal::TooMany, "over 64 variants or over 64 parts"),
    (6, Refusal::BadLengths, "lent lengths disagree with V, m or 4^k"),
    (7, Refusal::StartAfterEnd, "a start is greater than its end"),
    (8, Refusal::FallingStart, "a start is less than the row before's"),
    (9, Refusal::BadSize, "a size over its limit"),
    (10, Refusal::BadRow, "a feature row over its limit"),
    (11, Refusal::QueueRoom, "search mode, and queue room under 1 + (maxpaths + 1) × V entries"),
    (12, Refusal::AnswerRoom, "answer room under V rows"),
    (13, Refusal::TooManyLetters, "a sequence over its letter limit"),
    (14, Refusal::RepeatedNumber, "a repeated record number"),
    (16, Refusal::EmptyRow, "a variant's feature row is all zero"),
    (20, Refusal::UnknownKind, "unknown kind"),
    (21, Refusal::CutShort, "input ends inside a record or without 0x00"),
    (22, Refusal::OutOfPlace, "out of place"),
    (23, Refusal::BadPadding, "padding not zero"),
    (24, Refusal::BadFlag, "a flag not 0 or 1"),
    (25, Refusal::BytesAfterEnd, "bytes after 0x00"),
    (26, Refusal::TooLarge, "over the program's own limits"),
    (27, Refusal::TooManyHaplotypes, "not 1 to 16 haplotypes"),
    (28, Refusal::NumberNotRow, "a record number is not its row"),
    (29, Refusal::LettersOne, "letters is 1"),
    (30, Refusal::LittleRoom, "too little room"),
    (40, Refusal::BadLine, "a bad line of BED, or a bad name to write"),
    (41, Refusal::SecondName, "a second name in BED"),
    (42, Refusal::TooManyLines, "a sixty-fifth line of BED"),
    (43, Refusal::LittleTextRoom, "too little room for BED text"),
    (44, Refusal::MissingRow, "a row that isn't there"),
    (45, Refusal::MissingVersion, "a version that isn't there"),
    (46, Refusal::VersionsUsed, "all 255 versions are used"),
    (47, Refusal::LittleBookRoom, "fewer than 43 bytes left in the book"),
    (48, Refusal::BrokenBook, "a book that breaks its rules or holds settings we would refuse"),
    (49, Refusal::NotItsSheet, "a sheet that isn't its table's, or a table that breaks 5 to 8"),
    (50, Refusal::BadSamples, "a sample count not 1 to 8"),
    (51, Refusal::NoSuchSample, "a sample index at or above the sample count"),
    (52, Refusal::UnequalSamples, "unequal sample counts"),
    (53, Refusal::CoverageOverflow, "a coverage sum passes 64 bits"),
    (54, Refusal::LongProposal, "a proposal over 64 rows or over 64 positions"),
];
