/* Ndigomarr for C and C++: the functions of libndigomarr.a, which tools/library proves and writes.
 *
 * Each function asks nothing of its caller but that every pointer and its length belong together
 * and that what is written overlaps nothing else that is lent. An empty slice still needs a pointer
 * that is not null.
 * Each but nd_answer, which returns a length, returns 0 or the number of a refusal. On a refusal
 * every lent buffer is as it was, but for *place, *count, *yes, *version, *added, the report of one
 * search, the counts and *written, which are then 0, and for data that was to be made, which is then a
 * blank of one sample.
 *
 * What a call promises is proved of the Rattle source; tools/prototypes holds this header to it.
 */
#ifndef NDIGOMARR_H
#define NDIGOMARR_H

#include <stdbool.h>
#include <stddef.h>
#include <stdint.h>

#ifdef __cplusplus
extern "C" {
#endif

/* The refusals, each with the table's words. 1 to 14, 16 and 27 are returned, and some of them stand in
 * nd_answer's text too; 20 to 25 stand there, and nd_move_job returns them, beside 13, 27 and its own
 * 28 to 30; 26 stands in that text alone; 40 to 44 are BED's; 44 and 49 the companions sheet's; 45 to
 * 48 the book's, which gives 24 and 1 to 3 too; 50 to 53 those of a haplotype's data; 54 is
 * nd_check_path's.
 * Made from docs/refusals.tsv by tools/refusals --write. */
enum nd_refusal {
    ND_ACCEPTED = 0,
    ND_REFUSED_BAD_K = 1, /* k not 1 to 6 */
    ND_REFUSED_BAD_FLOAT = 2, /* a float setting is NaN or outside its range */
    ND_REFUSED_BAD_NUMBER = 3, /* a whole-number setting over its limit */
    ND_REFUSED_NO_VARIANTS = 4, /* no variants */
    ND_REFUSED_TOO_MANY = 5, /* over 64 variants or over 64 parts */
    ND_REFUSED_BAD_LENGTHS = 6, /* lent lengths disagree with V, m or 4^k */
    ND_REFUSED_START_AFTER_END = 7, /* a start is greater than its end */
    ND_REFUSED_FALLING_START = 8, /* a start is less than the row before's */
    ND_REFUSED_BAD_SIZE = 9, /* a size over its limit */
    ND_REFUSED_BAD_ROW = 10, /* a feature row over its limit */
    ND_REFUSED_QUEUE_ROOM = 11, /* search mode, and queue room under 1 + (maxpaths + 1) × V entries */
    ND_REFUSED_ANSWER_ROOM = 12, /* answer room under V rows */
    ND_REFUSED_TOO_MANY_LETTERS = 13, /* a sequence over its letter limit */
    ND_REFUSED_REPEATED_NUMBER = 14, /* a repeated record number */
    ND_REFUSED_EMPTY_ROW = 16, /* a variant's feature row is all zero */
    ND_REFUSED_UNKNOWN_KIND = 20, /* unknown kind */
    ND_REFUSED_CUT_SHORT = 21, /* input ends inside a record or without 0x00 */
    ND_REFUSED_OUT_OF_PLACE = 22, /* out of place */
    ND_REFUSED_BAD_PADDING = 23, /* padding not zero */
    ND_REFUSED_BAD_FLAG = 24, /* a flag not 0 or 1 */
    ND_REFUSED_BYTES_AFTER_END = 25, /* bytes after 0x00 */
    ND_REFUSED_TOO_LARGE = 26, /* over the program's own limits */
    ND_REFUSED_TOO_MANY_HAPLOTYPES = 27, /* not 1 to 16 haplotypes */
    ND_REFUSED_NUMBER_NOT_ROW = 28, /* a record number is not its row */
    ND_REFUSED_LETTERS_ONE = 29, /* letters is 1 */
    ND_REFUSED_LITTLE_ROOM = 30, /* too little room */
    ND_REFUSED_BAD_LINE = 40, /* a bad line of BED, or a bad name to write */
    ND_REFUSED_SECOND_NAME = 41, /* a second name in BED */
    ND_REFUSED_TOO_MANY_LINES = 42, /* a sixty-fifth line of BED */
    ND_REFUSED_LITTLE_TEXT_ROOM = 43, /* too little room for BED text */
    ND_REFUSED_MISSING_ROW = 44, /* a row that isn't there */
    ND_REFUSED_MISSING_VERSION = 45, /* a version that isn't there */
    ND_REFUSED_VERSIONS_USED = 46, /* all 255 versions are used */
    ND_REFUSED_LITTLE_BOOK_ROOM = 47, /* fewer than 43 bytes left in the book */
    ND_REFUSED_BROKEN_BOOK = 48, /* a book that breaks its rules or holds settings we would refuse */
    ND_REFUSED_NOT_ITS_SHEET = 49, /* a sheet that isn't its table's, or a table that breaks 5 to 8 */
    ND_REFUSED_BAD_SAMPLES = 50, /* a sample count not 1 to 8 */
    ND_REFUSED_NO_SUCH_SAMPLE = 51, /* a sample index at or above the sample count */
    ND_REFUSED_UNEQUAL_SAMPLES = 52, /* unequal sample counts */
    ND_REFUSED_COVERAGE_OVERFLOW = 53, /* a coverage sum passes 64 bits */
    ND_REFUSED_LONG_PROPOSAL = 54, /* a proposal over 64 rows or over 64 positions */
};

/* The table's words for a refusal's number, for a message. */
static inline const char *nd_refusal_text(uint32_t number)
{
    switch (number) {
    case ND_ACCEPTED: return "accepted";
    case ND_REFUSED_BAD_K: return "k not 1 to 6";
    case ND_REFUSED_BAD_FLOAT: return "a float setting is NaN or outside its range";
    case ND_REFUSED_BAD_NUMBER: return "a whole-number setting over its limit";
    case ND_REFUSED_NO_VARIANTS: return "no variants";
    case ND_REFUSED_TOO_MANY: return "over 64 variants or over 64 parts";
    case ND_REFUSED_BAD_LENGTHS: return "lent lengths disagree with V, m or 4^k";
    case ND_REFUSED_START_AFTER_END: return "a start is greater than its end";
    case ND_REFUSED_FALLING_START: return "a start is less than the row before's";
    case ND_REFUSED_BAD_SIZE: return "a size over its limit";
    case ND_REFUSED_BAD_ROW: return "a feature row over its limit";
    case ND_REFUSED_QUEUE_ROOM: return "search mode, and queue room under 1 + (maxpaths + 1) × V entries";
    case ND_REFUSED_ANSWER_ROOM: return "answer room under V rows";
    case ND_REFUSED_TOO_MANY_LETTERS: return "a sequence over its letter limit";
    case ND_REFUSED_REPEATED_NUMBER: return "a repeated record number";
    case ND_REFUSED_EMPTY_ROW: return "a variant's feature row is all zero";
    case ND_REFUSED_UNKNOWN_KIND: return "unknown kind";
    case ND_REFUSED_CUT_SHORT: return "input ends inside a record or without 0x00";
    case ND_REFUSED_OUT_OF_PLACE: return "out of place";
    case ND_REFUSED_BAD_PADDING: return "padding not zero";
    case ND_REFUSED_BAD_FLAG: return "a flag not 0 or 1";
    case ND_REFUSED_BYTES_AFTER_END: return "bytes after 0x00";
    case ND_REFUSED_TOO_LARGE: return "over the program's own limits";
    case ND_REFUSED_TOO_MANY_HAPLOTYPES: return "not 1 to 16 haplotypes";
    case ND_REFUSED_NUMBER_NOT_ROW: return "a record number is not its row";
    case ND_REFUSED_LETTERS_ONE: return "letters is 1";
    case ND_REFUSED_LITTLE_ROOM: return "too little room";
    case ND_REFUSED_BAD_LINE: return "a bad line of BED, or a bad name to write";
    case ND_REFUSED_SECOND_NAME: return "a second name in BED";
    case ND_REFUSED_TOO_MANY_LINES: return "a sixty-fifth line of BED";
    case ND_REFUSED_LITTLE_TEXT_ROOM: return "too little room for BED text";
    case ND_REFUSED_MISSING_ROW: return "a row that isn't there";
    case ND_REFUSED_MISSING_VERSION: return "a version that isn't there";
    case ND_REFUSED_VERSIONS_USED: return "all 255 versions are used";
    case ND_REFUSED_LITTLE_BOOK_ROOM: return "fewer than 43 bytes left in the book";
    case ND_REFUSED_BROKEN_BOOK: return "a book that breaks its rules or holds settings we would refuse";
    case ND_REFUSED_NOT_ITS_SHEET: return "a sheet that isn't its table's, or a table that breaks 5 to 8";
    case ND_REFUSED_BAD_SAMPLES: return "a sample count not 1 to 8";
    case ND_REFUSED_NO_SUCH_SAMPLE: return "a sample index at or above the sample count";
    case ND_REFUSED_UNEQUAL_SAMPLES: return "unequal sample counts";
    case ND_REFUSED_COVERAGE_OVERFLOW: return "a coverage sum passes 64 bits";
    case ND_REFUSED_LONG_PROPOSAL: return "a proposal over 64 rows or over 64 positions";
    default: return "not in the table of refusals";
    }
}

/* Counts the windows of k letters in a row of 4^k entries, each +1, or -1 for a negative sequence.
 * With letters 0 a byte other than A, C, G and T in either case counts as A; with letters 1 each
 * window that holds one is left out, and the entries sum to plus or minus the windows kept.
 * Refuses by 1, 3 (letters not 0 or 1), 6 (row_len not 4^k), 13 (over 131,072 letters), in this order. */
uint32_t nd_seq_to_kmer(const uint8_t *text, size_t text_len, uint8_t k, bool negative,
                        uint8_t letters, int32_t *row, size_t row_len);

/* The similarity of two feature rows in *place: over entries with |x| + |y| at least minkfreq,
 * 1 - (sum of |x - y|) / (sum of |x| + |y|). Refuses by 3 (minkfreq over 16,777,216), 6 (unequal
 * lengths), 10 (a row's magnitudes sum to over 8,388,608); *place is then 0. */
uint32_t nd_seqsim(const int32_t *a, size_t a_len, const int32_t *b, size_t b_len,
                   uint32_t minkfreq, float *place);

/* The similarity of two sizes in *place: equal ones 1, else smaller over larger, each first raised
 * to at least 1. Refuses by 9 (a size over 8,388,608); *place is then 0. */
uint32_t nd_sizesim(uint64_t a, uint64_t b, float *place);

/* The number of paths of a table in *count, counted up to cap. Refuses by 3 (cap over 4,096) and
 * then 4 to 8; *count is then 0. */
uint32_t nd_count_chains(const uint64_t *starts, size_t starts_len, const uint64_t *ends,
                         size_t ends_len, bool full, uint32_t cap, uint32_t *count);

/* What stands in the report of a search. */
enum nd_report {
    ND_ROWS,     /* how many rows stand at the front of rows, and records at that of records */
    ND_TARGET,   /* 0 no part list, 1 the whole haplotype, 1 more for each part left out */
    ND_SCORE,    /* the bits of a float, as the next two */
    ND_SIZESIM,
    ND_SEQSIM,
    ND_SCORED,   /* how many paths were scored */
    ND_COMPLETE, /* 1 where these were all paths: else a better one may exist */
    ND_REPORT_LEN
};

/* The settings of a search. A flag is no at 0 and yes at any other number. Made from
 * docs/settings.tsv by tools/settings --write, as the defaults below are. */
struct nd_settings {
    uint32_t k; /* Letters of a k-mer, 1 to 6. */
    uint32_t squish; /* Prefer paths of few rows: the gap penalty counts rows beyond the first. */
    uint32_t one_to_one; /* Match each row alone instead of searching paths. */
    uint32_t full; /* Rows of which no two overlap may stand in one path, an insertion inside a deletion overlapping it; without it only the empty path stands. */
    uint32_t maxpaths; /* The search scores at most this many paths and one more; at most 4,095. */
    uint32_t maxnodes; /* Tables of more rows are matched one to one. */
    uint32_t fnmax; /* How many parts a part list may leave out. */
    uint32_t pileupmax; /* From this many parts on only the whole haplotype is tried; at most 12. */
    uint32_t minkfreq; /* K-mers seen fewer times in both rows together are passed over. */
    uint32_t letters; /* How bytes other than A, C, G and T in either case are read: 0 counts each as A, 1 leaves out each window that holds one. */
    float sizesim; /* The least similarity of sizes, 0 to 1. */
    float seqsim; /* The least similarity of sequences, 0 to 1. */
    float fpenalty; /* Taken off the score for each part left out, 0 to 1,000. */
    float gpenalty; /* Taken off the score for each row too many or too few, 0 to 1,000. */
};

/* kanpig's defaults where they lie in the limits here:
 * struct nd_settings settings = ND_SETTINGS_DEFAULT; settings.k = 5; */
#define ND_SETTINGS_DEFAULT {4, 0, 0, 1, 4095, 5000, 3, 12, 2, 0, 0.9f, 0.9f, 0.1f, 0.02f}

/* The path of a table that best explains a haplotype. Rows are row numbers of the table handed
 * over, from 0, ascending, at the front of rows. Of two equally good paths the one scored later wins,
 * which need not be the lower in the table.
 * record_numbers has a number of the caller's own for each variant, no two alike (the row numbers
 * will do); those of the answer's rows stand at the front of records, in the rows' order. They
 * change nothing else of an answer. What lies in rows and records behind that stays as it was.
 * V is starts_len, m is part_sizes_len; feature rows of 4^k entries lie one behind the other. links
 * and keys, the queue, hold at least 1 + (maxpaths + 1) * V entries each in a search; their content
 * afterwards is open. Features come counted: count all of them by the settings' k and letters, of
 * which the latter is only checked here. Refuses by 1 to 12, by 14 (a repeated record number), which comes after 8 and
 * before 9, and by 16 (a variant's feature row is all zero; a part's may be), after 10 and before 11;
 * 6 is also for other than V record numbers, and 12 for fewer than V entries in rows or in records.
 * The report is then all zeros. */
uint32_t nd_apply_haplotype(const struct nd_settings *settings, const uint64_t *starts,
                            size_t starts_len, const uint64_t *ends, size_t ends_len,
                            const int32_t *sizes, size_t sizes_len, const int32_t *features,
                            size_t features_len, const uint32_t *record_numbers,
                            size_t record_numbers_len, const int32_t *part_sizes,
                            size_t part_sizes_len, const int32_t *part_features,
                            size_t part_features_len, uint32_t *links, size_t links_len,
                            uint64_t *keys, size_t keys_len, uint32_t *rows, size_t rows_len,
                            uint32_t *records, size_t records_len, uint32_t report[ND_REPORT_LEN]);

/* How many words of a report a haplotype has, where there are several: its refusal, and then what
 * enum nd_report names. */
enum { ND_HAPLOTYPE_REPORT_LEN = 8 };

/* The same for 1 to 16 haplotypes over one table, which is checked once; n is part_ends_len. The
 * parts of all haplotypes lie one behind the other, and so do their features: stretch i of
 * part_sizes ends at part_ends[i] and begins at the end before it, the first at 0, and so that of
 * part_features by feature_ends. Haplotype i has its rows from rows[i * V] on, their records from
 * records[i * V] on, and its report from reports[ND_HAPLOTYPE_REPORT_LEN * i] on; what lies behind
 * them stays as it was. The queue's room is used again for each haplotype.
 * What is returned refuses the whole call, and every buffer is then as it was, the reports too. Its
 * order is that of nd_apply_haplotype with 27 (n not 1 to 16) after 4; 6 is also for other than n
 * feature_ends, ends that fall, or a last end that is not its slice's length, and 12 for fewer than
 * V * n entries in rows or in records, or 8 * n in reports. With n 1 the parts are asked among these.
 * With more, a haplotype whose parts are refused (5, 6, 9, 10) has that number in its report and
 * seven zeros behind it, its rows and records stay as they were, and what is returned is 0. */
uint32_t nd_apply_haplotypes(const struct nd_settings *settings, const uint64_t *starts,
                             size_t starts_len, const uint64_t *ends, size_t ends_len,
                             const int32_t *sizes, size_t sizes_len, const int32_t *features,
                             size_t features_len, const uint32_t *record_numbers,
                             size_t record_numbers_len, const uint64_t *part_ends,
                             size_t part_ends_len, const uint64_t *feature_ends,
                             size_t feature_ends_len, const int32_t *part_sizes,
                             size_t part_sizes_len, const int32_t *part_features,
                             size_t part_features_len, uint32_t *links, size_t links_len,
                             uint64_t *keys, size_t keys_len, uint32_t *rows, size_t rows_len,
                             uint32_t *records, size_t records_len, uint32_t *reports,
                             size_t reports_len);

/* Is a path that someone else found a good one? It is rows of the table, positions among the parts,
 * from 0, and a score. *yes is 1 exactly where the rows ascend and no two overlap (with full 0: there
 * are none), the positions are one of the lists of parts that a search tries, and that list scored
 * against those rows passes every test and gives that score, greater than 0, bit for bit; else 0. An
 * answer of nd_apply_haplotype in search mode with a score above 0 gets a yes with the list that won.
 * one_to_one, maxnodes and maxpaths play no part. One list is scored, however many there are.
 * Refuses by 1 to 10 and 16 as nd_apply_haplotype does, then by 54 (over 64 rows or over 64
 * positions), with *yes 0; a row or a position that isn't there is a no. */
uint32_t nd_check_path(const struct nd_settings *settings, const uint64_t *starts,
                       size_t starts_len, const uint64_t *ends, size_t ends_len,
                       const int32_t *sizes, size_t sizes_len, const int32_t *features,
                       size_t features_len, const int32_t *part_sizes, size_t part_sizes_len,
                       const int32_t *part_features, size_t part_features_len,
                       const uint32_t *rows, size_t rows_len, const uint32_t *positions,
                       size_t positions_len, float score, uint32_t *yes);

/* How long a text the program may print. */
enum { ND_TEXT_LEN = 8192 };

/* The program's answer to a job's bytes: its lines at the front of text, whose rest stays as it was.
 * Returns how many bytes they are; no zero byte ends them. A refused job is answered by a line. */
uint32_t nd_answer(const uint8_t *job, size_t job_len, uint8_t text[ND_TEXT_LEN]);

/* What a table of BED may hold: so many rows, a name of so many bytes, a text of so many bytes. */
enum { ND_BED_ROWS = 64, ND_BED_NAME_LEN = 32, ND_BED_TEXT_LEN = 4800 };

/* Reads BED: up to 64 lines of exactly three columns parted by tabs, all with one name of 1 to 32
 * bytes 0x21 to 0x7E, each ended by a newline; numbers in decimal to 64 bits, no leading zero. The
 * rows stand at the front of starts and ends, the name at that of name, the rest stays as it was;
 * counts are the rows and the name's length, both 0 for an empty text. Refuses by 6 (starts or ends
 * under 64 numbers); then front to back, within a line, by 42 (a sixty-fifth line), 40 (a bad line),
 * 41 (a second name); then by 7 and 8. */
uint32_t nd_read_bed(const uint8_t *text, size_t text_len, uint64_t *starts, size_t starts_len,
                     uint64_t *ends, size_t ends_len, uint8_t name[ND_BED_NAME_LEN],
                     uint32_t counts[2]);

/* Writes the chosen rows the same way, in the order of rows, to the front of text, whose rest stays
 * as it was. *written is how many bytes. Refuses by 6 (starts and ends of unequal length), 40 (a bad
 * name, where any row is written), 44 (a row that isn't there), 43 (too little room). */
uint32_t nd_write_bed(const uint8_t *name, size_t name_len, const uint64_t *starts,
                      size_t starts_len, const uint64_t *ends, size_t ends_len,
                      const uint32_t *rows, size_t rows_len, uint8_t *text, size_t text_len,
                      uint64_t *written);

/* A companions sheet: beside a table of up to 64 rows, for every row the later rows that it does not
 * overlap. ND_COMPANION_ROWS starts and ends are lent, and ND_COMPANION_FLAGS flags; that of row r
 * and a later row s stands at 64 r + s. A table of no rows has a sheet of no flags: begin with all of
 * them false and rows 0. Each call refuses first by 49 (a sheet that isn't its table's, or a table
 * that breaks 5 to 8); table and sheet are unchanged on a refusal. */
enum { ND_COMPANION_ROWS = 64, ND_COMPANION_FLAGS = 4096 };

/* Adds a row at the end. Refuses by 49, 5 (a sixty-fifth row), 7, 8. */
uint32_t nd_companions_add(uint64_t starts[ND_COMPANION_ROWS], uint64_t ends[ND_COMPANION_ROWS],
                           bool sheet[ND_COMPANION_FLAGS], uint32_t *rows, uint64_t start,
                           uint64_t end);

/* Takes the last row away; starts and ends stay as they lie. Refuses by 49, 44 (there is no row). */
uint32_t nd_companions_remove(const uint64_t starts[ND_COMPANION_ROWS],
                              const uint64_t ends[ND_COMPANION_ROWS],
                              bool sheet[ND_COMPANION_FLAGS], uint32_t *rows);

/* May rows a and b stand together, in either order? *yes is 1 or 0, and 0 for a row with itself.
 * Refuses by 49, 44 (a row that isn't there), with *yes 0. */
uint32_t nd_companions_together(const uint64_t starts[ND_COMPANION_ROWS],
                                const uint64_t ends[ND_COMPANION_ROWS],
                                const bool sheet[ND_COMPANION_FLAGS], uint32_t rows, uint32_t a,
                                uint32_t b, uint32_t *yes);

/* How many later companions has a row? Refuses by 49, 44 (a row that isn't there), with *count 0. */
uint32_t nd_companions_count(const uint64_t starts[ND_COMPANION_ROWS],
                             const uint64_t ends[ND_COMPANION_ROWS],
                             const bool sheet[ND_COMPANION_FLAGS], uint32_t rows, uint32_t row,
                             uint32_t *count);

/* Whose reads a haplotype came from: the data of 1 to 8 samples in ND_META_LEN words. Entry i of the
 * eights is sample i's; those at and behind the count are nobody's. A search has no use for the data: a
 * caller keeps it beside the haplotype, and it goes with the answer, a refused one too. */
enum nd_meta {
    ND_META_ID,
    ND_META_SAMPLES,       /* how many there are, 1 to 8 */
    ND_META_FLAGS,         /* bit i where sample i has a read */
    ND_META_COVERAGE,      /* eight: how many reads each has */
    ND_META_PS = 11,       /* eight phase sets: 0 absent, else the value + 1 */
    ND_META_HP = 19,       /* eight haplotype tags: 0 absent, else the value + 1 */
    ND_META_ZERO = 27,     /* written as 0, and not looked at */
    ND_META_LEN
};

/* One read of sample index of so many. Refuses by 50 (samples not 1 to 8), 51 (index at or above
 * them); meta is then a blank of one sample. */
uint32_t nd_meta_new(uint64_t index, uint64_t samples, uint64_t meta[ND_META_LEN]);

/* No read of any of so many samples. Refuses by 50; meta is then a blank of one sample. */
uint32_t nd_meta_blank(uint64_t samples, uint64_t meta[ND_META_LEN]);

/* The two combined, on the left: the samples' coverages added, the right's phase sets and tags where
 * the left has none, the flags joined; the id, and the entries at and behind the count, stay the
 * left's. Refuses by 50 (either's count not 1 to 8), 52 (unequal counts), 53 (a sum passes 64 bits);
 * left is then as it was. */
uint32_t nd_meta_combine(uint64_t left[ND_META_LEN], const uint64_t right[ND_META_LEN]);

/* Settings with versions: a book in a lent buffer, one record of ND_BOOK_RECORD_LEN bytes for each
 * version, 1, 2, 3 and on to ND_BOOK_VERSIONS, and zeros behind the last. A buffer of zeros is a book
 * of no versions; ND_BOOK_LEN bytes hold all that a book may have. Settings are lent as their
 * ND_BOOK_SETTINGS_LEN bytes: k, squish, one_to_one and full, a byte each, the flags 0 or 1; maxpaths,
 * maxnodes, fnmax, pileupmax, minkfreq and then the bits of sizesim, seqsim, fpenalty and gpenalty,
 * four bytes each, the lowest first; and letters, a byte of 0 or 1. They are kept as they are lent.
 * Each call refuses first by 48 (a book that breaks these rules or holds settings we would refuse);
 * nothing is changed on a refusal, but *version and *added are then 0. */
enum {
    ND_BOOK_SETTINGS_LEN = 41,
    ND_BOOK_RECORD_LEN = 43,
    ND_BOOK_VERSIONS = 255,
    ND_BOOK_LEN = 10965
};

/* Saves the settings under the next version, which *version tells. Refuses by 48, 24 (a flag or
 * letters not 0 or 1), 1 to 3, 46 (all 255 versions are used), 47 (fewer than 43 bytes left). */
uint32_t nd_book_save(uint8_t *book, size_t book_len, const uint8_t settings[ND_BOOK_SETTINGS_LEN],
                      uint32_t *version);

/* Reads the settings saved under a version, whatever was saved later. Refuses by 48, 45 (a version
 * that isn't there, 0 among them). */
uint32_t nd_book_read(const uint8_t *book, size_t book_len, uint32_t version,
                      uint8_t settings[ND_BOOK_SETTINGS_LEN]);

/* Saves the settings of a version again, under the next, which *added tells. Refuses by 48, 45, 46,
 * 47. */
uint32_t nd_book_restore(uint8_t *book, size_t book_len, uint32_t version, uint32_t *added);

/* A job's bytes in the edition of the form asked for, 1 or 2, at the front of out, whose rest stays
 * as it was. *written is how many bytes, 0 on a refusal, which changes nothing else. To edition 2 the
 * row numbers become record numbers and letters is 0; a job grows by 1 + 4 V bytes. Refuses by the
 * form's first fault (20 to 25, 27, 13), then 22 (a job already in that edition, or no such edition),
 * 28 (a record number is not its row), 29 (letters is 1), 30 (too little room). */
uint32_t nd_move_job(const uint8_t *job, size_t job_len, uint32_t edition, uint8_t *out,
                     size_t out_len, uint64_t *written);

#ifdef __cplusplus
}
#endif

#endif
