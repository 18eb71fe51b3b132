/* The worked example from C, and from C++: two variants with their record numbers, one part, and the row and record that explain it; then two haplotypes over them. */
#include "ndigomarr.h"

#include <stdio.h>
#include <string.h>

#ifdef __cplusplus
#define LANGUAGE "C++"
#else
#define LANGUAGE "C"
#endif

enum { K = 1, ENTRIES = 4, V = 2, MAXPATHS = 10, ROOM = 1 + (MAXPATHS + 1) * V, MARK = 7 };

static int failed;

static void expect(const char *what, uint32_t got, uint32_t wanted)
{
    if (got != wanted) {
        printf("%s: got %u, wanted %u\n", what, (unsigned)got, (unsigned)wanted);
        failed = 1;
    }
}

static void count(const char *letters, int32_t *row)
{
    expect(letters, nd_seq_to_kmer((const uint8_t *)letters, strlen(letters), K, false, 0, row, ENTRIES), ND_ACCEPTED);
}

static struct nd_settings worked_settings(void)
{
    struct nd_settings settings = ND_SETTINGS_DEFAULT;
    settings.k = K;
    settings.full = 2; /* yes, as any number but 0 */
    settings.maxpaths = MAXPATHS;
    settings.minkfreq = 1;
    settings.sizesim = settings.seqsim = 0.5f;
    return settings;
}

/* What a search is lent to write its answer to. */
struct answer {
    uint32_t rows[V], records[V], report[ND_REPORT_LEN];
};

static struct answer unwritten(void)
{
    struct answer answer = {{MARK, MARK}, {MARK, MARK}, {MARK}};
    return answer;
}

/* The second variant has these letters. */
static uint32_t search_over(const char *letters, const struct nd_settings *settings, const uint32_t *record_numbers, size_t records_len, struct answer *answer)
{
    uint64_t starts[V] = {10, 20}, ends[V] = {10, 20}, keys[ROOM];
    int32_t sizes[V] = {2, 2}, features[V * ENTRIES], part_sizes[1] = {2}, part_features[ENTRIES];
    uint32_t links[ROOM], chains = 0;
    count("AG", features);
    count(letters, features + ENTRIES);
    count("AG", part_features);
    expect("chain count", nd_count_chains(starts, V, ends, V, true, 4096, &chains), ND_ACCEPTED);
    expect("chains", chains, 4);
    return nd_apply_haplotype(settings, starts, V, ends, V, sizes, V, features, V * ENTRIES, record_numbers, V,
                              part_sizes, 1, part_features, ENTRIES, links, ROOM, keys, ROOM, answer->rows, V,
                              answer->records, records_len, answer->report);
}

static uint32_t search(const struct nd_settings *settings, const uint32_t *record_numbers, size_t records_len, struct answer *answer)
{
    return search_over("CT", settings, record_numbers, records_len, answer);
}

static void worked_example(void)
{
    const uint32_t record_numbers[V] = {4071300268u, 31};
    struct nd_settings settings = worked_settings();
    struct answer answer = unwritten();
    expect("refusal", search(&settings, record_numbers, V, &answer), ND_ACCEPTED);
    expect("rows", answer.report[ND_ROWS], 1);
    expect("row", answer.rows[0], 0);
    expect("the rows' rest", answer.rows[1], MARK);
    expect("record", answer.records[0], record_numbers[0]);
    expect("the records' rest", answer.records[1], MARK);
    expect("target", answer.report[ND_TARGET], 1);
    expect("score", answer.report[ND_SCORE], 0x3f800000);
    expect("scored", answer.report[ND_SCORED], 4);
    expect("complete", answer.report[ND_COMPLETE], 1);
    settings.k = 256 + K;
    expect("k 257", search(&settings, record_numbers, V, &answer), ND_REFUSED_BAD_K);
    expect("its words", strcmp(nd_refusal_text(ND_REFUSED_BAD_K), "k not 1 to 6") == 0, 1);
    expect("its report", answer.report[ND_SCORE], 0);
    settings.k = K;
    settings.letters = 1;
    expect("letters 1", search(&settings, record_numbers, V, &answer), ND_ACCEPTED);
    settings.letters = 2;
    expect("letters 2", search(&settings, record_numbers, V, &answer), ND_REFUSED_BAD_NUMBER);
    settings.letters = 256;
    expect("letters 256", search(&settings, record_numbers, V, &answer), ND_REFUSED_BAD_NUMBER);
}

/* What an n does in each reading, at k 1. */
static void unread_letters(void)
{
    const uint8_t *text = (const uint8_t *)"AGnC";
    int32_t row[ENTRIES] = {MARK, MARK, MARK, MARK}; /* of A, G, C and T */
    expect("letters 2 of the counter", nd_seq_to_kmer(text, 4, K, false, 2, row, ENTRIES), ND_REFUSED_BAD_NUMBER);
    expect("the row after it", row[0] == MARK && row[3] == MARK, 1);
    expect("letters 0", nd_seq_to_kmer(text, 4, K, false, 0, row, ENTRIES), ND_ACCEPTED);
    expect("an n as A", row[0] == 2 && row[1] == 1 && row[2] == 1 && row[3] == 0, 1);
    expect("letters 1", nd_seq_to_kmer(text, 4, K, true, 1, row, ENTRIES), ND_ACCEPTED);
    expect("an n left out", row[0] == -1 && row[1] == -1 && row[2] == -1 && row[3] == 0, 1);
}

/* A refused search writes its report alone. */
static void refused_over(const char *letters, const char *what, uint32_t first, uint32_t second, size_t records_len, uint32_t wanted)
{
    const uint32_t record_numbers[V] = {first, second};
    struct nd_settings settings = worked_settings();
    struct answer answer = unwritten();
    expect(what, search_over(letters, &settings, record_numbers, records_len, &answer), wanted);
    expect("its report", answer.report[ND_ROWS], 0);
    expect("its rows", answer.rows[0] == MARK && answer.rows[1] == MARK, 1);
    expect("its records", answer.records[0] == MARK && answer.records[1] == MARK, 1);
}

static void refused_records(const char *what, uint32_t first, uint32_t second, size_t records_len, uint32_t wanted)
{
    refused_over("CT", what, first, second, records_len, wanted);
}

/* A variant of fewer letters than k has a row all zero. */
static void empty_row(void)
{
    refused_over("", "no letters", 31, 32, V, ND_REFUSED_EMPTY_ROW);
    refused_over("", "no letters, and room for one record", 31, 32, V - 1, ND_REFUSED_EMPTY_ROW);
    refused_over("", "no letters, and a repeated record number", 31, 31, V, ND_REFUSED_REPEATED_NUMBER);
    expect("its words", strcmp(nd_refusal_text(ND_REFUSED_EMPTY_ROW), "a variant's feature row is all zero") == 0, 1);
}

/* What two haplotypes are lent to write their answers to. */
enum { HAPLOTYPES = 2 };

struct answers {
    uint32_t rows[HAPLOTYPES * V], records[HAPLOTYPES * V], reports[HAPLOTYPES * ND_HAPLOTYPE_REPORT_LEN];
};

/* Two haplotypes of one part each, CT and AG, over the same variants; n of them are asked for. */
static uint32_t search_two(int32_t first_size, size_t n, struct answers *answers)
{
    const uint32_t record_numbers[V] = {50, 40};
    uint64_t starts[V] = {10, 20}, ends[V] = {10, 20}, keys[ROOM], part_ends[HAPLOTYPES] = {1, 2}, feature_ends[HAPLOTYPES] = {ENTRIES, 2 * ENTRIES};
    int32_t sizes[V] = {2, 2}, features[V * ENTRIES], part_sizes[HAPLOTYPES] = {first_size, 2}, part_features[HAPLOTYPES * ENTRIES];
    struct nd_settings settings = worked_settings();
    uint32_t links[ROOM];
    count("AG", features);
    count("CT", features + ENTRIES);
    count("CT", part_features);
    count("AG", part_features + ENTRIES);
    memset(answers, MARK, sizeof *answers);
    return nd_apply_haplotypes(&settings, starts, V, ends, V, sizes, V, features, V * ENTRIES, record_numbers, V, part_ends, n, feature_ends, n, part_sizes, n,
                               part_features, n * ENTRIES, links, ROOM, keys, ROOM, answers->rows, HAPLOTYPES * V, answers->records, HAPLOTYPES * V,
                               answers->reports, HAPLOTYPES * ND_HAPLOTYPE_REPORT_LEN);
}

static void two_haplotypes(void)
{
    struct answers answers;
    const uint32_t *second = answers.reports + ND_HAPLOTYPE_REPORT_LEN;
    const uint32_t mark = MARK * 0x01010101u;
    expect("two haplotypes", search_two(2, 2, &answers), ND_ACCEPTED);
    expect("the first's row", answers.rows[0], 1);
    expect("the second's row", answers.rows[V], 0);
    expect("the first's record", answers.records[0], 40);
    expect("the second's record", answers.records[V], 50);
    expect("the second's refusal", second[0], ND_ACCEPTED);
    expect("the second's rows", second[1 + ND_ROWS], 1);
    expect("the second's score", second[1 + ND_SCORE], 0x3f800000);
    expect("a first that is refused", search_two(131073, 2, &answers), ND_ACCEPTED);
    expect("its number", answers.reports[0], ND_REFUSED_BAD_SIZE);
    expect("its seven words", answers.reports[1] | answers.reports[2] | answers.reports[3] | answers.reports[7], 0);
    expect("its rows", answers.rows[0] == mark && answers.rows[1] == mark, 1);
    expect("the second's row beside it", answers.rows[V], 0);
    expect("no haplotype", search_two(2, 0, &answers), ND_REFUSED_TOO_MANY_HAPLOTYPES);
    expect("the reports then", answers.reports[0], mark);
    expect("one that is refused", search_two(131073, 1, &answers), ND_REFUSED_BAD_SIZE);
    expect("its report then", answers.reports[0], mark);
}

/* Somebody else's path over the same variants, with these letters in its part: rows and positions, as many as are said. */
static uint32_t proposed(const uint32_t *rows, size_t rows_len, const uint32_t *positions, size_t positions_len, float score, uint32_t *yes)
{
    uint64_t starts[V] = {10, 20}, ends[V] = {10, 20};
    int32_t sizes[V] = {2, 2}, features[V * ENTRIES], part_sizes[1] = {2}, part_features[ENTRIES];
    struct nd_settings settings = worked_settings();
    count("AG", features);
    count("CT", features + ENTRIES);
    count("AG", part_features);
    return nd_check_path(&settings, starts, V, ends, V, sizes, V, features, V * ENTRIES, part_sizes, 1, part_features, ENTRIES, rows, rows_len, positions,
                         positions_len, score, yes);
}

static void check_path(void)
{
    const uint32_t rows[V] = {0, 1}, other[V] = {1, 0}, position[1] = {0}, many[65] = {0};
    uint32_t yes = MARK;
    expect("the worked answer", proposed(rows, 1, position, 1, 1.0f, &yes), ND_ACCEPTED);
    expect("a yes", yes, 1);
    expect("another row", proposed(other, 1, position, 1, 1.0f, &yes), ND_ACCEPTED);
    expect("a no", yes, 0);
    expect("one bit less", proposed(rows, 1, position, 1, 0.99999994f, &yes) == ND_ACCEPTED && yes == 0, 1);
    expect("no position", proposed(rows, 1, position, 0, 1.0f, &yes) == ND_ACCEPTED && yes == 0, 1);
    expect("65 rows", proposed(many, 65, position, 1, 1.0f, &yes), ND_REFUSED_LONG_PROPOSAL);
    expect("its answer", yes, 0);
    expect("65 positions", proposed(rows, 1, many, 65, 1.0f, &yes), ND_REFUSED_LONG_PROPOSAL);
}

static void program_text(void)
{
    const char *wanted = "refused 21\n";
    const uint8_t job[1] = {1}; /* the kind of a settings record, without its body */
    uint8_t text[ND_TEXT_LEN] = {0};
    expect("a job that is cut short", nd_answer(job, 1, text), (uint32_t)strlen(wanted));
    expect("its text", memcmp(text, wanted, strlen(wanted)) == 0, 1);
}

static void bed(void)
{
    const char *line = "reef7\t10\t20\n";
    const uint32_t row[1] = {0};
    uint64_t starts[ND_BED_ROWS], ends[ND_BED_ROWS], written = MARK;
    uint32_t counts[2];
    uint8_t name[ND_BED_NAME_LEN], text[ND_BED_TEXT_LEN];
    expect("BED", nd_read_bed((const uint8_t *)line, strlen(line), starts, ND_BED_ROWS, ends, ND_BED_ROWS, name, counts), ND_ACCEPTED);
    expect("its rows", counts[0], 1);
    expect("its name", counts[1] == 5 && memcmp(name, "reef7", 5) == 0, 1);
    expect("its numbers", starts[0] == 10 && ends[0] == 20, 1);
    expect("BED written", nd_write_bed(name, counts[1], starts, 1, ends, 1, row, 1, text, sizeof text, &written), ND_ACCEPTED);
    expect("the bytes that were read", written == strlen(line) && memcmp(text, line, strlen(line)) == 0, 1);
    expect("no newline", nd_read_bed(text, (size_t)written - 1, starts, ND_BED_ROWS, ends, ND_BED_ROWS, name, counts), ND_REFUSED_BAD_LINE);
    expect("its counts", counts[0] == 0 && counts[1] == 0, 1);
}

/* Settings and the end: in edition 2 one byte longer, and back as it was. */
static void editions(void)
{
    const uint8_t job[42] = {1, 1};
    uint8_t second[43], back[42];
    uint64_t written = MARK;
    expect("to edition 2", nd_move_job(job, sizeof job, 2, second, sizeof second, &written), ND_ACCEPTED);
    expect("its bytes", written == sizeof second && second[0] == 0x11, 1);
    expect("and back", nd_move_job(second, sizeof second, 1, back, sizeof back, &written), ND_ACCEPTED);
    expect("the first bytes", written == sizeof back && memcmp(back, job, sizeof job) == 0, 1);
    expect("already there", nd_move_job(job, sizeof job, 1, back, sizeof back, &written), ND_REFUSED_OUT_OF_PLACE);
    expect("nothing written", (uint32_t)written, 0);
}

/* Rows 0 to 10, 5 to 5 inside it, and 10 to 12, which only touches it. */
static void companions(void)
{
    uint64_t starts[ND_COMPANION_ROWS] = {0}, ends[ND_COMPANION_ROWS] = {0};
    bool sheet[ND_COMPANION_FLAGS] = {false};
    uint32_t rows = 0, answer = MARK;
    expect("a first row", nd_companions_add(starts, ends, sheet, &rows, 0, 10), ND_ACCEPTED);
    expect("a row inside it", nd_companions_add(starts, ends, sheet, &rows, 5, 5), ND_ACCEPTED);
    expect("a row behind it", nd_companions_add(starts, ends, sheet, &rows, 10, 12), ND_ACCEPTED);
    expect("a falling start", nd_companions_add(starts, ends, sheet, &rows, 9, 12), ND_REFUSED_FALLING_START);
    expect("their flags", !sheet[1] && sheet[2] && sheet[64 + 2], 1);
    expect("the last and the first", nd_companions_together(starts, ends, sheet, rows, 2, 0, &answer), ND_ACCEPTED);
    expect("a yes", answer, 1);
    expect("a row with itself", nd_companions_together(starts, ends, sheet, rows, 1, 1, &answer), ND_ACCEPTED);
    expect("a no", answer, 0);
    expect("later companions", nd_companions_count(starts, ends, sheet, rows, 0, &answer), ND_ACCEPTED);
    expect("of the first row", answer, 1);
    expect("a fourth row", nd_companions_count(starts, ends, sheet, rows, 3, &answer), ND_REFUSED_MISSING_ROW);
    sheet[ND_COMPANION_FLAGS - 1] = true;
    expect("a sheet that isn't its table's", nd_companions_remove(starts, ends, sheet, &rows), ND_REFUSED_NOT_ITS_SHEET);
    sheet[ND_COMPANION_FLAGS - 1] = false;
    expect("the last taken away", nd_companions_remove(starts, ends, sheet, &rows), ND_ACCEPTED);
    expect("what is left", rows == 2 && !sheet[2] && !sheet[64 + 2] && starts[2] == 10, 1);
}

/* Two reads of two samples, combined. */
static void data(void)
{
    uint64_t left[ND_META_LEN], right[ND_META_LEN];
    expect("a read of the first of two", nd_meta_new(0, 2, left), ND_ACCEPTED);
    expect("a read of the second", nd_meta_new(1, 2, right), ND_ACCEPTED);
    left[ND_META_ID] = 31;
    left[ND_META_PS] = 5 + 1;
    right[ND_META_PS] = 6 + 1;
    right[ND_META_PS + 1] = 7 + 1;
    expect("combined", nd_meta_combine(left, right), ND_ACCEPTED);
    expect("its id and count", left[ND_META_ID] == 31 && left[ND_META_SAMPLES] == 2, 1);
    expect("its flags", left[ND_META_FLAGS] == 3, 1);
    expect("its coverage", left[ND_META_COVERAGE] == 1 && left[ND_META_COVERAGE + 1] == 1, 1);
    expect("its phase sets", left[ND_META_PS] == 6 && left[ND_META_PS + 1] == 8, 1);
    left[ND_META_COVERAGE] = UINT64_MAX;
    right[ND_META_COVERAGE] = 1;
    expect("a sum past 64 bits", nd_meta_combine(left, right), ND_REFUSED_COVERAGE_OVERFLOW);
    expect("the left then", left[ND_META_COVERAGE] == UINT64_MAX && left[ND_META_PS + 1] == 8, 1);
    expect("three samples", nd_meta_blank(3, right), ND_ACCEPTED);
    expect("with two", nd_meta_combine(left, right), ND_REFUSED_UNEQUAL_SAMPLES);
    expect("nine samples", nd_meta_blank(9, right), ND_REFUSED_BAD_SAMPLES);
    expect("a blank of one then", right[ND_META_SAMPLES] == 1 && right[ND_META_FLAGS] == 0 && right[ND_META_ZERO] == 0, 1);
    expect("the fourth of three", nd_meta_new(3, 3, right), ND_REFUSED_NO_SUCH_SAMPLE);
}

/* Two versions in a book of three places, the first saved again, and a byte behind the last. */
static void book(void)
{
    uint8_t book[3 * ND_BOOK_RECORD_LEN] = {0}, read[ND_BOOK_SETTINGS_LEN] = {0};
    uint8_t settings[ND_BOOK_SETTINGS_LEN] = {4, 0, 0, 1}; /* k 4, full, all numbers 0 */
    uint32_t version = MARK;
    expect("settings saved", nd_book_save(book, sizeof book, settings, &version), ND_ACCEPTED);
    expect("their version", version, 1);
    settings[0] = 5;
    expect("other settings", nd_book_save(book, sizeof book, settings, &version), ND_ACCEPTED);
    expect("their version", version, 2);
    settings[0] = 7;
    expect("k 7", nd_book_save(book, sizeof book, settings, &version), ND_REFUSED_BAD_K);
    expect("its version", version, 0);
    settings[40] = 2;
    expect("letters 2", nd_book_save(book, sizeof book, settings, &version), ND_REFUSED_BAD_FLAG);
    expect("version 1", nd_book_read(book, sizeof book, 1, read), ND_ACCEPTED);
    expect("its k", read[0], 4);
    expect("version 3", nd_book_read(book, sizeof book, 3, read), ND_REFUSED_MISSING_VERSION);
    expect("version 1 again", nd_book_restore(book, sizeof book, 1, &version), ND_ACCEPTED);
    expect("its new version", version, 3);
    expect("a full book", nd_book_restore(book, sizeof book, 1, &version), ND_REFUSED_LITTLE_BOOK_ROOM);
    expect("a book cut short", nd_book_read(book, sizeof book - 1, 1, read), ND_REFUSED_BROKEN_BOOK);
}

static void similarities(void)
{
    float value = 2;
    int32_t one[1] = {1}, two[2] = {1, 1};
    expect("sizesim", nd_sizesim(0, 4, &value), ND_ACCEPTED);
    expect("its value", value == 0.25f, 1);
    expect("seqsim", nd_seqsim(two, 2, two, 2, 1, &value), ND_ACCEPTED);
    expect("its value", value == 1.0f, 1);
    expect("a size of 8,388,609", nd_sizesim(0, 8388609, &value), ND_REFUSED_BAD_SIZE);
    expect("its value", value == 0, 1);
    expect("unequal lengths", nd_seqsim(one, 1, two, 2, 1, &value), ND_REFUSED_BAD_LENGTHS);
    expect("k 7", nd_seq_to_kmer((const uint8_t *)"A", 1, 7, false, 0, one, 1), ND_REFUSED_BAD_K);
    expect("the row after a refusal", (uint32_t)one[0], 1);
}

int main(void)
{
    worked_example();
    unread_letters();
    refused_records("a repeated record number", 31, 31, V, ND_REFUSED_REPEATED_NUMBER);
    refused_records("room for one record", 31, 32, V - 1, ND_REFUSED_ANSWER_ROOM);
    refused_records("both", 31, 31, V - 1, ND_REFUSED_REPEATED_NUMBER);
    empty_row();
    two_haplotypes();
    program_text();
    bed();
    editions();
    companions();
    data();
    check_path();
    book();
    similarities();
    puts(failed ? "the " LANGUAGE " binding differs" : "the " LANGUAGE " binding agrees");
    return failed;
}
