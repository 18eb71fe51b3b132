/* Asks the library for BED as standard input tells, and prints what it gives, a line for each request (oracle/bed/check writes the requests and judges the lines).
 *
 * R starts_len ends_len text      reads: the number, whether the rest of every buffer is as it was, the two counts, the name, the starts, the ends
 * W name starts ends rows room    writes: the number, whether the rest of the buffer is as it was, how many bytes, the bytes
 * O s1 e1 s2 e2                   how many chains the two rows have: 4 where they do not overlap, else 3
 * A length is a u32, and stands before what it counts. Numbers are little-endian. */
#include <inttypes.h>
#include <stdio.h>
#include <stdlib.h>
#include <string.h>

#include "ndigomarr.h"

enum { NUMBERS = 128, TEXT = 1 << 16 };

static const uint64_t mark = 0xdead000100020003u;

static void get(void *to, size_t bytes)
{
    if (fread(to, 1, bytes, stdin) != bytes) {
        fputs("a request is cut short\n", stderr);
        exit(1);
    }
}

static uint32_t length(size_t most)
{
    uint32_t n;
    get(&n, 4);
    if (n > most) {
        fputs("a request is too long\n", stderr);
        exit(1);
    }
    return n;
}

static void hexadecimal(const uint8_t *bytes, size_t n)
{
    putchar(' ');
    putchar('x');
    for (size_t i = 0; i < n; i++)
        printf("%02x", bytes[i]);
}

static void reading(void)
{
    static uint64_t starts[NUMBERS], ends[NUMBERS];
    static uint8_t text[TEXT], name[32];
    uint32_t counts[2] = {7, 7}, s = length(NUMBERS), e = length(NUMBERS), n = length(TEXT);
    int kept = 1;
    get(text, n);
    for (size_t i = 0; i < NUMBERS; i++)
        starts[i] = ends[i] = mark;
    memset(name, 7, sizeof name);
    uint32_t number = nd_read_bed(text, n, starts, s, ends, e, name, counts);
    for (size_t i = counts[0]; i < NUMBERS; i++)
        kept = kept && starts[i] == mark && ends[i] == mark;
    for (size_t i = counts[1]; i < sizeof name; i++)
        kept = kept && name[i] == 7;
    printf("%" PRIu32 " %d %" PRIu32 " %" PRIu32, number, kept, counts[0], counts[1]);
    hexadecimal(name, counts[1]);
    for (size_t i = 0; i < counts[0]; i++)
        printf(" %" PRIu64, starts[i]);
    for (size_t i = 0; i < counts[0]; i++)
        printf(" %" PRIu64, ends[i]);
    putchar('\n');
}

static void writing(void)
{
    static uint64_t starts[NUMBERS], ends[NUMBERS];
    static uint32_t rows[NUMBERS];
    static uint8_t name[TEXT], text[TEXT];
    uint64_t written = 7;
    int kept = 1;
    uint32_t n = length(TEXT);
    get(name, n);
    uint32_t s = length(NUMBERS);
    get(starts, 8 * (size_t)s);
    uint32_t e = length(NUMBERS);
    get(ends, 8 * (size_t)e);
    uint32_t r = length(NUMBERS);
    get(rows, 4 * (size_t)r);
    uint32_t room = length(TEXT);
    memset(text, 7, sizeof text);
    uint32_t number = nd_write_bed(name, n, starts, s, ends, e, rows, r, text, room, &written);
    for (size_t i = written; i < sizeof text; i++)
        kept = kept && text[i] == 7;
    printf("%" PRIu32 " %d %" PRIu64, number, kept, written);
    hexadecimal(text, (size_t)written);
    putchar('\n');
}

static void overlap(void)
{
    uint64_t b[4];
    uint32_t chains = 0;
    get(b, sizeof b);
    uint64_t starts[2] = {b[0], b[2]}, ends[2] = {b[1], b[3]};
    uint32_t number = nd_count_chains(starts, 2, ends, 2, true, 4096, &chains);
    printf("%" PRIu32 " %" PRIu32 "\n", number, chains);
}

int main(void)
{
    for (int kind = getchar(); kind != EOF; kind = getchar()) {
        if (kind == 'R')
            reading();
        else if (kind == 'W')
            writing();
        else
            overlap();
    }
    return 0;
}
