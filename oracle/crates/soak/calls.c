/* The archive in a process of its own, asked in batches over standard input and output by oracle/crates/soak (its harness.rs has the other end).
 *
 * A batch is its length in bytes (u64), how many calls it holds (u64), and the calls, each a kind, a placing and a number to draw from (u64 each) with what the
 * call is lent behind them. All of it is read before the first call is made, and all replies are written after the last: their length (u64), then for each
 * what is at fault with the lent buffers, how many blocks of the code it was the first to reach, what was returned and how many bytes follow (u64 each).
 * What is lent lies so that it ends where a page begins that nobody may touch, begins behind such a page, stands between guard bytes, or is a heap block of its own.
 * Buffers to be written hold drawn bytes before a call, guards too, and are compared whole afterwards.
 *
 * calls [--guided FILE]: FILE names the addresses of the blocks, a line each; the first byte of each is made a breakpoint, which is taken away when it is met.
 */
#define _GNU_SOURCE
#include <signal.h>
#include <stdint.h>
#include <stdio.h>
#include <stdlib.h>
#include <string.h>
#include <sys/mman.h>
#include <sys/time.h>
#include <ucontext.h>
#include <unistd.h>

#include "../../../bindings/c/ndigomarr.h"

enum { PAGE = 4096, GUARD = 64, NOISE = 1 << 16, OFFSETS = 1 << 12, PATIENCE = 100 };
enum kind { ANSWER, HAPLOTYPE, HAPLOTYPES, SPOIL, OVERREAD, BLOCKS };
enum placing { ENDS_AT_PAGE, BEGINS_AT_PAGE, BETWEEN_GUARDS, ON_HEAP };
enum fault { NO_FAULT, GUARD_BEFORE, GUARD_BEHIND, REST_CHANGED, TOO_LONG, QUEUE_CHANGED = 100 };
enum slot { JOB, TEXT, STARTS, ENDS, SIZES, FEATURES, NUMBERS, PART_ENDS, FEATURE_ENDS, PART_SIZES, PART_FEATURES, LINKS, KEYS, ROWS, RECORDS, REPORTS, SLOTS };

static void give_up(const char *words)
{
    fprintf(stderr, "calls: %s\n", words);
    exit(2);
}

/* Bytes that grow as they are added to. */
struct bytes {
    uint8_t *at;
    size_t length, room;
};

static void make_room(struct bytes *b, size_t length)
{
    if (length <= b->room)
        return;
    b->room = length * 2;
    b->at = realloc(b->at, b->room);
    if (b->at == NULL)
        give_up("no memory");
}

static void add(struct bytes *b, const void *from, size_t length)
{
    make_room(b, b->length + length);
    memcpy(b->at + b->length, from, length);
    b->length += length;
}

static void add_word(struct bytes *b, uint64_t word)
{
    add(b, &word, sizeof word);
}

/* What is drawn: the same bytes for the same offset. */
static uint8_t noise[NOISE + OFFSETS];

static void make_noise(void)
{
    uint64_t state = 1;
    for (size_t i = 0; i < sizeof noise; i++) {
        state = state * 6364136223846793005u + 1442695040888963407u;
        noise[i] = (uint8_t)(state >> 56);
    }
}

static void fill(uint8_t *at, size_t length, size_t offset)
{
    for (size_t done = 0; done < length; done += NOISE)
        memcpy(at + done, noise + offset, length - done < NOISE ? length - done : NOISE);
}

/* A stretch of memory between two pages that nobody may touch, and what of it is lent: `front` guard bytes, the buffer, `behind` guard bytes. */
static struct lent {
    uint8_t *pages, *at, *heap;
    size_t room, bytes, front, behind;
} lents[SLOTS];

static void map_pages(struct lent *l, size_t bytes)
{
    size_t room = (bytes * 2 + PAGE - 1) / PAGE * PAGE;
    if (l->pages != NULL)
        munmap(l->pages - PAGE, l->room + 2 * PAGE);
    uint8_t *all = mmap(NULL, room + 2 * PAGE, PROT_NONE, MAP_PRIVATE | MAP_ANONYMOUS, -1, 0);
    if (all == MAP_FAILED || mprotect(all + PAGE, room, PROT_READ | PROT_WRITE) != 0)
        give_up("no pages");
    l->pages = all + PAGE;
    l->room = room;
}

static size_t offset_of(uint64_t drawn, enum slot slot)
{
    return (drawn + slot * 97) % OFFSETS;
}

/* Lends so many bytes in a slot, with drawn bytes in them and in the guards. */
static uint8_t *lend(enum slot slot, size_t bytes, enum placing placing, uint64_t drawn)
{
    struct lent *l = &lents[slot];
    free(l->heap);
    l->heap = NULL;
    l->bytes = bytes;
    l->front = placing == ENDS_AT_PAGE || placing == BETWEEN_GUARDS ? GUARD : 0;
    l->behind = placing == BEGINS_AT_PAGE || placing == BETWEEN_GUARDS ? GUARD : 0;
    if (placing == ON_HEAP) {
        l->at = l->heap = malloc(bytes + (bytes == 0));
        if (l->heap == NULL)
            give_up("no memory");
    } else {
        if (bytes + 2 * GUARD > l->room)
            map_pages(l, bytes + 2 * GUARD);
        l->at = placing == ENDS_AT_PAGE ? l->pages + l->room - bytes : l->pages + l->front;
    }
    fill(l->at - l->front, l->front + bytes + l->behind, offset_of(drawn, slot));
    return l->at;
}

static uint64_t guard_fault(enum slot slot, uint64_t drawn)
{
    struct lent *l = &lents[slot];
    size_t offset = offset_of(drawn, slot);
    if (memcmp(l->at - l->front, noise + offset, l->front) != 0)
        return GUARD_BEFORE;
    for (size_t i = 0; i < l->behind; i++)
        if (l->at[l->bytes + i] != noise[offset + (l->front + l->bytes + i) % NOISE])
            return GUARD_BEHIND;
    return NO_FAULT;
}

/* Whether the buffer, from a place of it on, holds what it was filled with. */
static int is_untouched(enum slot slot, size_t from, uint64_t drawn)
{
    struct lent *l = &lents[slot];
    size_t offset = offset_of(drawn, slot);
    for (size_t i = from; i < l->bytes;) {
        size_t place = (l->front + i) % NOISE, length = NOISE - place < l->bytes - i ? NOISE - place : l->bytes - i;
        if (memcmp(l->at + i, noise + offset + place, length) != 0)
            return 0;
        i += length;
    }
    return 1;
}

/* The calls that are read, front to back. */
struct reader {
    const uint8_t *at, *end;
};

static const uint8_t *take(struct reader *r, size_t length)
{
    if ((size_t)(r->end - r->at) < length)
        give_up("a call goes past its batch");
    r->at += length;
    return r->at - length;
}

static uint64_t take_word(struct reader *r)
{
    uint64_t word;
    memcpy(&word, take(r, sizeof word), sizeof word);
    return word;
}

/* A slice that is lent with what it holds: its length, then its bytes. */
static void *take_lent(struct reader *r, enum slot slot, enum placing placing, uint64_t drawn)
{
    size_t bytes = take_word(r);
    return memcpy(lend(slot, bytes, placing, drawn), take(r, bytes), bytes);
}

static size_t count_of(enum slot slot, size_t size)
{
    return lents[slot].bytes / size;
}

static uint64_t new_blocks(void);

static void reply(struct bytes *replies, uint64_t fault, uint64_t returned, const void *from, size_t length)
{
    add_word(replies, fault);
    add_word(replies, new_blocks());
    add_word(replies, returned);
    add_word(replies, length);
    add(replies, from, length);
}

static void reply_text(struct bytes *replies, uint32_t length, uint64_t drawn)
{
    uint64_t fault = length > ND_TEXT_LEN ? TOO_LONG : guard_fault(TEXT, drawn);
    size_t shown = length > ND_TEXT_LEN ? ND_TEXT_LEN : length;
    if (fault == NO_FAULT && !is_untouched(TEXT, shown, drawn))
        fault = REST_CHANGED;
    reply(replies, fault, length, lents[TEXT].at, shown);
}

/* The text of a job, the text's own placing drawn apart from the job's. */
static void answer(struct reader *r, struct bytes *replies, enum placing placing, uint64_t drawn)
{
    const uint8_t *job = take_lent(r, JOB, placing, drawn);
    uint8_t *text = lend(TEXT, ND_TEXT_LEN, placing == ON_HEAP ? ON_HEAP : (drawn >> 32) % ON_HEAP, drawn);
    reply_text(replies, nd_answer(job, lents[JOB].bytes, text), drawn);
}

/* In place of a call: one byte beside or in the text changes, so that whoever asks sees that this is found. */
static void spoil(struct reader *r, struct bytes *replies, uint64_t drawn)
{
    uint8_t *text = lend(TEXT, ND_TEXT_LEN, BETWEEN_GUARDS, drawn);
    text[(int64_t)take_word(r)] ^= 1;
    reply_text(replies, 0, drawn);
}

/* In place of a call: one byte is read behind a job, where nobody may. */
static void overread(struct reader *r, struct bytes *replies, enum placing placing, uint64_t drawn)
{
    const volatile uint8_t *job = take_lent(r, JOB, placing, drawn);
    lend(TEXT, ND_TEXT_LEN, BETWEEN_GUARDS, drawn);
    reply_text(replies, job[lents[JOB].bytes] & 0, drawn);
}

/* A search's lent buffers after it: the guards of each, the queue where nothing was searched, and rows, records and reports whole. */
static void reply_search(struct bytes *replies, uint32_t returned, uint64_t drawn)
{
    uint64_t fault = NO_FAULT;
    for (enum slot slot = STARTS; slot <= REPORTS; slot++)
        if (fault == NO_FAULT && guard_fault(slot, drawn) != NO_FAULT)
            fault = 1000 * slot + guard_fault(slot, drawn);
    if (fault == NO_FAULT && !(is_untouched(LINKS, 0, drawn) && is_untouched(KEYS, 0, drawn)))
        fault = QUEUE_CHANGED;
    size_t rows = lents[ROWS].bytes, records = lents[RECORDS].bytes, reports = lents[REPORTS].bytes;
    add_word(replies, fault);
    add_word(replies, new_blocks());
    add_word(replies, returned);
    add_word(replies, rows + records + reports);
    add(replies, lents[ROWS].at, rows);
    add(replies, lents[RECORDS].at, records);
    add(replies, lents[REPORTS].at, reports);
}

#define SLICE(slot, type) (type *)lents[slot].at, count_of(slot, sizeof(type))
#define TABLE SLICE(STARTS, uint64_t), SLICE(ENDS, uint64_t), SLICE(SIZES, int32_t), SLICE(FEATURES, int32_t), SLICE(NUMBERS, uint32_t)
#define ROOMS SLICE(LINKS, uint32_t), SLICE(KEYS, uint64_t), SLICE(ROWS, uint32_t), SLICE(RECORDS, uint32_t)

/* One haplotype, whose report is of fixed length, or several. */
static void search(struct reader *r, struct bytes *replies, enum kind kind, enum placing placing, uint64_t drawn)
{
    struct nd_settings settings;
    memcpy(&settings, take(r, sizeof settings), sizeof settings);
    for (enum slot slot = STARTS; slot <= PART_FEATURES; slot++)
        take_lent(r, slot, placing, drawn);
    size_t entries = take_word(r);
    lend(LINKS, entries * sizeof(uint32_t), placing, drawn);
    lend(KEYS, (entries + 1) * sizeof(uint64_t), placing, drawn);
    for (enum slot slot = ROWS; slot <= REPORTS; slot++)
        take_lent(r, slot, placing, drawn);
    uint32_t returned;
    if (kind == HAPLOTYPE)
        returned = nd_apply_haplotype(&settings, TABLE, SLICE(PART_SIZES, int32_t), SLICE(PART_FEATURES, int32_t), ROOMS, (uint32_t *)lents[REPORTS].at);
    else
        returned = nd_apply_haplotypes(&settings, TABLE, SLICE(PART_ENDS, uint64_t), SLICE(FEATURE_ENDS, uint64_t), SLICE(PART_SIZES, int32_t),
                                       SLICE(PART_FEATURES, int32_t), ROOMS, SLICE(REPORTS, uint32_t));
    reply_search(replies, returned, drawn);
}

/* The blocks of the code, in ascending order, the byte that each had first, and which were reached. */
static uint8_t **blocks, *firsts, *reached;
static size_t block_count;
static volatile uint64_t fresh;

static uint64_t new_blocks(void)
{
    uint64_t count = fresh;
    fresh = 0;
    return count;
}

static size_t block_at(const uint8_t *address)
{
    size_t low = 0, high = block_count;
    while (low < high) {
        size_t middle = (low + high) / 2;
        if (blocks[middle] < address)
            low = middle + 1;
        else
            high = middle;
    }
    return low < block_count && blocks[low] == address ? low : block_count;
}

/* A breakpoint is met: its byte is put back, and the processor goes on from there. Any other trap ends the process as ever. */
static void meet(int signal_number, siginfo_t *info, void *context)
{
    (void)info;
    greg_t *place = &((ucontext_t *)context)->uc_mcontext.gregs[REG_RIP];
    uint8_t *address = (uint8_t *)*place - 1;
    size_t block = block_at(address);
    if (block == block_count) {
        signal(signal_number, SIG_DFL);
        return;
    }
    *address = firsts[block];
    reached[block] = 1;
    fresh++;
    *place -= 1;
}

static void read_blocks(const char *file)
{
    FILE *list = fopen(file, "r");
    unsigned long address;
    size_t room = 0;
    if (list == NULL)
        give_up("no list of blocks");
    while (fscanf(list, "%lx", &address) == 1) {
        if (block_count == room)
            blocks = realloc(blocks, (room = 2 * room + 64) * sizeof *blocks);
        blocks[block_count++] = (uint8_t *)address;
    }
    fclose(list);
    firsts = calloc(block_count + 1, 1);
    reached = calloc(block_count + 1, 1);
}

static void guide(const char *file)
{
    read_blocks(file);
    if (block_count == 0)
        give_up("the list of blocks is empty");
    struct sigaction action = {0};
    action.sa_sigaction = meet;
    action.sa_flags = SA_SIGINFO;
    sigaction(SIGTRAP, &action, NULL);
    uintptr_t from = (uintptr_t)blocks[0] / PAGE * PAGE, until = (uintptr_t)blocks[block_count - 1] + 1;
    if (mprotect((void *)from, until - from, PROT_READ | PROT_WRITE | PROT_EXEC) != 0)
        give_up("the code cannot be written");
    for (size_t i = 0; i < block_count; i++) {
        firsts[i] = *blocks[i];
        *blocks[i] = 0xcc;
    }
}

static void call(struct reader *r, struct bytes *replies)
{
    enum kind kind = take_word(r);
    enum placing placing = take_word(r);
    uint64_t drawn = take_word(r);
    switch (kind) {
    case ANSWER:
        answer(r, replies, placing, drawn);
        break;
    case HAPLOTYPE:
    case HAPLOTYPES:
        search(r, replies, kind, placing, drawn);
        break;
    case SPOIL:
        spoil(r, replies, drawn);
        break;
    case OVERREAD:
        overread(r, replies, placing, drawn);
        break;
    case BLOCKS:
        reply(replies, NO_FAULT, block_count, reached, block_count);
        break;
    default:
        give_up("no such kind of call");
    }
}

static int read_all(uint8_t *to, size_t length)
{
    for (size_t done = 0; done < length;) {
        ssize_t got = read(0, to + done, length - done);
        if (got <= 0)
            return 0;
        done += (size_t)got;
    }
    return 1;
}

static void write_all(const uint8_t *from, size_t length)
{
    for (size_t done = 0; done < length;) {
        ssize_t gone = write(1, from + done, length - done);
        if (gone <= 0)
            exit(2);
        done += (size_t)gone;
    }
}

/* A call that does not return within so many seconds of processor time ends the process, which whoever asked sees; 0 for no watch. */
static void watch(time_t seconds)
{
    struct itimerval timer = {.it_value = {.tv_sec = seconds}};
    setitimer(ITIMER_PROF, &timer, NULL);
}

/* What was taken of memory, so that a leak of the library's would show. */
static void give_back(struct bytes *batch, struct bytes *replies)
{
    for (enum slot slot = JOB; slot < SLOTS; slot++)
        free(lents[slot].heap);
    free(batch->at);
    free(replies->at);
    free(blocks);
    free(firsts);
    free(reached);
}

int main(int argc, char **argv)
{
    struct bytes batch = {0}, replies = {0};
    uint64_t head[2];
    make_noise();
    if (argc == 3 && strcmp(argv[1], "--guided") == 0)
        guide(argv[2]);
    while (read_all((uint8_t *)head, sizeof head)) {
        make_room(&batch, head[0]);
        if (!read_all(batch.at, head[0]))
            give_up("a batch is cut short");
        watch(PATIENCE);
        struct reader r = {batch.at, batch.at + head[0]};
        replies.length = 0;
        add_word(&replies, 0);
        for (uint64_t i = 0; i < head[1]; i++)
            call(&r, &replies);
        watch(0);
        uint64_t length = replies.length - sizeof length;
        memcpy(replies.at, &length, sizeof length);
        write_all(replies.at, replies.length);
    }
    give_back(&batch, &replies);
    return 0;
}
