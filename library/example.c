/* Checks a draft against a contract with slices that are just long enough:

       c-example [--tick MILLISECONDS] DRAFT CONTRACT [TABLE]

   reads both at the tick length that is given, else at 1, with which constants are ticks. It prints NO with n and a step
   a line, or YES with the number of pairs of the widest table. The table is then written to the file TABLE, if one is
   named, and checked again: ACCEPTED with the number of its pairs. Last comes IMPLEMENTATION if the draft is one itself,
   or NO IMPLEMENTATION with what stands in the way. A refusal is printed as REFUSED with its code, file, p, q and what the
   code means.

       c-example [--tick MILLISECONDS] --join LEFT RIGHT JOINED

   writes the two texts joined to the file JOINED, with constants in ticks, and prints JOINED with the number of bytes.

   Exit status: 0 for YES and for JOINED, 1 for NO, 2 for a refusal, a file that cannot be read or written, or wrong
   arguments. */
#include <errno.h>
#include <stdio.h>
#include <stdlib.h>
#include <string.h>

#include "megzhoi.h"

enum { YES = 0, NO = 1, FAILED = 2 };

/* A text with one byte of room to see that it is too long, and what reading it gives. */
struct text {
    uint8_t bytes[MEGZHOI_TEXT_LIMIT + 1];
    size_t len;
    size_t record[MEGZHOI_RECORD_ENTRIES];
    size_t states;
};

static struct text left, right;

/* One for all calls: every word can be given, and the library says which are in range. */
static size_t tick_length = 1;

static void fail(const char *what, const char *why) {
    fprintf(stderr, "%s: %s\n", what, why);
    exit(FAILED);
}

/* A word from its decimal digits. */
static size_t number(const char *digits) {
    char *end;
    errno = 0;
    unsigned long long value = strtoull(digits, &end, 10);
    if (digits[0] < '0' || digits[0] > '9' || *end || errno) fail(digits, "no number");
    return value;
}

/* Memory for a slice; an empty one has a valid pointer too. */
static void *slice(size_t entries, size_t size) {
    void *memory = calloc(entries ? entries : 1, size);
    if (!memory) fail("a slice", "no memory");
    return memory;
}

/* Reads a file and then its text. A text that is refused has no states, and the search says what is wrong with it. */
static void load(const char *path, struct text *text) {
    FILE *f = fopen(path, "rb");
    if (!f) fail(path, "cannot be read");
    text->len = fread(text->bytes, 1, sizeof text->bytes, f);
    if (ferror(f)) fail(path, "cannot be read");
    fclose(f);
    size_t file, p, q;
    size_t code = megzhoi_read(tick_length, text->bytes, text->len, text->record, MEGZHOI_RECORD_ENTRIES,
                               &file, &p, &q);
    text->states = code ? 0 : p;
}

static void save(const char *path, const uint8_t *bytes, size_t len) {
    FILE *f = fopen(path, "wb");
    if (!f || fwrite(bytes, 1, len, f) != len || fclose(f)) fail(path, "cannot be written");
}

static void print_refusal(const char *word, size_t code, size_t file, size_t p, size_t q) {
    printf("%s %zu %zu %zu %zu: %s\n", word, code, file, p, q, megzhoi_code_text(code));
}

static int refused(size_t code, size_t file, size_t p, size_t q) {
    print_refusal("REFUSED", code, file, p, q);
    return FAILED;
}

/* A step is 0 for a tick and else a channel of the left, which is spelled as the left spells it. */
static void print_step(uint32_t step) {
    if (step == 0) {
        puts("tick");
        return;
    }
    const size_t *channel = left.record + MEGZHOI_CHANNELS + MEGZHOI_CHANNEL_ENTRIES * (step - 1);
    printf("%.*s%c\n", (int)channel[1], (const char *)left.bytes + channel[0], channel[2] == 1 ? '?' : '!');
}

/* Makes the widest table, and checks it as someone would who was given it. */
static int table_of_yes(uint8_t *keep, size_t keep_len, const char *path) {
    size_t len = megzhoi_table_bytes(left.states, right.states);
    uint8_t *table = slice(len, sizeof *table);
    size_t file, p, q;
    size_t code = megzhoi_widest(tick_length, left.bytes, left.len, right.bytes, right.len, keep, keep_len,
                                 table, len, &file, &p, &q);
    if (code) return refused(code, file, p, q);
    printf("YES %zu\n", p);
    if (path) save(path, table, len);
    code = megzhoi_check(tick_length, left.bytes, left.len, right.bytes, right.len, keep, keep_len, table, len,
                         &file, &p, &q);
    if (code) return refused(code, file, p, q);
    printf("ACCEPTED %zu\n", p);
    free(table);
    return YES;
}

/* Whether the draft says of every reachable state when its outputs come; a draft that does not may keep the contract
   all the same. */
static void print_implementation(void) {
    size_t file, p, q;
    size_t code = megzhoi_implementation(tick_length, left.bytes, left.len, &file, &p, &q);
    if (code) {
        print_refusal("NO IMPLEMENTATION", code, file, p, q);
    } else {
        puts("IMPLEMENTATION");
    }
}

/* Joins the two texts; the slice has room for every text. */
static int join(const char *path) {
    static uint8_t joined[MEGZHOI_TEXT_LIMIT];
    size_t file, p, q;
    size_t code = megzhoi_join(tick_length, left.bytes, left.len, right.bytes, right.len, joined, sizeof joined,
                               &file, &p, &q);
    if (code) return refused(code, file, p, q);
    save(path, joined, p);
    printf("JOINED %zu\n", p);
    return YES;
}

int main(int argc, char **argv) {
    if (argc > 2 && strcmp(argv[1], "--tick") == 0) {
        tick_length = number(argv[2]);
        argc -= 2, argv += 2;
    }
    if (argc == 5 && strcmp(argv[1], "--join") == 0) {
        load(argv[2], &left);
        load(argv[3], &right);
        return join(argv[4]);
    }
    if (argc != 3 && argc != 4) {
        fail("usage", "c-example [--tick MILLISECONDS] DRAFT CONTRACT [TABLE], or --join LEFT RIGHT JOINED");
    }
    load(argv[1], &left);
    load(argv[2], &right);
    size_t keep_len = megzhoi_keep_bytes(left.states), pairs = megzhoi_queue_entries(left.states, right.states);
    uint8_t *keep = slice(keep_len, sizeof *keep);
    uint32_t *back = slice(pairs, sizeof *back), *line = slice(pairs, sizeof *line), *run = slice(pairs, sizeof *run);
    size_t file, n, q;
    size_t code = megzhoi_search(tick_length, left.bytes, left.len, right.bytes, right.len, keep, keep_len,
                                 back, pairs, line, pairs, run, pairs, &file, &n, &q);
    int status = NO;
    if (code) {
        status = refused(code, file, n, q);
    } else if (n == 0) {
        status = table_of_yes(keep, keep_len, argc == 4 ? argv[3] : NULL);
    } else {
        printf("NO %zu\n", n);
        for (size_t i = 0; i < n; i++) print_step(run[i]);
    }
    if (status != FAILED) print_implementation();
    free(keep), free(back), free(line), free(run);
    return status;
}
