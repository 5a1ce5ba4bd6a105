/*
 * A fuzzer for where libFuzzer isn't: TARGET FOLDER SECONDS [SEED]. Takes inputs of
 * the folder, changes them and calls the target, each input at the border of a
 * page that can't be touched; an input with a new answer is one to go on from.
 * The input of a crash is written to ./crash-PID. Status 1 where the target
 * accepts no input of the folder, or nothing in it is what the target counts.
 */
#include <dirent.h>
#include <inttypes.h>
#include <signal.h>
#include <stdbool.h>
#include <stdio.h>
#include <stdlib.h>
#include <string.h>
#include <time.h>
#include <unistd.h>

#include "fuzz.h"
#include "guard.h"
#include "sample.h"

enum { MOST = 4096, LARGEST = 2000000 };

static struct buffer corpus[MOST];
static size_t inputs;
static uint64_t state;

/* ---- The corpus ---- */

static void read_input(const char *path)
{
    static uint8_t bytes[LARGEST];
    FILE *file = fopen(path, "rb");
    if (file == NULL)
        return;
    size_t length = fread(bytes, 1, sizeof bytes, file);
    put_bytes(&corpus[inputs++], bytes, length);
    fclose(file);
}

static void read_corpus(const char *folder)
{
    DIR *entries = opendir(folder);
    if (entries == NULL) {
        perror(folder);
        exit(2);
    }
    for (struct dirent *entry = readdir(entries); entry != NULL && inputs < MOST; entry = readdir(entries)) {
        char path[4096];
        snprintf(path, sizeof path, "%s/%s", folder, entry->d_name);
        if (entry->d_name[0] != '.')
            read_input(path);
    }
    closedir(entries);
}

/* ---- Changes ---- */

/* SplitMix64. */
static uint64_t draw(void)
{
    uint64_t x = state += 0x9e3779b97f4a7c15;
    x = (x ^ x >> 30) * 0xbf58476d1ce4e5b9;
    x = (x ^ x >> 27) * 0x94d049bb133111eb;
    return x ^ x >> 31;
}

static size_t below(size_t bound)
{
    return bound == 0 ? 0 : (size_t)(draw() % bound);
}

/* The bytes of a buffer from a place on. An empty one may have no bytes to count from. */
static const uint8_t *bytes_from(const struct buffer *buffer, size_t place)
{
    return place < buffer->length ? buffer->bytes + place : NULL;
}

/* The input with the bytes from..to replaced. */
static void splice(struct buffer *input, size_t from, size_t to, const uint8_t *bytes, size_t length)
{
    struct buffer changed = { 0 };
    put_bytes(&changed, input->bytes, from);
    put_bytes(&changed, bytes, length);
    put_bytes(&changed, bytes_from(input, to), input->length - to);
    buffer_free(input);
    *input = changed;
}

static void splice_other(struct buffer *input, size_t from, size_t to)
{
    const struct buffer *other = &corpus[below(inputs)];
    size_t start = below(other->length), length = below(other->length - start + 1);
    splice(input, from, to, bytes_from(other, start), length < 512 ? length : 512);
}

static void change(struct buffer *input)
{
    static const char *const pieces[] = {
        "<a/>", "<a>", "</a>", "&amp;", "&", "]]>", "<!--", "<![CDATA[", "'", "\"", "18446744073709551615", "0",
        "007", "\xc3\xa9", "\xed\xa0\x80", "<file>", "</file>", "<extent>", "\1", "\2", "\3", "\1\3\1", "/", " ",
        "EOF1", "EOV1", "EOF3", "HDR1", "HDR3", "UHL", "000001",
    };
    size_t from = below(input->length + 1), to = from + below(9);
    uint8_t byte = (uint8_t)draw();
    if (to > input->length)
        to = input->length;
    switch (below(6)) {
    case 0:
        splice(input, from, to, NULL, 0);
        break;
    case 1:
        splice_other(input, from, to);
        break;
    case 2: {
        const char *piece = pieces[below(sizeof pieces / sizeof pieces[0])];
        size_t length = strlen(piece), over = from + below(2) * length;
        splice(input, from, over < input->length ? over : input->length, (const uint8_t *)piece, length);
        break;
    }
    case 3:
        splice(input, from, to, &byte, 1);
        break;
    default:
        if (from < input->length)
            input->bytes[from] ^= (uint8_t)(1 << below(8));
    }
}

/* ---- Running ---- */

static uint8_t *current;
static size_t current_length;

static void on_crash(int number)
{
    char path[64];
    snprintf(path, sizeof path, "crash-%ld", (long)getpid());
    FILE *file = fopen(path, "wb");
    if (file != NULL) {
        fwrite(current, 1, current_length, file);
        fclose(file);
    }
    fprintf(stderr, "signal %d; the input is in %s\n", number, path);
    _exit(1);
}

/* Whether the last run counted something for the first time. */
static bool is_new(void)
{
    static uint8_t seen[COUNTERS];
    bool new = false;
    for (size_t i = 0; i < COUNTERS; i++) {
        new = new || (fuzz_counters[i] && !seen[i]);
        seen[i] |= fuzz_counters[i];
        fuzz_counters[i] = 0;
    }
    return new;
}

static bool run_one(const struct buffer *input)
{
    current_length = input->length;
    current = guarded_copy(input->bytes, input->length);
    LLVMFuzzerTestOneInput(current, current_length);
    guarded_free(current, current_length);
    return is_new();
}

static uint64_t run_for(double seconds)
{
    uint64_t runs = 0;
    clock_t end = clock() + (clock_t)(seconds * CLOCKS_PER_SEC);
    while (clock() < end) {
        struct buffer input = { 0 };
        const struct buffer *base = &corpus[below(inputs)];
        put_bytes(&input, base->bytes, base->length);
        for (size_t changes = below(5); changes > 0; changes--)
            change(&input);
        if (run_one(&input) && inputs < MOST)
            corpus[inputs++] = input;
        else
            buffer_free(&input);
        runs++;
    }
    return runs;
}

/* Whether the target accepted something, and counted something of all that it counts. */
static bool is_enough(void)
{
    bool enough = fuzz_accepted > 0;
    for (int i = 0; i < FUZZ_COUNTS; i++)
        enough = enough && (fuzz_counts[i].name == NULL || fuzz_counts[i].times > 0);
    return enough;
}

static void print_counts(void)
{
    for (int i = 0; i < FUZZ_COUNTS; i++)
        if (fuzz_counts[i].name != NULL)
            printf("; %" PRIu64 " %s", fuzz_counts[i].times, fuzz_counts[i].name);
    putchar('\n');
}

int main(int count, char **words)
{
    if (count < 3)
        return 2;
    state = count > 3 ? strtoull(words[3], NULL, 10) : 1;
    signal(SIGABRT, on_crash);
    signal(SIGSEGV, on_crash);
    read_corpus(words[1]);
    for (size_t i = 0; i < inputs; i++)
        run_one(&corpus[i]);
    size_t given = inputs;
    bool enough = is_enough();
    uint64_t accepted = fuzz_accepted, runs = run_for(strtod(words[2], NULL));
    printf("%zu inputs, %" PRIu64 " accepted; %" PRIu64 " runs, %" PRIu64 " accepted, %zu new inputs", given,
           accepted, runs, fuzz_accepted - accepted, inputs - given);
    print_counts();
    for (size_t i = 0; i < inputs; i++)
        buffer_free(&corpus[i]);
    return !enough;
}
