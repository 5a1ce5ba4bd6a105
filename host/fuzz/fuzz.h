/* What the fuzz targets share: an input taken apart, and what every answer owes. */
#ifndef FUZZ_H
#define FUZZ_H

#include <stddef.h>
#include <stdint.h>
#include <stdlib.h>
#include <string.h>

#include "klapouzen.h"

int LLVMFuzzerTestOneInput(const uint8_t *input, size_t size);

/*
 * The library's code counts nothing for a fuzzer, so the targets say what they
 * saw: an answer that no input gave before makes the input one to go on from.
 */
enum { COUNTERS = 8192 };

extern uint8_t fuzz_counters[COUNTERS];

/* How many inputs were accepted. A corpus of which none is says nothing. */
extern uint64_t fuzz_accepted;

/* What else a target counts, by names that it gives at each input. A corpus in which one stays 0 says nothing of it. */
struct fuzz_count {
    const char *name;
    uint64_t times;
};

enum { FUZZ_COUNTS = 4 };

extern struct fuzz_count fuzz_counts[FUZZ_COUNTS];

/* The refusal of the function that an input is for. */
static inline uint64_t judged(uint64_t refusal)
{
    fuzz_accepted += refusal == 0;
    return refusal;
}

static inline void saw(unsigned what, uint64_t value)
{
    unsigned digits = 0;
    for (uint64_t rest = value; rest > 15; rest /= 2)
        digits++;
    fuzz_counters[what % 64 * 128 + (value < 16 ? value : 16 + digits)] = 1;
}

struct slice {
    const uint8_t *start;
    size_t length;
};

#define SLICE(slice) (slice).start, (slice).length

/* Ends the program where something is not as it must be. */
static inline void must(int holds)
{
    if (!holds)
        abort();
}

/* A number of one, two or eight bytes off the front; what is missing is 0. */
static inline uint64_t take_number(struct slice *input, size_t bytes)
{
    uint64_t number = 0;
    for (; bytes > 0 && input->length > 0; bytes--, input->start++, input->length--)
        number = number << 8 | *input->start;
    return number;
}

/* A slice off the front: three bytes of length, and the bytes that are there. */
static inline struct slice take_slice(struct slice *input)
{
    uint64_t length = take_number(input, 3);
    struct slice slice = { input->start, length < input->length ? (size_t)length : input->length };
    input->start += slice.length;
    input->length -= slice.length;
    return slice;
}

enum { UUID_LENGTH = 36 };

/* A UUID's letters in the other case. */
static inline void other_case(uint8_t *uuid)
{
    for (int i = 0; i < UUID_LENGTH; i++)
        if (uuid[i] >= 'A')
            uuid[i] ^= 'a' ^ 'A';
}

/* Every output, filled before a call. */
static inline uint64_t *fill(uint64_t *out, size_t count)
{
    memset(out, 0xa5, count * sizeof *out);
    return out;
}

/* A refusal is a number of klapouzen.h, and leaves all outputs zero. `what` tells calls apart. */
static inline uint64_t answered(unsigned what, uint64_t refusal, const uint64_t *out, size_t count)
{
    must(refusal <= KLAPOUZEN_UNREADABLE_BLOCK);
    saw(what, refusal);
    for (size_t i = 0; i < count; i++) {
        must(refusal == 0 || out[i] == 0);
        saw(what + 1 + (unsigned)i, out[i]);
    }
    return refusal;
}

/* The same of a function that tells a front behind so many numbers: with 4 no more than the text's length, else 0. */
static inline uint64_t told(unsigned what, uint64_t refusal, const uint64_t *out, size_t front, size_t length)
{
    answered(what, refusal, out, front);
    must(out[front] <= (refusal == KLAPOUZEN_BAD_FORM ? length : 0));
    saw(what + 1 + (unsigned)front, out[front]);
    return refusal;
}

#define FILLED(out) fill(out, sizeof(out) / sizeof(out)[0])
#define ANSWERED(call, out) answered(__LINE__, (call), out, sizeof(out) / sizeof(out)[0])
#define TOLD(call, out, length) told(__LINE__, (call), out, sizeof(out) / sizeof(out)[0] - 1, length)

#endif
