/*
 * The form check. The front that it tells can be completed to a text in the form, and with one more byte it can't; a
 * shorter part of it is such a front itself, and what goes on behind its end has the same.
 */
#include "complete.h"

enum { WITHIN, WHOLE };

static uint64_t check(const uint8_t *text, size_t length, uint64_t *front)
{
    uint64_t told[1], refusal = klapouzen_check_form(text, length, FILLED(told));
    must(refusal == 0 || refusal == KLAPOUZEN_BAD_FORM);
    must(told[0] <= (refusal == 0 ? 0 : length));
    *front = told[0];
    return refusal;
}

static int can_be_completed(const uint8_t *text, size_t length)
{
    uint64_t front;
    struct buffer whole = completed(text, length);
    int is_in_form = check(whole.bytes, whole.length, &front) == 0;
    buffer_free(&whole);
    return is_in_form;
}

/* Of a text whose longest front has so many bytes: the front of its first `length` is all of them, or that. */
static void try_part(const uint8_t *text, uint64_t longest, size_t length)
{
    uint64_t front, refusal = check(text, length, &front);
    must(refusal == 0 ? length <= longest : front == (length < longest ? length : longest));
}

static void try_parts(const uint8_t *text, size_t size, uint64_t longest)
{
    must(can_be_completed(text, longest));
    try_part(text, longest, longest);
    try_part(text, longest, longest / 2);
    try_part(text, longest, longest - (longest > 0));
    if (longest < size) {
        must(!can_be_completed(text, longest + 1));
        try_part(text, longest, longest + 1);
        try_part(text, longest, (longest + size) / 2);
    }
}

/* A byte more: spaces and nothing else can stand behind the root element, and a text goes on from where it ended. */
static void try_longer(const uint8_t *text, size_t size, uint64_t refusal, uint64_t longest, uint8_t byte)
{
    uint64_t front;
    uint8_t *longer = malloc(size + 1);
    if (size > 0)
        memcpy(longer, text, size);
    longer[size] = byte;
    uint64_t answer = check(longer, size + 1, &front);
    if (refusal == 0)
        must(is_white(byte) ? answer == 0 : answer != 0 && front == size);
    else if (longest < size)
        must(answer != 0 && front == longest);
    else
        must(answer == 0 || front >= size);
    free(longer);
}

int LLVMFuzzerTestOneInput(const uint8_t *input, size_t size)
{
    uint64_t front, refusal = judged(check(input, size, &front)), longest = refusal == 0 ? size : front;
    fuzz_counts[WITHIN].name = "fronts within their texts";
    fuzz_counts[WHOLE].name = "texts that end too early";
    fuzz_counts[WITHIN].times += refusal != 0 && front < size;
    fuzz_counts[WHOLE].times += refusal != 0 && front == size;
    saw(refusal == 0, size);
    saw(2, front);
    try_parts(input, size, longest);
    try_longer(input, size, refusal, longest, '\n');
    try_longer(input, size, refusal, longest, '<');
    try_longer(input, size, refusal, longest, size > 0 ? input[size / 2] : 0);
    return 0;
}
