/* The byte map on any rows: a stored byte lies in the block that its row's start says. */
#include "fuzz.h"

int LLVMFuzzerTestOneInput(const uint8_t *input, size_t size)
{
    struct slice rest = { input, size };
    uint64_t length = take_number(&rest, 8), block_size = take_number(&rest, 4);
    uint64_t position = take_number(&rest, 8), place[KLAPOUZEN_BYTE];
    size_t count = 0;
    uint64_t *rows = malloc(rest.length + 8);
    while (rest.length > 0)
        rows[count++] = take_number(&rest, 8);
    uint64_t refusal
        = judged(ANSWERED(klapouzen_byte_at(rows, count, length, block_size, position, FILLED(place)), place));
    if (refusal == 0) {
        must(position < length && place[KLAPOUZEN_BYTE_OFFSET] < block_size);
        must(place[KLAPOUZEN_BYTE_STORED] <= 1);
    }
    free(rows);
    return 0;
}
