/* A text as a label and as a VOL1; what is read, written again, reads the same. One outside the form has its front. */
#include "fuzz.h"
#include "sample.h"

static void write_again(struct slice text, const uint64_t label[KLAPOUZEN_LABEL])
{
    uint8_t written[KLAPOUZEN_MAX_LABEL];
    uint64_t length[1], again[KLAPOUZEN_LABEL];
    const uint8_t *creator = text.start + label[KLAPOUZEN_LABEL_CREATOR];
    uint64_t refusal = ANSWERED(
        klapouzen_write_label(written, sizeof written, creator, label[KLAPOUZEN_LABEL_CREATOR_LENGTH],
                              text.start + label[KLAPOUZEN_LABEL_TIME], label[KLAPOUZEN_LABEL_TIME_LENGTH],
                              text.start + label[KLAPOUZEN_LABEL_UUID], label[KLAPOUZEN_LABEL_UUID_LENGTH],
                              (uint8_t)label[KLAPOUZEN_LABEL_LOCATION],
                              (uint8_t)label[KLAPOUZEN_LABEL_INDEX_LETTER],
                              (uint8_t)label[KLAPOUZEN_LABEL_DATA_LETTER], label[KLAPOUZEN_LABEL_BLOCK_SIZE],
                              label[KLAPOUZEN_LABEL_COMPRESSION], FILLED(length)), length);
    /* As spelled a creator may be too long to be given. */
    if (refusal != 0)
        return;
    must(klapouzen_read_label(written, length[0], FILLED(again)) == 0);
    must(memcmp(&label[KLAPOUZEN_LABEL_LOCATION], &again[KLAPOUZEN_LABEL_LOCATION],
                (KLAPOUZEN_LABEL - KLAPOUZEN_LABEL_LOCATION) * sizeof *again) == 0);
    must(memcmp(text.start + label[KLAPOUZEN_LABEL_UUID], written + again[KLAPOUZEN_LABEL_UUID], 36) == 0);
}

/* The same answer where the block size is padded: all but where the texts stand. A front has its numbers padded too. */
static void try_padded(struct slice text, uint64_t refusal, const uint64_t label[KLAPOUZEN_LABEL])
{
    uint64_t fields[KLAPOUZEN_LABEL];
    struct buffer padded = pad_numbers(SLICE(text));
    uint64_t answer = klapouzen_read_label(padded.bytes, padded.length, FILLED(fields));
    if (padded.length <= KLAPOUZEN_MAX_LABEL) {
        struct buffer front = pad_numbers(text.start, label[KLAPOUZEN_LABEL_FRONT]);
        must(answer == refusal);
        must(memcmp(&label[KLAPOUZEN_LABEL_LOCATION], &fields[KLAPOUZEN_LABEL_LOCATION],
                    (KLAPOUZEN_LABEL_FRONT - KLAPOUZEN_LABEL_LOCATION) * sizeof *fields) == 0);
        must(fields[KLAPOUZEN_LABEL_FRONT] == front.length);
        buffer_free(&front);
    }
    buffer_free(&padded);
}

static void try_vol1(struct slice block)
{
    uint64_t fields[KLAPOUZEN_VOL1], length[1];
    uint8_t written[KLAPOUZEN_VOL1_LENGTH];
    if (ANSWERED(klapouzen_read_vol1(SLICE(block), FILLED(fields)), fields) != 0)
        return;
    must(klapouzen_write_vol1(written, sizeof written, block.start + fields[0], fields[1],
                              block.start + fields[2], fields[3], length) == 0);
    must(length[0] == block.length && memcmp(written, block.start, block.length) == 0);
}

int LLVMFuzzerTestOneInput(const uint8_t *input, size_t size)
{
    struct slice text = { input, size };
    uint64_t label[KLAPOUZEN_LABEL], form[1];
    uint64_t refusal = judged(TOLD(klapouzen_read_label(SLICE(text), FILLED(label)), label, size));
    uint64_t outside = klapouzen_check_form(SLICE(text), FILLED(form));
    must((refusal == KLAPOUZEN_BAD_FORM) == (outside != 0 && size <= KLAPOUZEN_MAX_LABEL));
    must(label[KLAPOUZEN_LABEL_FRONT] == (refusal == KLAPOUZEN_BAD_FORM ? form[0] : 0));
    if (refusal == 0)
        write_again(text, label);
    try_padded(text, refusal, label);
    try_vol1(text);
    return 0;
}
