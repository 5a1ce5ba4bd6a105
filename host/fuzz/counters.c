/* Where libFuzzer looks for counters that it did not put in itself. */
#include "fuzz.h"

__attribute__((section("__libfuzzer_extra_counters"))) uint8_t fuzz_counters[COUNTERS];

uint64_t fuzz_accepted;

struct fuzz_count fuzz_counts[FUZZ_COUNTS];
