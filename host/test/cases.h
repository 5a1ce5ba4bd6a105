/* Random input that host/reference makes from a seed: its src/c_cases.rs says what is what. */
#ifndef CASES_H
#define CASES_H

#include <stddef.h>
#include <stdint.h>

struct random_case {
    uint8_t *bytes[4];
    size_t lengths[4];
    uint64_t *rows;
    size_t row_numbers;
    uint64_t numbers[6];
};

struct random_case random_volume(uint64_t seed);
struct random_case random_form(uint64_t seed);
struct random_case random_label(uint64_t seed);
struct random_case random_index(uint64_t seed);
struct random_case random_vol1(uint64_t seed);
struct random_case random_rows(uint64_t seed);
struct random_case random_ansi(uint64_t seed);
void random_free(struct random_case random);

#endif
