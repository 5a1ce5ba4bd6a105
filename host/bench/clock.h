/* Contestants measured side by side. */
#ifndef CLOCK_H
#define CLOCK_H

#include <stddef.h>

struct contestant {
    const char *name;
    void (*run)(const void *input);
    double seconds; /* the best of the rounds, for one run */
};

/* Every contestant in each round, so that what else the machine does hits all alike. */
void measure(struct contestant *contestants, size_t count, const void *input);

#endif
