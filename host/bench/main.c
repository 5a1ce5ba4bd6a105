/*
 * The benchmarks, all in one run or the one named: bench [texts|volumes|ansi]. Ratios have the absolute figures beside
 * them. bench once WHAT [TEXT]: a single call, whose instructions make counts counts.
 */
#include <stdio.h>
#include <string.h>

#include "bench.h"

static const struct {
    const char *name;
    void (*run)(void);
} parts[] = {
    { "texts", bench_texts },
    { "volumes", bench_volumes },
    { "ansi", bench_ansi },
};

int main(int count, char **words)
{
    setvbuf(stdout, NULL, _IOLBF, 0);
    if (count > 2 && strcmp(words[1], "once") == 0)
        bench_once(words[2], words[3]);
    for (size_t i = 0; i < sizeof parts / sizeof parts[0]; i++)
        if (count == 1 || strcmp(words[1], parts[i].name) == 0)
            parts[i].run();
    return 0;
}
