#include "progress.h"

#include <stdbool.h>
#include <stdio.h>
#include <unistd.h>

enum { MANY = 8, WIDTH = 40 };

static bool is_shown;

void show_progress(int done, int all)
{
    if (all < MANY || !isatty(STDERR_FILENO))
        return;
    static const char full[] = "########################################";
    static const char open[] = "........................................";
    int part = (int)((long)done * WIDTH / all);
    fflush(stdout);
    fprintf(stderr, "\r[%.*s%.*s] %d of %d", part, full, WIDTH - part, open, done, all);
    is_shown = true;
}

void clear_progress(void)
{
    if (is_shown)
        fputs("\r\033[K", stderr);
    is_shown = false;
}
