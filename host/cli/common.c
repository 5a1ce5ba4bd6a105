#include "common.h"

#include <stdarg.h>
#include <stdio.h>
#include <stdlib.h>

#include "progress.h"
#include "text.h"

void complain(const char *format, ...)
{
    /* Not allocated: this also says that memory is out. */
    char text[3 * 4096];
    va_list arguments;
    va_start(arguments, format);
    vsnprintf(text, sizeof text, format, arguments);
    va_end(arguments);
    clear_progress();
    fflush(stdout);
    fputs("klapouzen: ", stderr);
    print_bytes(stderr, bytes_of(text));
    fputc('\n', stderr);
}

static void *given(void *start)
{
    if (start == NULL) {
        complain("out of memory");
        exit(FAILED);
    }
    return start;
}

void *allocate(size_t size)
{
    return given(malloc(size > 0 ? size : 1));
}

void *reallocate(void *start, size_t size)
{
    return given(realloc(start, size));
}

void *room_for(void *start, size_t count, size_t size)
{
    if ((count & (count - 1)) != 0)
        return start;
    return reallocate(start, (count == 0 ? 1 : 2 * count) * size);
}

char *format_text(const char *format, ...)
{
    va_list arguments, again;
    va_start(arguments, format);
    va_copy(again, arguments);
    int length = vsnprintf(NULL, 0, format, arguments);
    char *text = allocate((size_t)length + 1);
    vsnprintf(text, (size_t)length + 1, format, again);
    va_end(again);
    va_end(arguments);
    return text;
}
