#include "guard.h"

#include <stdint.h>
#include <stdlib.h>
#include <string.h>
#include <sys/mman.h>

enum { PAGE = 4096 };

static size_t whole_pages(size_t length)
{
    return (length + PAGE - 1) / PAGE * PAGE;
}

void *guarded_room(size_t length)
{
    if (length == 0)
        return NULL;
    size_t pages = whole_pages(length);
    uint8_t *map = mmap(NULL, pages + PAGE, PROT_READ | PROT_WRITE, MAP_PRIVATE | MAP_ANONYMOUS, -1, 0);
    if (map == MAP_FAILED || mprotect(map + pages, PAGE, PROT_NONE) != 0)
        abort();
    return map + pages - length;
}

static uint8_t *map_of(void *start, size_t length)
{
    return (uint8_t *)start + length - whole_pages(length);
}

void *guarded_copy(const void *bytes, size_t length)
{
    void *start = guarded_room(length);
    if (length > 0) {
        memcpy(start, bytes, length);
        mprotect(map_of(start, length), whole_pages(length), PROT_READ);
    }
    return start;
}

void guarded_free(void *start, size_t length)
{
    if (length > 0)
        munmap(map_of(start, length), whole_pages(length) + PAGE);
}
