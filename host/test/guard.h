/* Memory that borders a page which can't be touched, so that one byte too far ends the test. */
#ifndef GUARD_H
#define GUARD_H

#include <stddef.h>

/* A read-only copy that ends at the border; NULL for length 0. */
void *guarded_copy(const void *bytes, size_t length);

/* Room to write to that ends at the border; NULL for length 0. */
void *guarded_room(size_t length);

void guarded_free(void *start, size_t length);

#endif
