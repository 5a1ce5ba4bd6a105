/* The map of a volume as a picture. */
#ifndef SVG_H
#define SVG_H

#include "layout.h"

/* Writes a new file; on false nothing is left of it, and the reason was said. */
bool write_svg(const char *path, const struct volume *volume, const struct assessment *found,
               const struct layout layouts[2]);

#endif
