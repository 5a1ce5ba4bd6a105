/*
 * The elements that a front of a text leaves open: their start tags are whole, their end tags are not. The library says
 * that the front begins some text in the XML form; so tags can be told by < and > and quotes alone.
 */
#ifndef OPEN_ELEMENTS_H
#define OPEN_ELEMENTS_H

#include "volume.h"

struct open_elements {
    size_t count;
    struct bytes names[KLAPOUZEN_MAX_NESTING]; /* the root's first, also where it has ended and none is open */
};

struct open_elements open_elements(struct bytes front);

#endif
