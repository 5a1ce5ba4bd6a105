/*
 * Signals that end the program wait while something is half-written: they are
 * held and released in pairs, and at the last release one that came has its
 * usual effect. Ignored ones stay ignored.
 */
#ifndef SIGNALS_H
#define SIGNALS_H

#include <stdbool.h>

void hold_signals(void);
void release_signals(void);

/* Whether a signal that is held has come, so that what is being written is not wanted. */
bool is_stopped(void);

#endif
