/* A progress bar on standard error, where that is a terminal and the work long. */
#ifndef PROGRESS_H
#define PROGRESS_H

void show_progress(int done, int all);

/* Takes the bar away, so that a line can be printed. */
void clear_progress(void);

#endif
