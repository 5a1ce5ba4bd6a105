/* The program's commands. Each answers the exit status. */
#ifndef COMMANDS_H
#define COMMANDS_H

#include "options.h"

int run_check(struct words *words);
int run_show(struct words *words);
int run_why(struct words *words);
int run_cut(struct words *words);
int run_compare(struct words *words);
int run_files(struct words *words);
int run_extract(struct words *words);
int run_label(struct words *words);
int run_ansi(struct words *words);

#endif
