#ifndef BENCH_H
#define BENCH_H

void bench_texts(void);
void bench_volumes(void);
void bench_ansi(void);

/* One call of what is named, on a text where one is named too, for a program that counts instructions. */
void bench_once(const char *what, const char *shape);
void ansi_once(void);

/* The form of a text by expat, with handlers that do nothing; and by the library. */
void form_by_expat(const void *text);
void form_by_library(const void *text);

/* All of an index, with its names decoded. */
void whole_by_library(const void *text);

#endif
