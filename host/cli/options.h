/* A command's words: options first taken out, operands left. */
#ifndef OPTIONS_H
#define OPTIONS_H

#include <stdbool.h>
#include <stdint.h>

struct words {
    int count;
    char **words;
};

/* `--name VALUE` and `--name=VALUE` set *value, `--name` sets *flag. */
struct option {
    const char *name;
    const char **value;
    bool *flag;
};

enum { GO_ON = -1 };

/* Whether a word asks for help: `--help` or `-h`. */
bool is_help(const char *word);

/*
 * Takes the options out of the words; the table ends with a name NULL. `--help`
 * prints the help. Answers GO_ON or the status to end with.
 */
int take_options(struct words *words, const struct option *options, const char *help);

/* The same where so many operands are wanted, which `wanted` names. */
int take_words(struct words *words, const struct option *options, const char *help, int operands,
               const char *wanted);

/* Says what is wrong with the words and where help is; answers FAILED. */
int bad_use(const char *help, const char *what, const char *word);

/* A plain decimal number; false where the text is none. */
bool read_number(const char *text, uint64_t *number);

#endif
