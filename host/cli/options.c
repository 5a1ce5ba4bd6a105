#include "options.h"

#include <errno.h>
#include <stdio.h>
#include <stdlib.h>
#include <string.h>

#include "common.h"

/* The option that a word names, with or without `=VALUE`. */
static const struct option *find(const struct option *options, const char *name)
{
    size_t length = strcspn(name, "=");
    for (; options->name != NULL; options++)
        if (strlen(options->name) == length && strncmp(options->name, name, length) == 0)
            return options;
    return NULL;
}

int bad_use(const char *help, const char *what, const char *word)
{
    int usage = (int)strcspn(help, "\n");
    complain("%s%s%s", what, *word != '\0' ? ": " : "", word);
    fprintf(stderr, "%.*s\n", usage, help);
    return FAILED;
}

/* Takes one option at words[at]; answers how many words it took, or 0. */
static int take(const struct option *option, const struct words *words, int at)
{
    const char *equals = strchr(words->words[at], '=');
    if (option->flag != NULL) {
        *option->flag = true;
        return equals == NULL ? 1 : 0;
    }
    if (equals != NULL) {
        *option->value = equals + 1;
        return 1;
    }
    if (at + 1 >= words->count)
        return 0;
    *option->value = words->words[at + 1];
    return 2;
}

bool is_help(const char *word)
{
    return strcmp(word, "--help") == 0 || strcmp(word, "-h") == 0;
}

int take_options(struct words *words, const struct option *options, const char *help)
{
    int operands = 0, at = 0;
    while (at < words->count) {
        char *word = words->words[at];
        if (strcmp(word, "--") == 0) {
            at++;
            break;
        }
        if (is_help(word)) {
            fputs(help, stdout);
            return DONE;
        }
        if (word[0] != '-' || word[1] == '\0') {
            words->words[operands++] = word;
            at++;
            continue;
        }
        const struct option *option = strncmp(word, "--", 2) == 0 ? find(options, word + 2) : NULL;
        if (option == NULL)
            return bad_use(help, "unknown option", word);
        int taken = take(option, words, at);
        if (taken == 0)
            return bad_use(help, "an option's value is missing or not wanted", word);
        at += taken;
    }
    while (at < words->count)
        words->words[operands++] = words->words[at++];
    words->count = operands;
    return GO_ON;
}

int take_words(struct words *words, const struct option *options, const char *help, int operands,
               const char *wanted)
{
    int status = take_options(words, options, help);
    if (status != GO_ON || words->count == operands)
        return status;
    return bad_use(help, wanted, "");
}

bool read_number(const char *text, uint64_t *number)
{
    char *end;
    if (text[0] < '0' || text[0] > '9')
        return false;
    errno = 0;
    *number = strtoull(text, &end, 10);
    return errno == 0 && *end == '\0';
}
