/* The index that `files` and `extract` look into. */
#ifndef CHOSEN_H
#define CHOSEN_H

#include "assess.h"
#include "contents.h"
#include "options.h"

/* The options that choose it, as given. */
struct choice {
    const char *construct; /* NULL: the cut's, or the last where there is no cut */
    bool on_data;
};

/* Their lines in a table of options. */
#define CHOICE_OPTIONS(choice) \
    { "construct", &(choice).construct, NULL }, { "data", NULL, &(choice).on_data }

/* And in a help text. */
#define CHOICE_HELP \
    "  --construct N  index construct N, from 0; without it the one that the cut keeps\n" \
    "                 last, or the last where there is no cut\n" \
    "  --data         of the data partition, and not of the index partition\n"

struct chosen {
    struct label label;
    int side;
    uint64_t construct;
    struct place place;
    uint64_t header[KLAPOUZEN_INDEX];
};

/* Finds and reads the index; answers GO_ON, or says why not and answers the status. */
int choose_index(const struct volume *volume, const struct choice *choice, struct chosen *chosen);

/* All that it holds, to be freed. */
void read_chosen(const struct chosen *chosen, struct contents *contents);

#endif
