/* What the library says of a whole volume. */
#ifndef ASSESS_H
#define ASSESS_H

#include "contents.h"

struct assessment {
    uint64_t refusal; /* of the labels; the rest holds where it is 0 */
    struct label label;
    uint64_t verdict[KLAPOUZEN_BREAK];
    struct refused broken_index; /* that break 3 or 4 names; number 0 where it is sound, or none is named */
    bool has_cut;
    uint64_t cut[KLAPOUZEN_CUT];
    uint64_t elements[2];   /* of each list */
    uint64_t unreadable[2]; /* how many of them are unreadable blocks */
    bool malformed[2];      /* the list: there are 0 then */
};

void assess(const struct volume *volume, struct assessment *found);

/* Only what the lists say: whether they are malformed, and how many elements and unreadable blocks they have. */
void assess_lists(const struct volume *volume, struct assessment *found);

bool is_consistent(const struct assessment *found);

bool has_unreadable(const struct assessment *found);

/* Whether the verdict names an index, by the number of its construct. */
bool names_index(const struct assessment *found);

/* Elements kept of a side by the cut; all where there is none. */
uint64_t kept_elements(const struct assessment *found, int side);

/*
 * Of break 5, which is a file's: all that its index holds, to be freed, and the file's entry. False of any other verdict;
 * there is nothing to free then.
 */
bool find_broken_file(const struct volume *volume, const struct assessment *found, struct contents *contents,
                      uint64_t *entry);

/* "consistent", "break 2: ..", "break 5: ..: takes/monday.wav", or "refused 3: ..". */
void print_outcome(FILE *out, const struct volume *volume, const struct assessment *found);

/* "keeps all 7 + 7 elements", or "keeps 7 + 7 of 9 + 12 elements". */
void print_kept(FILE *out, const uint64_t kept[2], const uint64_t elements[2]);

/* What the cut does: "keeps all 7 + 7 elements, generation 1" or "none leaves a consistent volume". */
void print_cut(FILE *out, const struct assessment *found);

/* The same after other words: "cut keeps .." or "no cut leaves a consistent volume". */
void print_cut_clause(FILE *out, const struct assessment *found);

/* "1 unreadable block on the index side, 2 on the data side", where there are any. */
void print_unreadable_blocks(FILE *out, const struct assessment *found);

#endif
