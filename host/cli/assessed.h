/* What was found of a cartridge, as a line and as a JSON object; neither ends the line. */
#ifndef ASSESSED_H
#define ASSESSED_H

#include "assess.h"

/* Folder, identifier, UUID, outcome, cut, unreadable blocks. */
void print_assessed(const struct volume *volume, const struct assessment *found);
void print_assessed_json(const struct volume *volume, const struct assessment *found);

/* `,"ansi":{..}` of an ANSI labelled tape, whose labels are refused as an LTFS volume's; else nothing. */
void print_json_ansi(const struct volume *volume, uint64_t refusal);

#endif
