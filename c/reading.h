// reading.h: a text and what was read of it, for the programs of this folder. The tables grow until everything fits.
#ifndef READING_H
#define READING_H

#include <stdbool.h>

#include "cairo_m.h"

// Exit statuses of the programs.
enum { ACCEPTED = 0, REFUSED = 1, FAILED = 2 };

// The name of the program, for its messages. Each program defines it.
extern const char program[];

struct reading {
    unsigned char text[CAIRO_M_LONGEST_TEXT + 1];
    size_t length;
    cairo_m_token *tokens;
    cairo_m_node *nodes;
    cairo_m_diagnostic *diagnostics;
    size_t token_room, node_room, diagnostic_room;
    size_t token_count, node_count, diagnostic_count;
    uint32_t outcome;
};

// A table of `room` entries, all zero, in place of an old one, whose content is not kept. Not enough memory ends the program.
void *table(void *old, size_t room, size_t entry);

// The tables that a reading begins with, and their end. They are used for every text.
void make_tables(struct reading *r);
void free_tables(struct reading *r);

// The text of a file, or of standard input for `-`. False, with a message, if it could not be read.
// One byte more than the longest text is read, so that a longer one is seen to be too long.
bool load(struct reading *r, const char *name);

// Reads the text with room for everything.
void read_all(struct reading *r);

// The verdict on standard output: the outcome's number and word, and what there is to say of it, without a line feed.
void print_verdict(const struct reading *r);

// Whether all of standard output could be written; if not, with a message.
bool written(void);

#endif
