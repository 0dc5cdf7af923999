#include <errno.h>
#include <stdio.h>
#include <stdlib.h>
#include <string.h>

#include "reading.h"

// At the start; a text that needs more entries is read again with as many as the counts say.
enum { FIRST_ROOM = 1024 };

static const char *const outcome_words[] = {
    "accepted", "long", "encoding", "lexical", "token room", "nest", "node room", "syntax", "suffix",
};

void *table(void *old, size_t room, size_t entry) {
    free(old);
    void *made = calloc(room, entry);
    if (made == NULL) {
        fprintf(stderr, "%s: not enough memory\n", program);
        exit(FAILED);
    }
    return made;
}

void make_tables(struct reading *r) {
    r->token_room = r->node_room = r->diagnostic_room = FIRST_ROOM;
    r->tokens = table(NULL, FIRST_ROOM, sizeof *r->tokens);
    r->nodes = table(NULL, FIRST_ROOM, sizeof *r->nodes);
    r->diagnostics = table(NULL, FIRST_ROOM, sizeof *r->diagnostics);
}

void free_tables(struct reading *r) {
    free(r->tokens);
    free(r->nodes);
    free(r->diagnostics);
}

bool load(struct reading *r, const char *name) {
    bool standard = strcmp(name, "-") == 0;
    if (*name == '\0') {
        fprintf(stderr, "%s: an empty file name\n", program);
        return false;
    }
    FILE *in = standard ? stdin : fopen(name, "rb");
    if (in == NULL) {
        fprintf(stderr, "%s: %s: %s\n", program, name, strerror(errno));
        return false;
    }
    r->length = fread(r->text, 1, sizeof r->text, in);
    bool read = !ferror(in);
    if (!read)
        fprintf(stderr, "%s: %s: %s\n", program, name, strerror(errno));
    if (!standard)
        fclose(in);
    return read;
}

static void call(struct reading *r) {
    cairo_m_record none;
    r->outcome = cairo_m_read(r->text, r->length, r->tokens, r->token_room * sizeof *r->tokens, r->nodes,
                              r->node_room * sizeof *r->nodes, r->diagnostics, r->diagnostic_room * sizeof *r->diagnostics,
                              &r->token_count, &r->node_count, &r->diagnostic_count, &none, 0);
}

// Each round makes one of the tables as large as its count says.
void read_all(struct reading *r) {
    for (;;) {
        call(r);
        if (r->outcome == CAIRO_M_TOKEN_ROOM && r->token_count > r->token_room) {
            r->token_room = r->token_count;
            r->tokens = table(r->tokens, r->token_room, sizeof *r->tokens);
        } else if (r->outcome == CAIRO_M_NODE_ROOM && r->node_count > r->node_room) {
            r->node_room = r->node_count;
            r->nodes = table(r->nodes, r->node_room, sizeof *r->nodes);
        } else if (r->diagnostic_count > r->diagnostic_room) {
            r->diagnostic_room = r->diagnostic_count;
            r->diagnostics = table(r->diagnostics, r->diagnostic_room, sizeof *r->diagnostics);
        } else {
            return;
        }
    }
}

void print_verdict(const struct reading *r) {
    bool known = r->outcome < sizeof outcome_words / sizeof *outcome_words;
    printf("%u %s: ", r->outcome, known ? outcome_words[r->outcome] : "?");
    switch (r->outcome) {
    case CAIRO_M_ACCEPTED:
        printf("tokens %zu, nodes %zu", r->token_count, r->node_count);
        break;
    case CAIRO_M_LONG:
        fputs("over 65,535 bytes", stdout);
        break;
    case CAIRO_M_ENCODING:
        fputs("not UTF-8", stdout);
        break;
    case CAIRO_M_LEXICAL:
    case CAIRO_M_SUFFIX:
        printf("errors %zu", r->diagnostic_count);
        break;
    case CAIRO_M_NEST:
        fputs("an attempt takes a token at nest above 64", stdout);
        break;
    case CAIRO_M_SYNTAX:
        fputs("no derivation of all tokens", stdout);
        break;
    default:
        fputs("not an outcome of a reading with room for all", stdout);
    }
}

bool written(void) {
    if (fflush(stdout) == 0 && !ferror(stdout))
        return true;
    fprintf(stderr, "%s: standard output: %s\n", program, strerror(errno));
    return false;
}
