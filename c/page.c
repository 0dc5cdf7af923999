// The marker's page: writes one HTML file for a Cairo-M text, which shows the text beside its tree.
//
//     page FILE > FILE.html        (- is standard input)
//
// The page is c/page.html with its places, each a word in two pairs of braces, filled in. It needs nothing but itself.
// Exit status: 0 the text is accepted, 1 it is refused, 2 it could not be read, or the page not be written.
#include <stdio.h>
#include <stdlib.h>
#include <string.h>

#include "reading.h"

const char program[] = "page";

// c/page.html, as `ld -r -b binary page.html` names it.
extern const char _binary_page_html_start[], _binary_page_html_end[];

// What a page is made of.
struct page {
    const char *title;
    struct reading reading;
    char *listing;
    size_t listing_size;
};

// The listing of the tree or of the refusal, as the library writes it.
static void make_listing(struct page *p) {
    const struct reading *r = &p->reading;
    uint32_t outcome;
    if (r->outcome == CAIRO_M_ACCEPTED) {
        size_t room = CAIRO_M_LIST_BOUND(r->node_count);
        p->listing = table(NULL, room, 1);
        outcome = cairo_m_list(r->nodes, r->node_count * sizeof *r->nodes, p->listing, room, &p->listing_size);
    } else {
        size_t room = CAIRO_M_LIST_REFUSED_BOUND(r->diagnostic_count);
        p->listing = table(NULL, room, 1);
        outcome = cairo_m_list_refused(r->outcome, r->diagnostics, r->diagnostic_count * sizeof *r->diagnostics, p->listing, room,
                                       &p->listing_size);
    }
    if (outcome != CAIRO_M_ACCEPTED) {
        fprintf(stderr, "%s: the listing is refused as %u\n", program, outcome);
        exit(FAILED);
    }
}

static void put_escaped(const char *words) {
    for (; *words != '\0'; words++) {
        if (strchr("&<>\"'", *words) != NULL)
            printf("&#%d;", *words);
        else
            putchar(*words);
    }
}

// Base64 (RFC 4648), so that every byte of a text comes through, and none ends the script that it stands in.
static void put_base64(const unsigned char *bytes, size_t length) {
    static const char digits[] = "ABCDEFGHIJKLMNOPQRSTUVWXYZabcdefghijklmnopqrstuvwxyz0123456789+/";
    for (size_t i = 0; i < length; i += 3) {
        size_t left = length - i;
        unsigned long three = (unsigned long)bytes[i] << 16;
        three |= left > 1 ? (unsigned long)bytes[i + 1] << 8 : 0;
        three |= left > 2 ? bytes[i + 2] : 0;
        putchar(digits[three >> 18]);
        putchar(digits[three >> 12 & 63]);
        putchar(left > 1 ? digits[three >> 6 & 63] : '=');
        putchar(left > 2 ? digits[three & 63] : '=');
    }
}

static bool is_place(const char *place, size_t length, const char *word) {
    return strlen(word) == length && memcmp(place, word, length) == 0;
}

static void fill(const struct page *p, const char *place, size_t length) {
    const struct reading *r = &p->reading;
    if (is_place(place, length, "title"))
        put_escaped(p->title);
    else if (is_place(place, length, "verdict"))
        print_verdict(r);
    else if (is_place(place, length, "outcome"))
        printf("%u", r->outcome);
    else if (is_place(place, length, "tokens"))
        printf("%zu", r->token_count);
    else if (is_place(place, length, "nodes"))
        printf("%zu", r->node_count);
    else if (is_place(place, length, "diagnostics"))
        printf("%zu", r->diagnostic_count);
    else if (is_place(place, length, "text"))
        put_base64(r->text, r->length);
    else if (is_place(place, length, "listing"))
        fwrite(p->listing, 1, p->listing_size, stdout);
    else
        abort(); // page.html has a place that is none of these
}

// The first `pair` between two places of the template, or its end.
static const char *next(const char *at, const char *end, const char *pair) {
    while (end - at >= 2 && memcmp(at, pair, 2) != 0)
        at++;
    return end - at >= 2 ? at : end;
}

static void put_page(const struct page *p) {
    const char *at = _binary_page_html_start, *end = _binary_page_html_end;
    for (;;) {
        const char *open = next(at, end, "{{");
        fwrite(at, 1, open - at, stdout);
        if (open == end)
            return;
        const char *close = next(open, end, "}}");
        fill(p, open + 2, close - open - 2);
        at = close + 2;
    }
}

int main(int words, char **word) {
    static struct page p;
    if (words != 2) {
        fputs("usage: page FILE    (- is standard input)\n", stderr);
        return FAILED;
    }
    const char *folder = strrchr(word[1], '/');
    p.title = strcmp(word[1], "-") == 0 ? "standard input" : folder == NULL ? word[1] : folder + 1;
    make_tables(&p.reading);
    if (!load(&p.reading, word[1])) {
        free_tables(&p.reading);
        return FAILED;
    }
    read_all(&p.reading);
    make_listing(&p);
    put_page(&p);
    free(p.listing);
    free_tables(&p.reading);
    if (!written())
        return FAILED;
    return p.reading.outcome == CAIRO_M_ACCEPTED ? ACCEPTED : REFUSED;
}
