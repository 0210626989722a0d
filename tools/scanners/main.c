/* Measures lubi_cut_from beside other bodies that cut by the same rules: all cut the same text in turns, and must leave the same records.
   With WITH_SCANNERS those of flex and re2c are there, with WITH_BEFORE the cut of another build of the library. */
#include <stdio.h>
#include <stdlib.h>
#include <string.h>
#include <time.h>

#include "scanners.h"

static size_t count, dead;
static int scattered;
static uint8_t labels[LUBI_STATES], targets[LUBI_TARGETS];

static void stop(const char *why)
{
    fprintf(stderr, "speed: %s\n", why);
    exit(1);
}

static double now(void)
{
    struct timespec t;
    clock_gettime(CLOCK_THREAD_CPUTIME_ID, &t);
    return (double)t.tv_sec * 1e9 + (double)t.tv_nsec;
}

/* ---- the table */

static void build(const char *path)
{
    static uint8_t book[LUBI_BOOK];
    static uint64_t work[LUBI_WORK];
    size_t answer[LUBI_ANSWER];
    FILE *file = fopen(path, "rb");
    if (file == 0)
        stop("the book cannot be read");
    size_t length = fread(book, 1, sizeof book, file);
    fclose(file);
    if (lubi_build(book, length, labels, sizeof labels, targets, sizeof targets, work, LUBI_WORK, answer) != LUBI_GIVEN)
        stop("the book is refused");
    count = answer[0];
}

static int keeps_all(size_t state)
{
    for (size_t c = 0; c < 256; c++)
        if (targets[state * 256 + c] != state)
            return 0;
    return labels[state] == 0;
}

/* A table of so many states where a number is given, else that of a book; and its dead state, which the plain loop is told. */
static void table(const char *from)
{
    long states = strtol(from, 0, 10);
    if (states > LUBI_STATES || states < -LUBI_STATES)
        stop("too many states");
    count = (size_t)labs(states);
    scattered = states > 0;
    if (states > 0)
        scatter(count, labels, targets);
    else if (states < 0)
        lead_back(count, labels, targets);
    else
        build(from);
    for (dead = 0; dead < count && !keeps_all(dead);)
        dead++;
}

/* ---- the bodies */

typedef size_t library_cut(size_t count, const uint8_t *labels, size_t labels_length, const uint8_t *targets, size_t targets_length,
    const uint8_t *text, size_t text_length, size_t at, size_t *records, size_t records_length, size_t answer[LUBI_ANSWER]);

/* One call, with a record for every byte. */
static size_t by_library(library_cut cut, char *text, size_t length, size_t *cells)
{
    size_t answer[LUBI_ANSWER];
    size_t code = cut(count, labels, sizeof labels, targets, sizeof targets, (const uint8_t *)text, length, 0, cells, LUBI_RECORD * length,
        answer);
    return code == LUBI_GIVEN && answer[0] == LUBI_DONE ? answer[1] : 0;
}

static size_t ours(char *text, size_t length, size_t *cells)
{
    return by_library(lubi_cut_from, text, length, cells);
}

#ifdef WITH_BEFORE
/* The cut of another build of the library, under another name. */
extern library_cut before_cut_from;

static size_t before(char *text, size_t length, size_t *cells)
{
    return by_library(before_cut_from, text, length, cells);
}
#endif

static size_t plain(char *text, size_t length, size_t *cells)
{
    return plain_loop(labels, targets, dead, (const uint8_t *)text, length, cells);
}

static const struct {
    const char *name;
    size_t (*cut)(char *text, size_t length, size_t *cells);
} bodies[] = {
    {"ours", ours},
#ifdef WITH_BEFORE
    {"before", before},
#endif
    {"plain loop", plain},
#ifdef WITH_SCANNERS
    {"flex", scan_packed},
    {"flex -Cf", scan_full},
    {"flex -CF", scan_fast},
    {"re2c", scan_re2c},
#endif
};
enum { BODIES = sizeof bodies / sizeof *bodies };

/* ---- the text, in pieces with two bytes 0 behind each */

static char *laid;
static size_t pieces, *sizes, total;

/* Where bytes lead anywhere a text is one word up to its last labelled place. The rest is left out: no word need start there. */
static size_t one_word(const char *text, size_t length)
{
    size_t state = 0, last = 0;
    for (size_t i = 0; i < length; i++) {
        state = targets[state * 256 + (uint8_t)text[i]];
        if (labels[state] != 0)
            last = i + 1;
    }
    return last;
}

/* A line ends behind a newline; where a text has none, behind a space when it has 40 bytes. */
static size_t line_end(const char *text, size_t length, int newlines, size_t from)
{
    for (size_t i = from; i < length; i++)
        if (newlines ? text[i] == '\n' : text[i] == ' ' && i - from >= 40)
            return i + 1;
    return length;
}

static void lay(const char *text, size_t length, int by_lines)
{
    laid = calloc(3 * length + 3, 1);
    sizes = malloc((length + 1) * sizeof *sizes);
    if (laid == 0 || sizes == 0)
        stop("no room");
    int newlines = memchr(text, '\n', length) != 0;
    for (size_t from = 0, to = 0; from < length; from += sizes[pieces++], to += 2) {
        sizes[pieces] = (by_lines ? line_end(text, length, newlines, from) : length) - from;
        memcpy(laid + to, text + from, sizes[pieces]);
        to += sizes[pieces];
    }
    total = length;
}

/* Each piece by one call of a body; the number of words. */
static size_t cut_all(int body, size_t *cells)
{
    size_t words = 0;
    char *piece = laid;
    for (size_t p = 0; p < pieces; p++) {
        size_t n = bodies[body].cut(piece, sizes[p], cells + LUBI_RECORD * words);
        if (n == 0)
            stop("a body is stuck");
        words += n;
        piece += sizes[p] + 2;
    }
    return words;
}

/* The best time of each body; every round of every body must leave the same records as the first. */
static size_t measure(int rounds, double best[BODIES])
{
    size_t words = 0, size = LUBI_RECORD * total * sizeof(size_t);
    size_t *cells = calloc(size, 1), *first = malloc(size);
    if (cells == 0 || first == 0)
        stop("no room");
    for (int r = 0; r < rounds; r++)
        for (int b = 0; b < BODIES; b++) {
            /* The area is cleared before each body, so that no page is new to one of them and what another left is gone. */
            memset(cells, 0, size);
            double start = now();
            size_t n = cut_all(b, cells);
            double took = now() - start;
            if (r == 0 || took < best[b])
                best[b] = took;
            if (r == 0 && b == 0) {
                words = n;
                memcpy(first, cells, size);
            }
            if (n != words || memcmp(cells, first, size) != 0)
                stop("the bodies do not find the same words");
        }
    return words;
}

/* What a call costs before the first byte: the best of the rounds, each of 1,000 calls. */
static void empty(int rounds)
{
    static char none[2];
    size_t record[LUBI_RECORD], answer[LUBI_ANSWER];
    if (lubi_cut_from(count, labels, sizeof labels, targets, sizeof targets, (const uint8_t *)none, 0, 0, record, 0, answer) != LUBI_GIVEN)
        stop("the table is refused");
    printf("| %zu |", count);
    for (int b = 0; b < BODIES; b++) {
        double best = 0;
        for (int r = 0; r < rounds; r++) {
            double start = now();
            for (int k = 0; k < 1000; k++)
                bodies[b].cut(none, 0, record);
            double took = now() - start;
            if (r == 0 || took < best)
                best = took;
        }
        printf(" %.0f |", best / 1000);
    }
    printf("\n");
}

/* The heads of both kinds of tables. */
static void heads(void)
{
    printf("| text | calls | words | ours, ns a byte |");
    for (int b = 1; b < BODIES; b++)
        printf(" ours / %s |", bodies[b].name);
    printf("\n| states | ");
    for (int b = 0; b < BODIES; b++)
        printf("%s, ns a call | ", bodies[b].name);
    printf("\n");
}

static void cut_text(const char *name, int by_lines, size_t room, int rounds)
{
    char *text = malloc(room + 1);
    if (text == 0)
        stop("no room");
    size_t length = make_text(name, text, room);
    lay(text, scattered ? one_word(text, length) : length, by_lines);
    if (total == 0 || rounds < 1)
        stop("no such text, or no round");
    double best[BODIES];
    size_t words = measure(rounds, best);
    printf("| %s, %s | %zu | %zu | %.2f |", name, by_lines ? "a call a line" : "whole", pieces, words, best[0] / (double)total);
    for (int b = 1; b < BODIES; b++)
        printf(" %.2f |", best[0] / best[b]);
    printf("\n");
    free(text);
}

/* speed TEXT whole|lines BYTES ROUNDS TABLE, or speed empty TABLE ROUNDS, prints a line of a table; without arguments it prints the heads.
   TABLE is a book's path, or a number of states whose bytes lead anywhere, or, below 0, of states that all bytes but one lead back to. */
int main(int argc, char **argv)
{
    if (argc == 1) {
        heads();
    } else if (argc == 4 && strcmp(argv[1], "empty") == 0) {
        table(argv[2]);
        empty(atoi(argv[3]));
    } else if (argc == 6) {
        table(argv[5]);
        cut_text(argv[1], strcmp(argv[2], "lines") == 0, strtoull(argv[3], 0, 10), atoi(argv[4]));
    } else {
        stop("usage: speed TEXT whole|lines BYTES ROUNDS TABLE, or empty TABLE ROUNDS");
    }
    return 0;
}
