/* The word cutter for C, on Linux for x86-64: the functions of target/staticlib/liblibrary.a, which `tools/archive` has proved and
   writes. Their contracts, for every input, are those of crates/library/src/lib.rt; this page says the same in words.

   ONE SCHEME FOR EVERY CALL. A call returns a code and writes all four numbers of `answer`.
     code 0         the call gave its answer; `answer` holds its numbers as said at the call, and 0 where nothing is said.
     code 1 to 15   the call refused: the code is the refusal's number in the table of numbered refusals (LUBI_SHORT and so on),
                    answer[0] is its place, and the rest is 0.

   WHAT THE CALLER MUST TEST: nothing, and no wrapper needs to. No call asks that typed rules, a book, a sheet, a table, a count or a place
   makes sense, or that an area is long enough: each tests what it is given and refuses what it cannot use. What is left to C is what C
   alone can know:
     - a pointer with a length points to that many elements (it is not NULL, also where the length is 0), and `answer` to four;
     - an area that a call writes overlaps no other area of that call;
     - nothing else writes these areas while the call runs. The library keeps nothing between calls, so several threads may call it.

   AREAS. `labels` has one cell a state and `targets` 256, and they are a table together with a count of states. Where a call fills a
   table, labels has at least LUBI_STATES cells and targets LUBI_TARGETS; where a call reads one, as many as its count asks for.
   A work area has at least LUBI_WORK cells of 64 bits, a text area at least LUBI_TEXT bytes, and an area for a typed book at least
   LUBI_BOOK bytes. No length is too long.
   What a work area holds before a call does not matter; afterwards it is all 0, but after LUBI_ROOM, which changes no area.

   STACK. What each call needs at most stands below as LUBI_STACK_..., in bytes: a thread that calls nothing else needs that much, and what
   its own functions take. These figures were measured on inputs made to be deep and have a margin (docs/STACK.md); `tools/stack` measures
   them again, and fails where one is exceeded. Building and comparing go as deep as the deepest term, 255 levels at most, and typing as deep
   as there are parentheses open, 33 levels at most; no other call's stack grows with its input. The library calls memset and memcpy: where
   the loader binds these only when they are first called, that once took 3,200 bytes more, for which the figures have room. */
#ifndef LUBIRANGUK_H
#define LUBIRANGUK_H

#include <stddef.h>
#include <stdint.h>

#ifdef __cplusplus
extern "C" {
#endif

enum {
    LUBI_ANSWER = 4,      /* numbers of an answer */
    LUBI_RECORD = 3,      /* cells of a word: start, length, rule */
    LUBI_RULES = 32,      /* rules of a book */
    LUBI_BOOK = 4096,     /* bytes of an area for a typed book: so many hold any */
    LUBI_STATES = 255,    /* states of a table, and cells of its labels */
    LUBI_TARGETS = 65280, /* cells of its targets */
    LUBI_SHEET = 196608,  /* bytes of the longest sheet there is: so many hold any */
    LUBI_WORK = 63011,    /* cells of a work area */
    LUBI_TEXT = 512       /* bytes of a text area */
};

/* bytes of stack that a call needs at most: measured over inputs made to be deep, with a margin (docs/STACK.md) */
enum {
    LUBI_STACK_TYPE = 32768,
    LUBI_STACK_CHECK_BOOK = 1024,
    LUBI_STACK_RULE_KIND = 1024,
    LUBI_STACK_WELL_FORMED = 256,
    LUBI_STACK_BUILD = 65536,
    LUBI_STACK_LOAD = 4096,
    LUBI_STACK_WRITE_SHEET = 1024,
    LUBI_STACK_CUT_FROM = 512,
    LUBI_STACK_COMPARE = 65536
};

/* codes */
enum {
    LUBI_GIVEN = 0,
    LUBI_SHORT = 1,
    LUBI_NUMBER = 2, /* a number runs on past three groups; one that is padded with a group of 0 is LUBI_PADDED */
    LUBI_RANGE = 3,
    LUBI_STACK = 4,
    LUBI_TAIL = 5,
    LUBI_LONG = 6,
    LUBI_POOL = 7,
    LUBI_TOO_MANY_STATES = 8,
    LUBI_RUNS = 9,
    LUBI_LOADED = 10,
    LUBI_ROOM = 11,
    LUBI_PAIRS = 12,
    LUBI_INPUT = 13, /* programs only: no call here gives it */
    LUBI_TYPED = 14,
    LUBI_PADDED = 15
};

/* whether there is such a rule */
enum { LUBI_NO_RULE = 0, LUBI_KIND = 1 };

/* how a cut ended */
enum { LUBI_DONE = 0, LUBI_STUCK = 1, LUBI_FULL = 2 };

/* how a comparison ended */
enum { LUBI_SAME = 0, LUBI_DIFFERS = 1 };

/* Types rules: a text of one rule a line, each its kind, a colon and an expression (docs/RULES.md), becomes a rule book at the front of
   `out`; the bytes of `out` past the book stay as they were.
   answer: the number of bytes of the book.
   Refuses LUBI_ROOM first, where `out` has fewer than LUBI_BOOK bytes, however short the book would be; then LUBI_TYPED, at the first byte
   that no rightly typed text could have after the bytes before it, or at the end of a text that stops too early; then LUBI_RANGE, at the
   start of the first line that brings the rules above LUBI_RULES, its kind above 16,383 or the nodes of all rules above 512 (0 where there
   is no line). On a refusal all of `out` is unchanged. A text may have any length. */
size_t lubi_type(const uint8_t *text, size_t text_length, uint8_t *out, size_t out_length, size_t answer[LUBI_ANSWER]);

/* Checks a rule book, of version 1 or of version 2, which alone has the nodes And (code 7) and Not (code 8).
   answer: the number of rules, the number of nodes of all rules together.
   Refuses what is wrong in the book, at the byte where it is wrong: 1 to 5, and LUBI_PADDED. A number that cannot be read is wrong at its
   first byte. */
size_t lubi_check_book(const uint8_t *book, size_t book_length, size_t answer[LUBI_ANSWER]);

/* Tells the kind of a rule of a book, rules counting from 0.
   answer: LUBI_KIND and the kind; or LUBI_NO_RULE, where the book has no such rule.
   Refuses what is wrong in the book, as lubi_check_book does. */
size_t lubi_rule_kind(const uint8_t *book, size_t book_length, size_t rule, size_t answer[LUBI_ANSWER]);

/* Tests a table: code 0 where it is well formed, and no number is told; else LUBI_LOADED. Calls that read a table make this test
   themselves. */
size_t lubi_well_formed(size_t count, const uint8_t *labels, size_t labels_length, const uint8_t *targets, size_t targets_length,
    size_t answer[LUBI_ANSWER]);

/* Builds a rule book's table.
   answer: the number of states. Cells of labels and targets past those states are 0, to the end of the lent areas.
   Refuses LUBI_ROOM first, where labels, targets or the work area is below full size, and then changes none; else what is wrong in the
   book, at the byte where it is wrong (1 to 5, 15), then LUBI_LONG, LUBI_TOO_MANY_STATES or LUBI_POOL, at the state that was being left,
   and then leaves labels and targets all 0. */
size_t lubi_build(const uint8_t *book, size_t book_length, uint8_t *labels, size_t labels_length, uint8_t *targets, size_t targets_length,
    uint64_t *work, size_t work_length, size_t answer[LUBI_ANSWER]);

/* Reads a sheet into a table.
   answer: the number of states. Cells of labels and targets past those states are 0, to the end of the lent areas.
   Refuses LUBI_ROOM first, where an area is below full size, and then changes neither; else what is wrong in the sheet, at the byte
   where it is wrong (1, 2, 3, 5, 9, 15), and then leaves both areas all 0. */
size_t lubi_load(const uint8_t *sheet, size_t sheet_length, uint8_t *labels, size_t labels_length, uint8_t *targets, size_t targets_length,
    size_t answer[LUBI_ANSWER]);

/* Writes a table as its sheet to the front of `out`; the bytes of `out` past the sheet stay as they were.
   answer: the number of bytes of the sheet.
   Refuses LUBI_LOADED, where the table is not well formed, then LUBI_ROOM, where `out` is shorter than the sheet; `out` is unchanged. */
size_t lubi_write_sheet(size_t count, const uint8_t *labels, size_t labels_length, const uint8_t *targets, size_t targets_length,
    uint8_t *out, size_t out_length, size_t answer[LUBI_ANSWER]);

/* Cuts a text into words by a table, from the byte number `at` on; `at` may lie past the end, where no text is left.
   `records` has room for records_length / LUBI_RECORD words. Each is three cells: its start, counted from the start of the text, its
   length and its rule, rules counting from 0. Cells past the words stay as they were.
   answer: LUBI_DONE, LUBI_STUCK or LUBI_FULL; the number of words; and the place where no word starts (Stuck) or where the next word
   starts and no record is free (Full). After Full, cut on from that place.
   Refuses LUBI_LOADED, where the table is not well formed; the records are unchanged.

   WHAT A CALL COSTS, AND HOW TO CALL IT WELL. Lent memory may hold anything, so each call tests the whole table before the first byte,
   count labels and count * 256 targets, many at a time. By docs/SPEED.md, with the library compiled for an Arm machine, that took 0.07
   microseconds with 7 states, 0.7 with 98 and 2 with 255, and somewhat more than twice that with tables made to be slow; then a byte of
   the texts there took 0.8 to 4.4 nanoseconds. Rules that must look far past a word cost more. The test is paid once a call, however long
   the text is:
     - give a text whole, or as many lines at a time as there are, and not a word at a time;
     - give room for many records; one for every byte is always enough. With room for one, every word pays the test;
     - after Full, cut on with the same text and `at` at the place that was told.
   A caller who goes on past the place after Stuck pays it again. Where a user wants every text cut to its end, a last rule for any byte
   avoids Stuck: typed as `.` on the last line, it matches one byte, and since longer words and earlier rules come first it takes just the
   bytes at which no other rule has a word. */
size_t lubi_cut_from(size_t count, const uint8_t *labels, size_t labels_length, const uint8_t *targets, size_t targets_length,
    const uint8_t *text, size_t text_length, size_t at, size_t *records, size_t records_length, size_t answer[LUBI_ANSWER]);

/* Compares a rule book with a table: whether both cut every text there is into the same words under the same rules.
   answer: LUBI_SAME; or LUBI_DIFFERS, the length of the shortest text that they cut differently, 1 to LUBI_TEXT, the book's label and
   the table's for it (1 plus a rule's number, or 0). Of the texts of that length that they cut differently it is the lowest. It stands at
   the front of text_area, and the rest of that area is 0; after LUBI_SAME all of it is 0. The label of the table's start counts only if
   some non-empty text leads back to the start, since words are never empty.
   Refuses LUBI_ROOM first, where the text area or the work area is below full size, and then changes neither; else LUBI_LOADED, where
   the table is not well formed, then what is wrong in the book, at the byte where it is wrong (1 to 5, 15), then LUBI_LONG, LUBI_PAIRS or
   LUBI_POOL, at the number of the pair that was being left (0 for the start, and 1 to 512 in the order found), and then leaves the text
   area all 0. */
size_t lubi_compare(const uint8_t *book, size_t book_length, size_t count, const uint8_t *labels, size_t labels_length,
    const uint8_t *targets, size_t targets_length, uint8_t *text_area, size_t text_length, uint64_t *work, size_t work_length,
    size_t answer[LUBI_ANSWER]);

#ifdef __cplusplus
}
#endif

#endif
