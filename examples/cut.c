/* A worked example: a rule book is built, texts are cut by its table, and the table is kept as a sheet and compared with the book.
   The rules are `1` (rule 0) and `1.1` (rule 1); at the end others are typed as text, and cut by in the same way, and a book of version 2
   takes notes between slash-star and star-slash for words.
   tools/example builds and runs this, and holds it to examples/cut.out. */
#include <stdio.h>
#include <string.h>

#include "lubiranguk.h"

/* Version 1, two rules; each its kind, the number of its nodes, and these, operators after their terms. */
static const uint8_t book[] = {
    1, 2,
    7, 1, 2, '1', '1',
    8, 5, 2, '1', '1', 2, '.', '.', 3, 2, '1', '1', 3,
};

/* The book that is built and that kinds are told from: the one above, until another is typed. */
static const uint8_t *used = book;
static size_t used_length = sizeof book;

static uint8_t labels[LUBI_STATES], targets[LUBI_TARGETS];
static uint64_t work[LUBI_WORK];

/* Builds the first bytes of the book in use, and says how that ended; the number of states. */
static size_t build(size_t length)
{
    size_t answer[LUBI_ANSWER];
    size_t code = lubi_build(used, length, labels, LUBI_STATES, targets, LUBI_TARGETS, work, LUBI_WORK, answer);
    if (code != LUBI_GIVEN) {
        printf("build: refused %zu at %zu\n", code, answer[0]);
        return 0;
    }
    printf("build: %zu states\n", answer[0]);
    return answer[0];
}

/* The kind of a rule that the book in use has. */
static size_t kind_of(size_t rule)
{
    size_t answer[LUBI_ANSWER];
    return lubi_rule_kind(used, used_length, rule, answer) == LUBI_GIVEN && answer[0] == LUBI_KIND ? answer[1] : 0;
}

/* Cuts the text with room for two words at a time, and goes on where the records were full. */
static void cut(size_t count, const char *text)
{
    size_t records[2 * LUBI_RECORD], answer[LUBI_ANSWER], at = 0;
    printf("text %s\n", text);
    for (;;) {
        size_t code = lubi_cut_from(count, labels, LUBI_STATES, targets, LUBI_TARGETS, (const uint8_t *)text, strlen(text), at, records,
            2 * LUBI_RECORD, answer);
        if (code != LUBI_GIVEN) {
            printf("  refused %zu at %zu\n", code, answer[0]);
            return;
        }
        for (size_t k = 0; k < answer[1]; k++) {
            const size_t *word = records + k * LUBI_RECORD;
            printf("  word at %zu, length %zu, rule %zu, kind %zu\n", word[0], word[1], word[2], kind_of(word[2]));
        }
        if (answer[0] != LUBI_FULL)
            break;
        at = answer[2];
        printf("  full at %zu\n", at);
    }
    if (answer[0] == LUBI_STUCK)
        printf("  stuck at %zu\n", answer[2]);
    else
        printf("  done\n");
}

/* The way to cut where speed counts: a whole text by one call, which tests the table once, with room for many records. */
static void cut_whole(size_t count, const char *text)
{
    static const char *const ends[] = {"done", "stuck", "full"};
    static size_t records[1000 * LUBI_RECORD];
    size_t answer[LUBI_ANSWER];
    size_t code = lubi_cut_from(count, labels, LUBI_STATES, targets, LUBI_TARGETS, (const uint8_t *)text, strlen(text), 0, records,
        1000 * LUBI_RECORD, answer);
    if (code != LUBI_GIVEN)
        printf("whole %s: refused %zu at %zu\n", text, code, answer[0]);
    else
        printf("whole %s: words %zu, %s\n", text, answer[1], ends[answer[0]]);
}

/* Writes the table as its sheet, and reads that back into fresh areas. */
static void keep(size_t count)
{
    static uint8_t sheet[LUBI_SHEET], labels_read[LUBI_STATES], targets_read[LUBI_TARGETS];
    size_t answer[LUBI_ANSWER];
    size_t code = lubi_write_sheet(count, labels, LUBI_STATES, targets, LUBI_TARGETS, sheet, sizeof sheet, answer);
    size_t length = answer[0];
    printf("sheet: code %zu, %zu bytes\n", code, length);
    code = lubi_load(sheet, length, labels_read, LUBI_STATES, targets_read, LUBI_TARGETS, answer);
    printf("read back: code %zu, %zu states, %s\n", code, answer[0],
        memcmp(labels, labels_read, sizeof labels) == 0 && memcmp(targets, targets_read, sizeof targets) == 0 ? "the same" : "not the same");
    code = lubi_well_formed(answer[0], labels_read, LUBI_STATES, targets_read, LUBI_TARGETS, answer);
    printf("well formed: code %zu\n", code);
    code = lubi_load(sheet, length - 1, labels_read, LUBI_STATES, targets_read, LUBI_TARGETS, answer);
    printf("one byte early: refused %zu at %zu\n", code, answer[0]);
    code = lubi_write_sheet(count, labels, LUBI_STATES, targets, LUBI_TARGETS, sheet, length - 1, answer);
    printf("into a byte less: refused %zu\n", code);
}

/* A table of as many states as there may be, in which each byte leads elsewhere than the one before: its sheet is the longest there is. */
static size_t make_largest(void)
{
    memset(labels, 1, sizeof labels);
    for (size_t i = 0; i < LUBI_TARGETS; i++)
        targets[i] = (uint8_t)(LUBI_STATES - 1 - i % 2);
    return LUBI_STATES;
}

/* Areas of just their full size are taken; with one cell less a call is refused. */
static void short_areas(void)
{
    uint8_t text[LUBI_TEXT];
    size_t answer[LUBI_ANSWER];
    size_t few_labels = lubi_build(book, sizeof book, labels, LUBI_STATES - 1, targets, LUBI_TARGETS, work, LUBI_WORK, answer);
    size_t few_targets = lubi_build(book, sizeof book, labels, LUBI_STATES, targets, LUBI_TARGETS - 1, work, LUBI_WORK, answer);
    size_t little_work = lubi_build(book, sizeof book, labels, LUBI_STATES, targets, LUBI_TARGETS, work, LUBI_WORK - 1, answer);
    size_t short_text =
        lubi_compare(book, sizeof book, 1, labels, LUBI_STATES, targets, LUBI_TARGETS, text, LUBI_TEXT - 1, work, LUBI_WORK, answer);
    printf("one cell less: refused %zu for labels, %zu for targets, %zu for the work area, %zu for the text\n", few_labels, few_targets,
        little_work, short_text);
}

/* Compares the book with the table. */
static void compare(size_t count)
{
    uint8_t text[LUBI_TEXT];
    size_t answer[LUBI_ANSWER];
    size_t code = lubi_compare(book, sizeof book, count, labels, LUBI_STATES, targets, LUBI_TARGETS, text, LUBI_TEXT, work, LUBI_WORK, answer);
    if (code != LUBI_GIVEN)
        printf("compare: refused %zu at %zu\n", code, answer[0]);
    else if (answer[0] == LUBI_SAME)
        printf("compare: same\n");
    else
        printf("compare: differs on %.*s: label %zu by the book, %zu by the table\n", (int)answer[1], (const char *)text, answer[2], answer[3]);
}

/* The same table by hand, its states in another order. A label is 1 plus the number of a rule, or 0. */
static size_t make_table(void)
{
    enum { START, ONE, ONE_DOT, ONE_DOT_ONE, DEAD, COUNT };
    memset(labels, 0, sizeof labels);
    memset(targets, DEAD, COUNT * 256);
    targets[START * 256 + '1'] = ONE;
    targets[ONE * 256 + '.'] = ONE_DOT;
    targets[ONE_DOT * 256 + '1'] = ONE_DOT_ONE;
    labels[ONE] = 1;
    labels[ONE_DOT_ONE] = 2;
    return COUNT;
}

/* Types rules as text. The book that they are becomes the one in use; after a refusal the area holds what it held. */
static void type_rules(const char *rules, size_t area)
{
    static uint8_t typed[LUBI_BOOK];
    size_t answer[LUBI_ANSWER];
    size_t code = lubi_type((const uint8_t *)rules, strlen(rules), typed, area, answer);
    if (code != LUBI_GIVEN) {
        printf("typed: refused %zu at %zu\n", code, answer[0]);
        return;
    }
    printf("typed: %zu bytes\n", answer[0]);
    used = typed;
    used_length = answer[0];
}

/* What a help page can say of a number that is no number, by the code alone. */
static void explain(const char *call, size_t code, size_t place)
{
    if (code == LUBI_NUMBER)
        printf("%s: the number at byte %zu runs on past three groups\n", call, place);
    else if (code == LUBI_PADDED)
        printf("%s: the number at byte %zu is padded with a group of 0\n", call, place);
    else
        printf("%s: code %zu at %zu\n", call, code, place);
}

/* One bad number, met by every call that reads a book. */
static void bad_book(const uint8_t *bad, size_t length)
{
    static uint8_t text[LUBI_TEXT];
    size_t answer[LUBI_ANSWER];
    size_t code = lubi_check_book(bad, length, answer);
    explain("check", code, answer[0]);
    code = lubi_rule_kind(bad, length, 0, answer);
    explain("kind", code, answer[0]);
    code = lubi_compare(bad, length, make_table(), labels, LUBI_STATES, targets, LUBI_TARGETS, text, LUBI_TEXT, work, LUBI_WORK, answer);
    explain("compare", code, answer[0]);
    code = lubi_build(bad, length, labels, LUBI_STATES, targets, LUBI_TARGETS, work, LUBI_WORK, answer);
    explain("build", code, answer[0]);
}

/* The two reasons for a bad number: a rule count that is padded, a kind that runs on; and a sheet whose last target is padded. */
static void bad_numbers(void)
{
    static const uint8_t padded[] = {1, 0x81, 0x80, 0x00, 7, 1, 1};
    static const uint8_t runs_on[] = {1, 1, 0x87, 0x80, 0x80, 0x00, 1, 1};
    static const uint8_t sheet[] = {1, 1, 0, 1, 0x80, 0x02, 0x80, 0x00};
    size_t answer[LUBI_ANSWER];
    bad_book(padded, sizeof padded);
    bad_book(runs_on, sizeof runs_on);
    size_t code = lubi_load(sheet, sizeof sheet, labels, LUBI_STATES, targets, LUBI_TARGETS, answer);
    explain("load", code, answer[0]);
}

/* A note, and words of small letters. Between the two signs of a note stands a text that is not (Not, 8) one with the second sign in it. */
static void notes(void)
{
    static const uint8_t noted[] = {
        2, 2,
        9, 18, 2, '/', '/', 2, '*', '*', 3,
        2, 0, 0xFF, 1, 5, 2, '*', '*', 3, 2, '/', '/', 3, 2, 0, 0xFF, 1, 5, 3, 8, 3,
        2, '*', '*', 3, 2, '/', '/', 3,
        2, 4, 2, 'a', 'z', 2, 'a', 'z', 5, 3,
    };
    used = noted;
    used_length = sizeof noted;
    size_t count = build(used_length);
    cut(count, "to/* a */go");
    cut(count, "/*/* **/to/*");
    /* Version 1 has no Not: its code is refused where it stands. */
    static uint8_t first[sizeof noted];
    memcpy(first, noted, sizeof noted);
    first[0] = 1;
    used = first;
    build(used_length);
}

int main(void)
{
    size_t answer[LUBI_ANSWER];
    size_t code = lubi_check_book(book, sizeof book, answer);
    printf("book: code %zu, %zu rules, %zu nodes\n", code, answer[0], answer[1]);
    size_t count = build(sizeof book);

    /* The walk goes on past the first dot and dies at the second: the word ends at the last labelled place, after `1`. */
    cut(count, "1..");
    cut(count, "1.11.111");
    cut(count, "");
    /* A count that is no table's is refused, whatever the caller meant. */
    cut(0, "1");
    cut(LUBI_STATES + 1, "1");

    keep(count);
    compare(count);
    /* Numbers of states do not matter to a comparison; what the table says of a text does. */
    count = make_table();
    compare(count);
    /* Nor does a label at the start to which no text leads back: words are never empty. */
    labels[0] = 2;
    compare(count);
    labels[3] = 1;
    compare(count);
    compare(0);

    /* A book that ends one byte early: the table area is left empty. */
    count = build(sizeof book - 1);
    cut(count, "1");

    keep(make_largest());
    short_areas();
    bad_numbers();

    /* Rules typed as text: the word `to`, and words of small letters. */
    type_rules("1:to\n2:<lower>+\n", LUBI_BOOK);
    count = build(used_length);
    cut(count, "tom");
    cut(count, "to7");
    cut_whole(count, "to7tom");
    /* With a last rule for any byte no text is stuck: it takes what no other rule has a word for. */
    type_rules("1:to\n2:<lower>+\n9:.\n", LUBI_BOOK);
    count = build(used_length);
    cut(count, "to7");
    cut_whole(count, "to7tom");
    /* The name of the set does not go on with a plus; a kind is too large, on the second line; the area has a byte less than it needs. */
    type_rules("1:to\n2:<lower+\n", LUBI_BOOK);
    type_rules("1:to\n16384:<lower>+\n", LUBI_BOOK);
    type_rules("1:to\n2:<lower>+\n", LUBI_BOOK - 1);

    notes();
    return 0;
}
