/* How deep the stack goes in each call of the library, for tools/stack. A call runs on a stack of its own that was painted before; the lowest byte
   that lost its paint tells. Two paints in turn, so that a byte that a call writes is not taken for paint. What the caller pushes counts too.
   Words: files by their endings. A .book is checked, built, and its table tested, written, cut by and compared, also with the .sheet of its name if
   there is one; a .sheet is loaded and written; .rules are typed. Prints a line a call: its name, the greatest depth, the header's figure and the
   file that led there. The status is 1 where a depth exceeds its figure, and 2 where a file cannot be read. */
#include "lubiranguk.h"
#include <stdio.h>
#include <stdlib.h>
#include <string.h>
#include <sys/mman.h>

enum { GUARD = 65536, AREA = 524288, TEXT = 32768, TYPED = 65536 };

static uint8_t *stack, book[65536], sheet[LUBI_SHEET], typed[TYPED], text[TEXT], out[LUBI_SHEET];
static uint8_t labels[LUBI_STATES], targets[LUBI_TARGETS], shown[LUBI_TEXT];
static uint64_t work[LUBI_WORK];
static size_t book_length, sheet_length, typed_length, states, records[LUBI_RECORD * TEXT], answer[LUBI_ANSWER];

static void type(void) { lubi_type(typed, typed_length, out, sizeof out, answer); }
static void check_book(void) { lubi_check_book(book, book_length, answer); }
static void rule_kind(void) { lubi_rule_kind(book, book_length, LUBI_RULES - 1, answer); }
static void first_kind(void) { lubi_rule_kind(book, book_length, 0, answer); }
static void well_formed(void) { lubi_well_formed(states, labels, LUBI_STATES, targets, LUBI_TARGETS, answer); }
static void build(void) {
    size_t code = lubi_build(book, book_length, labels, LUBI_STATES, targets, LUBI_TARGETS, work, LUBI_WORK, answer);
    states = code == LUBI_GIVEN ? answer[0] : 0;
}
static void load(void) {
    size_t code = lubi_load(sheet, sheet_length, labels, LUBI_STATES, targets, LUBI_TARGETS, answer);
    states = code == LUBI_GIVEN ? answer[0] : 0;
}
static void write_sheet(void) { lubi_write_sheet(states, labels, LUBI_STATES, targets, LUBI_TARGETS, out, sizeof out, answer); }
static void cut_from(void) {
    lubi_cut_from(states, labels, LUBI_STATES, targets, LUBI_TARGETS, text, TEXT, 0, records, sizeof records / sizeof *records, answer);
}
static void compare(void) {
    lubi_compare(book, book_length, states, labels, LUBI_STATES, targets, LUBI_TARGETS, shown, LUBI_TEXT, work, LUBI_WORK, answer);
}

static struct { const char *name; size_t figure, depth; const char *file; } rows[] = {
    {"lubi_type", LUBI_STACK_TYPE, 0, "-"}, {"lubi_check_book", LUBI_STACK_CHECK_BOOK, 0, "-"}, {"lubi_rule_kind", LUBI_STACK_RULE_KIND, 0, "-"},
    {"lubi_well_formed", LUBI_STACK_WELL_FORMED, 0, "-"}, {"lubi_build", LUBI_STACK_BUILD, 0, "-"}, {"lubi_load", LUBI_STACK_LOAD, 0, "-"},
    {"lubi_write_sheet", LUBI_STACK_WRITE_SHEET, 0, "-"}, {"lubi_cut_from", LUBI_STACK_CUT_FROM, 0, "-"}, {"lubi_compare", LUBI_STACK_COMPARE, 0, "-"},
};
enum { ROWS = sizeof rows / sizeof *rows };
enum { TYPE, CHECK_BOOK, RULE_KIND, WELL_FORMED, BUILD, LOAD, WRITE_SHEET, CUT_FROM, COMPARE };

/* Calls on the painted stack: the bytes from its top down to the lowest that lost its paint. Only x86-64 has these registers. */
static size_t painted(uint8_t paint, void (*call)(void)) {
    uint8_t *top = stack + AREA;
    memset(stack, paint, AREA);
    __asm__ volatile("movq %%rsp, %%rbx\n\tmovq %0, %%rsp\n\tcall *%1\n\tmovq %%rbx, %%rsp"
        : : "r"(top), "r"(call)
        : "rax", "rbx", "rcx", "rdx", "rsi", "rdi", "r8", "r9", "r10", "r11", "memory", "cc", "xmm0", "xmm1", "xmm2", "xmm3", "xmm4", "xmm5", "xmm6",
          "xmm7", "xmm8", "xmm9", "xmm10", "xmm11", "xmm12", "xmm13", "xmm14", "xmm15");
    size_t bare = 0;
    while (bare < AREA && stack[bare] == paint) bare++;
    return AREA - bare;
}

static size_t depth(void (*call)(void)) {
    size_t one = painted(0xA5, call), other = painted(0x5A, call);
    return one > other ? one : other;
}

static void measure(int row, void (*call)(void), const char *file) {
    size_t found = depth(call);
    if (found > rows[row].depth) {
        rows[row].depth = found;
        rows[row].file = file;
    }
}

static size_t read_file(const char *path, uint8_t *bytes, size_t room, int wanted) {
    FILE *file = fopen(path, "rb");
    if (file == NULL && !wanted) return 0;
    size_t length = file == NULL ? 0 : fread(bytes, 1, room, file);
    if (file == NULL || ferror(file) || fgetc(file) != EOF) {
        fprintf(stderr, "tools/stack: %s cannot be read, or is too long\n", path);
        exit(2);
    }
    fclose(file);
    return length;
}

/* Every call that takes the table that is there. */
static void by_table(const char *path) {
    measure(WELL_FORMED, well_formed, path);
    measure(WRITE_SHEET, write_sheet, path);
    measure(CUT_FROM, cut_from, path);
    if (book_length > 0) measure(COMPARE, compare, path);
}

/* A table of one state: what a book is compared with whose build is refused. */
static void plain_table(void) {
    memset(labels, 0, sizeof labels);
    memset(targets, 0, sizeof targets);
    states = 1;
}

static void by_book(const char *path) {
    char beside[4096];
    book_length = read_file(path, book, sizeof book, 1);
    measure(CHECK_BOOK, check_book, path);
    measure(RULE_KIND, rule_kind, path);
    measure(RULE_KIND, first_kind, path);
    measure(BUILD, build, path);
    if (states == 0) plain_table();
    by_table(path);
    snprintf(beside, sizeof beside, "%.*s.sheet", (int)(strlen(path) - 5), path);
    sheet_length = read_file(beside, sheet, sizeof sheet, 0);
    if (sheet_length > 0) {
        measure(LOAD, load, path);
        by_table(path);
    }
    book_length = 0;
}

static int ends(const char *path, const char *ending) {
    size_t long_ = strlen(path), short_ = strlen(ending);
    return long_ >= short_ && strcmp(path + long_ - short_, ending) == 0;
}

int main(int count, char **words) {
    int exceeded = 0;
    uint8_t *pages = mmap(NULL, GUARD + AREA, PROT_READ | PROT_WRITE, MAP_PRIVATE | MAP_ANONYMOUS, -1, 0);
    if (pages == MAP_FAILED || mprotect(pages, GUARD, PROT_NONE) != 0) return 2;
    stack = pages + GUARD;
    for (size_t i = 0; i < TEXT; i++) text[i] = i % 97 == 0 ? ' ' : 'a' + i / 512 % 26;
    for (int i = 1; i < count; i++) {
        if (ends(words[i], ".book")) by_book(words[i]);
        if (ends(words[i], ".sheet")) {
            sheet_length = read_file(words[i], sheet, sizeof sheet, 1);
            measure(LOAD, load, words[i]);
            by_table(words[i]);
        }
        if (ends(words[i], ".rules")) {
            typed_length = read_file(words[i], typed, sizeof typed, 1);
            measure(TYPE, type, words[i]);
        }
    }
    for (int i = 0; i < ROWS; i++) {
        printf("%s\t%zu\t%zu\t%s\n", rows[i].name, rows[i].depth, rows[i].figure, rows[i].file);
        exceeded |= rows[i].depth > rows[i].figure;
    }
    return exceeded;
}
