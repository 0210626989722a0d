/* One call of the library on a stored case, counted under callgrind by tools/speed_build: `build BOOK`, or `compare BOOK SHEET`.
   Reading the files and loading the sheet are not counted. A file that cannot be read and a call that refuses are told. */
#include "lubiranguk.h"
#include <stdio.h>
#include <stdlib.h>
#include <string.h>
#include <valgrind/callgrind.h>

static uint8_t book[LUBI_BOOK], sheet[LUBI_SHEET], labels[LUBI_STATES], targets[LUBI_TARGETS], text[LUBI_TEXT];
static uint64_t work[LUBI_WORK];

static size_t read_file(const char *path, uint8_t *bytes, size_t room) {
    FILE *file = fopen(path, "rb");
    size_t length = file == NULL ? 0 : fread(bytes, 1, room, file);
    if (file == NULL || ferror(file) || fgetc(file) != EOF) {
        fprintf(stderr, "tools/speed_build: %s cannot be read, or is too long\n", path);
        exit(1);
    }
    fclose(file);
    return length;
}

static size_t build(const char *book_path) {
    size_t answer[LUBI_ANSWER], length = read_file(book_path, book, sizeof book);
    CALLGRIND_TOGGLE_COLLECT;
    size_t code = lubi_build(book, length, labels, LUBI_STATES, targets, LUBI_TARGETS, work, LUBI_WORK, answer);
    CALLGRIND_TOGGLE_COLLECT;
    return code;
}

static size_t compare(const char *book_path, const char *sheet_path) {
    size_t answer[LUBI_ANSWER], length = read_file(book_path, book, sizeof book);
    size_t code = lubi_load(sheet, read_file(sheet_path, sheet, sizeof sheet), labels, LUBI_STATES, targets, LUBI_TARGETS, answer);
    if (code != LUBI_GIVEN) return code;
    size_t count = answer[0];
    CALLGRIND_TOGGLE_COLLECT;
    code = lubi_compare(book, length, count, labels, LUBI_STATES, targets, LUBI_TARGETS, text, LUBI_TEXT, work, LUBI_WORK, answer);
    CALLGRIND_TOGGLE_COLLECT;
    return code;
}

int main(int count, char **words) {
    size_t code = LUBI_INPUT;
    if (count == 3 && strcmp(words[1], "build") == 0) code = build(words[2]);
    if (count == 4 && strcmp(words[1], "compare") == 0) code = compare(words[2], words[3]);
    if (code != LUBI_GIVEN) fprintf(stderr, "tools/speed_build: refused, code %zu\n", code);
    return code != LUBI_GIVEN;
}
