/* What the parts of the speed program share: texts and tables to measure on, and the bodies that are measured.
   A body cuts one piece of text, stores start, length and rule of each word in `cells`, and gives the number of words, 0 where it stuck. */
#include "lubiranguk.h"

size_t make_text(const char *name, char *to, size_t room);
void scatter(size_t count, uint8_t *labels, uint8_t *targets);
void lead_back(size_t count, uint8_t *labels, uint8_t *targets);

size_t plain_loop(const uint8_t *labels, const uint8_t *targets, size_t dead, const uint8_t *text, size_t length, size_t *cells);
size_t scan_packed(char *text, size_t length, size_t *cells);
size_t scan_full(char *text, size_t length, size_t *cells);
size_t scan_fast(char *text, size_t length, size_t *cells);
size_t scan_re2c(char *text, size_t length, size_t *cells);
