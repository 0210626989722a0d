/* Texts and tables that cutting is measured on, made by a fixed row of dice, so that every run has the same.
   A text is made part by part, as many as fit; those of a grammar hold nothing that its rules do not match. */
#include <string.h>

#include "scanners.h"

static char *text;
static size_t at, length;

static uint32_t dice(uint32_t sides)
{
    static uint32_t x = 1;
    x = x * 1664525u + 1013904223u;
    return (x >> 16) % sides;
}

/* A byte, which is left out where there is no room; n bytes of the `kinds` from `first` on; a string; one of several. */
static void put(char c)
{
    if (at < length)
        text[at++] = c;
}

static void some(size_t n, char first, uint32_t kinds)
{
    for (; n > 0; n--)
        put((char)(first + (char)dice(kinds)));
}

static void say(const char *s)
{
    for (; *s; s++)
        put(*s);
}

static void one_of(const char *const *list, uint32_t n)
{
    say(list[dice(n)]);
}

/* A word of one to eight letters, a number of one to four digits or the word `to`, and a space. */
static void orders(void)
{
    uint32_t kind = dice(8);
    if (kind == 0)
        say("to");
    else if (kind < 3)
        some(1 + dice(4), '0', 10);
    else
        some(1 + dice(8), 'a', 26);
    put(' ');
}

static void long_words(void)
{
    some(1000, 'a', 26);
    put(' ');
}

static void spaces(void)
{
    put(' ');
}

/* A word of 1,000 letters, of the first and the second half of the alphabet by turns: each leads to another state, and every other one
   has a label. */
static void alternating(void)
{
    for (int k = 0; k < 500; k++) {
        some(1, 'a', 13);
        some(1, 'n', 13);
    }
    put(' ');
}

static void any_bytes(void)
{
    put((char)dice(256));
}

/* A line of keywords, names, numbers with units and times, now and then with a remark. */
static void keywords(void)
{
    static const char *const kinds[] = {"train", "truck", "ship", "tram"}, *const acts[] = {"load", "unload", "wait", "depart", "arrive"},
                            *const units[] = {"t", "kg", "km", "min", "h"}, *const links[] = {"via", "at", "by", "until", "every"};
    one_of(kinds, 4);
    put(' ');
    some(2 + dice(8), 'a', 26);
    say(dice(2) ? " from " : " to ");
    some(1, 'A', 26);
    some(3 + dice(8), 'a', 26);
    for (uint32_t n = dice(4); n > 0; n--) {
        put(' ');
        one_of(links, 5);
        put(' ');
        if (dice(2)) {
            some(1, '0', 2), some(1, '0', 10), put(':'), some(1, '0', 6), some(1, '0', 10);
        } else {
            some(1, 'A', 26), some(3 + dice(8), 'a', 26);
        }
    }
    say(", ");
    one_of(acts, 5);
    put(' ');
    some(1 + dice(4), '0', 10);
    one_of(units, 5);
    if (dice(4) == 0)
        say(" # "), some(5 + dice(40), 'a', 26);
    put('\n');
}

static void string(size_t n)
{
    put('"');
    for (; n > 0; n--)
        dice(40) == 0 ? say("\\n") : some(1, 'a', 26);
    put('"');
}

/* An object of a JSON list, a line for each of its members. */
static void json(void)
{
    static const char *const plain[] = {"true", "false", "null", "[]", "{}"};
    say("  {\n");
    for (uint32_t n = 2 + dice(6); n > 0; n--) {
        say("    ");
        string(3 + dice(10));
        say(": ");
        uint32_t kind = dice(8);
        if (kind < 4)
            string(dice(60));
        else if (kind < 7)
            some(1, '1', 9), some(dice(6), '0', 10), dice(2) ? say(".5") : say("");
        else
            one_of(plain, 5);
        say(n > 1 ? ",\n" : "\n");
    }
    say("  },\n");
}

static const struct {
    const char *name;
    void (*more)(void);
} makers[] = {{"orders", orders}, {"long", long_words}, {"spaces", spaces}, {"keywords", keywords}, {"json", json},
    {"alternating", alternating}, {"scattered", any_bytes}};

size_t make_text(const char *name, char *to, size_t room)
{
    size_t whole = 0;
    text = to, at = 0, length = room;
    for (size_t m = 0; m < sizeof makers / sizeof *makers; m++)
        while (strcmp(name, makers[m].name) == 0 && at < length) {
            whole = at;
            makers[m].more();
        }
    return whole;
}

/* All bytes lead anywhere, a quarter of the states has a label, and none is dead. */
void scatter(size_t count, uint8_t *labels, uint8_t *targets)
{
    for (size_t s = 0; s < count; s++)
        labels[s] = dice(4) == 0 ? (uint8_t)(1 + dice(LUBI_RULES)) : 0;
    for (size_t c = 0; c < count * 256; c++)
        targets[c] = (uint8_t)dice((uint32_t)count);
}

/* No state has a label, and all bytes but the last lead back to their state: the search for a dead state is as long as it can be. */
void lead_back(size_t count, uint8_t *labels, uint8_t *targets)
{
    memset(labels, 0, count);
    for (size_t s = 0; s < count; s++) {
        memset(targets + s * 256, (int)s, 255);
        targets[s * 256 + 255] = (uint8_t)((s + 1) % count);
    }
}
