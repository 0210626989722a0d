#!/usr/bin/env python3
# One list of rules three ways, so that all scanners that are measured have the same: as a rule book, as a source for flex or for re2c.
# Usage: words.py book|flex|re2c FILE.words. A line is an expression that flex and re2c both read: quoted texts, classes, ( ) | * + ?
import re
import sys

ESCAPES = {'n': 10, 't': 9, 'r': 13}
EMPTY, RANGE, CAT, ALT, STAR = 1, 2, 3, 4, 5


def number(n):
    return bytes([n]) if n < 128 else bytes([n % 128 + 128]) + number(n // 128)


class Line:
    """One line read from the left; every reader gives its nodes, each as bytes, in postfix order."""

    def __init__(self, text):
        self.text, self.at = text, 0

    def sees(self, mark):
        return self.text[self.at:self.at + 1] == mark

    def stop(self, why):
        sys.exit(f'words.py: {why} at {self.at} of {self.text}')

    def byte(self):
        m = re.match(r'\\x([0-9a-f]{2})|\\([ntr]|\W)|([^\\])', self.text[self.at:]) or self.stop('no byte')
        self.at += m.end()
        return int(m[1], 16) if m[1] else ESCAPES.get(m[2], ord(m[2])) if m[2] else ord(m[3])

    def skip(self, mark):
        if not self.sees(mark):
            self.stop(f'no {mark}')
        self.at += 1

    def quoted(self):
        nodes = []
        while not self.sees('"'):
            c = self.byte()
            nodes += [node(RANGE, c, c)] + [node(CAT)] * bool(nodes)
        return nodes

    def members(self):
        negated, inside = self.sees('^'), set()
        self.at += negated
        while not self.sees(']'):
            low = high = self.byte()
            if self.sees('-') and not self.text.startswith('-]', self.at):
                self.skip('-')
                high = self.byte()
            inside |= set(range(low, high + 1))
        starts = [c for c in range(256) if (c in inside) != negated and (c == 0 or (c - 1 in inside) == negated)]
        nodes = []
        for low in starts:
            high = next(c for c in range(low, 256) if c == 255 or (c + 1 in inside) == negated)
            nodes += [node(RANGE, low, high)] + [node(ALT)] * bool(nodes)
        return nodes

    def item(self):
        opened = self.text[self.at:self.at + 1]
        inside, close = {'"': (self.quoted, '"'), '[': (self.members, ']'), '(': (self.choice, ')')}.get(opened) or self.stop('no item')
        self.at += 1
        nodes = inside()
        self.skip(close)
        while self.at < len(self.text) and self.text[self.at] in '*+?':
            mark = self.text[self.at]
            self.at += 1
            nodes = {'*': nodes + [node(STAR)], '+': nodes + nodes + [node(STAR), node(CAT)], '?': nodes + [node(EMPTY), node(ALT)]}[mark]
        return nodes

    def sequence(self):
        nodes = self.item()
        while self.at < len(self.text) and self.text[self.at] not in '|)':
            nodes += self.item() + [node(CAT)]
        return nodes

    def whole(self):
        nodes = self.choice()
        return nodes if self.at == len(self.text) else self.stop('more than an expression')

    def choice(self):
        nodes = self.sequence()
        while self.sees('|'):
            self.at += 1
            nodes += self.sequence() + [node(ALT)]
        return nodes


def node(*numbers):
    return b''.join(map(number, numbers))


def book(lines):
    rules = [Line(line).whole() for line in lines]
    return number(1) + number(len(rules)) + b''.join(number(k) + number(len(r)) + b''.join(r) for k, r in enumerate(rules))


FLEX = '''%option 8bit never-interactive noyywrap nodefault nounput noinput
%{{
#include <stddef.h>
#define YY_DECL static size_t scan(size_t *cells)
#define WORD(rule) cell[0] = at, cell[1] = (size_t)yyleng, cell[2] = rule, cell += 3, at += (size_t)yyleng
%}}
%%
    size_t at = 0, *cell = cells;
{rules}
.|\\n return 0;
<<EOF>> return (size_t)(cell - cells) / 3;
%%
/* The text ends in two bytes 0, as flex asks. */
size_t NAME(char *text, size_t length, size_t *cells)
{{
    YY_BUFFER_STATE buffer = yy_scan_buffer(text, length + 2);
    size_t words = scan(cells);
    yy_delete_buffer(buffer);
    return words;
}}
'''

RE2C = '''#include <stddef.h>
#define WORD(rule) cell[0] = (size_t)(start - from), cell[1] = (size_t)(at - start), cell[2] = rule, cell += 3
/* The text ends in a byte 0, which re2c takes for the end where it stands there. */
size_t NAME(char *text, size_t length, size_t *cells)
{{
    const unsigned char *from = (const unsigned char *)text, *at = from, *limit = from + length, *marker;
    size_t *cell = cells;
    for (;;) {{
        const unsigned char *start = at;
        /*!re2c
        re2c:define:YYCTYPE = "unsigned char";
        re2c:define:YYCURSOR = at;
        re2c:define:YYLIMIT = limit;
        re2c:define:YYMARKER = marker;
        re2c:yyfill:enable = 0;
        re2c:eof = 0;
{rules}
        * {{ return 0; }}
        $ {{ return (size_t)(cell - cells) / 3; }}
        */
    }}
}}
'''


def main():
    kind, path = sys.argv[1:]
    with open(path, encoding='ascii') as file:
        lines = file.read().splitlines()
    if kind == 'book':
        sys.stdout.buffer.write(book(lines))
    elif kind == 'flex':
        print(FLEX.format(rules='\n'.join(f'{line} WORD({k});' for k, line in enumerate(lines))))
    else:
        print(RE2C.format(rules='\n'.join(f'        {line} {{ WORD({k}); continue; }}' for k, line in enumerate(lines))))


main()
