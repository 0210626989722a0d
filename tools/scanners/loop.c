/* The plain loop over a loaded table that cutting is measured against: for each byte a target and a label, the last labelled place kept.
   No header is included, so that a compiler that stands alone can take it. The table and its dead state are taken as they are, untested. */
typedef unsigned char byte;
typedef __SIZE_TYPE__ size;

/* The number of words, whose records go to `cells`; 0 where a word was not found. */
size plain_loop(const byte *labels, const byte *targets, size dead, const byte *text, size length, size *cells)
{
    size words = 0;
    for (size at = 0; at < length; words++) {
        size state = 0, best = at, label = 0;
        for (size i = at; i < length;) {
            state = targets[state * 256 + text[i]];
            if (state == dead)
                break;
            i += 1;
            size l = labels[state];
            if (l != 0) {
                best = i;
                label = l;
            }
        }
        if (label == 0)
            return 0;
        cells[3 * words] = at;
        cells[3 * words + 1] = best - at;
        cells[3 * words + 2] = label - 1;
        at = best;
    }
    return words;
}
