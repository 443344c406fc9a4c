/* chickvessel_text.h: a question as a text, read into lists, or answered as a text: what the program explain
 * does, for C and C++. chickvessel.h says what schedules, tables, trees and refusals are. Each of the two
 * calls is in an archive of its own (libexplain_text_c.a, libreading_c.a), which needs no other; all that
 * chickvessel.h says of archives and pointers holds here too.
 *
 * TEXT      Lines in this order, each ended by a newline, and nothing behind them:
 *             prefix=1,4          letters with commas between them, 0 to 4294967295; may be empty
 *             loop=4,2            likewise
 *             entry=5,1,0         kind,left,right, each 0 to 255; such a line for each entry, from 0
 *             ask=2,0             entry,position, each 0 to 65535
 *           Numbers are decimal without leading zeros; 0 itself is 0. There are no spaces, no empty lines and
 *           no comments.
 *
 * REFUSED   14, a text of more than 8192 bytes, whatever is in it; then 13, with the first line that is
 *           wrong, from 1. A missing line is wrong where it should stand; so are a last line without its
 *           newline and whatever stands behind the line of ask. A text that is read can still be refused by a
 *           call. */
#ifndef CHICKVESSEL_TEXT_H
#define CHICKVESSEL_TEXT_H

#include "chickvessel.h"

#define CHICKVESSEL_MAX_TEXT 8192     /* bytes of a text */
#define CHICKVESSEL_READ_LETTERS 49   /* room for a list of letters: one more than a question may have */
#define CHICKVESSEL_READ_ENTRIES 33   /* room for the entries: one more than a table may have */
#define CHICKVESSEL_MAX_OUTPUT 77845  /* bytes of an output */

#ifdef __cplusplus
extern "C" {
#endif

/* What was read. A refusal has 0 in every field but number and line. */
typedef struct {
    uint32_t number;   /* 0, or refusal 13 or 14 */
    uint32_t line;     /* of refusal 13, from 1; else 0 */
    size_t prefix_len; /* how many letters of the prefix stand in its buffer, at most 49 */
    size_t loop_len;   /* of the loop, at most 49 */
    size_t table_len;  /* how many entries, at most 33 */
    size_t entry;      /* what is asked */
    size_t position;
} chickvessel_reading;

/* chickvessel_read_text: the lists and the question of a text.
 * Read:    text, text_len bytes. A null pointer with length 0 is a text of no bytes, refused with 13, line 1.
 * Lent:    room for the letters of the prefix, those of the loop, and the entries. The three buffers must not
 *          overlap each other, nor the text; nothing is promised if they do.
 *                   number  line   the others     buffers
 *          success  0       0      what was read  each list at the front, rest as found
 *          13       13      K      0              as found
 *          14       14      0      0              as found
 * Cut:     of a list with more letters or entries than there is room for, the first 49 or 33 are there. That
 *          is more than a question may have, so every call refuses what is there, with 2 or 3 or what comes
 *          before, as it would refuse the whole.
 * Keeps no pointer, allocates nothing, has no state, calls nothing but memcpy and memset. */
chickvessel_reading chickvessel_read_text(const uint8_t *text, size_t text_len,
                                          uint32_t prefix[CHICKVESSEL_READ_LETTERS],
                                          uint32_t loop[CHICKVESSEL_READ_LETTERS],
                                          uint32_t table[CHICKVESSEL_READ_ENTRIES]);

/* chickvessel_explain: the answer to a text, as a text; what the program explain prints. It answers how many
 * bytes at the front of out are that output.
 * Read:    text, as above.
 * Lent:    work and tree as for chickvessel_write, of fixed lengths here, and out, room for the output. They
 *          must not overlap each other, nor the text; nothing is promised if they do.
 *                   out                                            work, tree
 *          success  verdict=holds or verdict=violated, size=N,     as chickvessel_write leaves them
 *                   then node=rule,atom,number for each word
 *          1 to 7,  refused=N                                      as chickvessel_write leaves them
 *          11
 *          13       refused=13, then line=K                        as found
 *          14       refused=14                                     as found
 *          Every line ends with a newline, and the rest of out is as found.
 * Keeps no pointer, allocates nothing, has no state, calls nothing but memcpy and memset. Fits in 16 KiB of
 * stack. */
size_t chickvessel_explain(const uint8_t *text, size_t text_len,
                           uint16_t work[CHICKVESSEL_MIN_WORK],
                           uint32_t tree[CHICKVESSEL_MAX_TREE],
                           uint8_t out[CHICKVESSEL_MAX_OUTPUT]);

#ifdef __cplusplus
}
#endif

#endif
