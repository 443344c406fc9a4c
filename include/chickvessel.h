/* chickvessel.h: rules over schedules, and the trees that prove their verdicts. For C and C++; no other page
 * is needed to call it.
 *
 * SCHEDULE  Letters without end, from two lists: the prefix once, then the loop for ever. With u letters in
 *           the prefix and v in the loop, the letter at position i is prefix[i] if i < u, else
 *           loop[(i - u) % v]. Positions run from 0. Atom a, 0 to 31, holds in a letter if bit a of it
 *           is set.
 *
 * TABLE     A list of entries. An entry is the word kind * 65536 + left * 256 + right.
 *             kind       left            right           holds at i if
 *             0  atom    atom, 0 to 31   0               the atom holds in the letter at i
 *             1  not     earlier entry   0               left does not hold at i
 *             2  or      earlier entry   earlier entry   left or right holds at i, or both
 *             3  and     earlier entry   earlier entry   left and right hold at i
 *             4  since   earlier entry   earlier entry   right holds at some j <= i,
 *                                                        and left at every k with j < k <= i
 *             5  until   earlier entry   earlier entry   right holds at some j >= i,
 *                                                        and left at every k with i <= k < j
 *           An earlier entry has a smaller index; left and right may be the same one. Where an entry does not
 *           hold it is violated. An entry's past height is the greatest past height of its parts, plus 1 for
 *           since; its future height is the greatest future height of its parts, plus 1 for until; an atom
 *           has 0 and 0.
 *
 * TREE      A list of words, a word a node: the node, its fixed parts, then its list members by rising
 *           position, each with all that is below it. A word is rule * 16777216 + atom * 65536 + number. For
 *           rules 1 and 2 the atom is the entry's and the number is the position i; for 11 to 16 the number
 *           is the count n of list members; every other field is 0.
 *
 *           rule  proves at i     fixed parts                   list members                  count
 *            1    atom  holds     none: the letter's bit set    none
 *            2    atom  violated  none: the letter's bit clear  none
 *            3    not   holds     left violated at i            none
 *            4    not   violated  left holds at i               none
 *            5    or    holds     left holds at i               none
 *            6    or    holds     right holds at i              none
 *            7    or    violated  left, then right, violated    none
 *            8    and   holds     left, then right, hold at i   none
 *            9    and   violated  left violated at i            none
 *           10    and   violated  right violated at i           none
 *           11    since holds     right holds at i - n          left holds at i-n+1 to i      0 <= n <= i
 *           12    since violated  left violated at i - n + 1    right violated at i-n+1 to i  1 <= n <= i + 1
 *           13    since violated  none                          right violated at 0 to i      n = i + 1
 *           14    until holds     right holds at i + n          left holds at i to i+n-1      0 <= n
 *           15    until violated  left violated at i + n - 1    right violated at i to i+n-1  1 <= n
 *           16    until violated  none                          right violated at i to m+v-1  n = m + v - i
 *
 *           where m is the larger of i and u + v * (past height of right). Every part is a tree of its own
 *           for its entry, position and verdict; chickvessel.hpp has a view that walks a tree and gives them
 *           for each word. Positions are exact: they may pass 255 and never wrap, so what a word cannot carry
 *           (an atom's position above 65535) is no tree.
 *
 * LEAST     An entry has exactly one verdict at a position, and trees for that verdict alone. The least of
 *           them is the one with the fewest words; of several with as few, the one with the smaller word at
 *           the first place where they differ. So the smaller rule and then the smaller count is taken at the
 *           root, whatever stands below it, and then in each part in turn. There is exactly one least tree;
 *           its size is the number of its words.
 *
 * ARCHIVES  are for Linux on x86-64 (ELF, System V calls); no other system can link them. They are
 *           position-independent, so they may become part of a shared library. A plug-in that links one
 *           exports the calls beside its own, where they may meet another plug-in's. To keep them out of its
 *           exports, link it with -Wl,--exclude-libs,ALL, or for this archive alone with
 *           -Wl,--exclude-libs,libchickvessel.a, or with a version script that names its own exports and
 *           has "local: *;" for the rest. */
#ifndef CHICKVESSEL_H
#define CHICKVESSEL_H

#include <stddef.h>
#include <stdint.h>

/* The version, and as one number: 102 is 0.1.2. */
#define CHICKVESSEL_VERSION_MAJOR 0
#define CHICKVESSEL_VERSION_MINOR 1
#define CHICKVESSEL_VERSION_PATCH 0
#define CHICKVESSEL_VERSION \
    (CHICKVESSEL_VERSION_MAJOR * 10000 + CHICKVESSEL_VERSION_MINOR * 100 + CHICKVESSEL_VERSION_PATCH)

/* The limits. */
#define CHICKVESSEL_MAX_LETTERS 48   /* in prefix and loop together */
#define CHICKVESSEL_MAX_ENTRIES 32   /* in a table */
#define CHICKVESSEL_MAX_HEIGHTS 5    /* an entry's past height plus its future height */
#define CHICKVESSEL_MAX_POSITION 255 /* the asked one */
#define CHICKVESSEL_MIN_WORK 16384   /* numbers in the work slice */
#define CHICKVESSEL_MAX_TREE 4095    /* words in a tree */

#ifdef __cplusplus
extern "C" {
#endif

/* The refusals. A call says which it gives, and gives the first that applies. 13 and 14 are of texts
 * (chickvessel_text.h), and no call here gives them. */
enum chickvessel_refusal {
    CHICKVESSEL_EMPTY_LOOP = 1,        /* the loop is empty */
    CHICKVESSEL_TOO_MANY_LETTERS = 2,  /* more than 48 letters */
    CHICKVESSEL_BAD_ENTRY_COUNT = 3,   /* no entry, or more than 32 */
    CHICKVESSEL_BAD_ENTRY = 4,         /* some entry breaks the kind table */
    CHICKVESSEL_TOO_HIGH = 5,          /* some entry's two heights add up to more than 5 */
    CHICKVESSEL_NO_SUCH_ENTRY = 6,     /* the asked entry is not in the table */
    CHICKVESSEL_POSITION_TOO_FAR = 7,  /* the asked position is above 255 */
    CHICKVESSEL_WORK_TOO_SHORT = 8,    /* the work slice is shorter than 16384 */
    CHICKVESSEL_NO_VALID_TREE = 9,     /* the words are no valid tree */
    CHICKVESSEL_TREE_TOO_LONG = 10,    /* the tree has more than 4095 words */
    CHICKVESSEL_LEAST_TOO_LARGE = 11,  /* the least tree has more than 4095 words */
    CHICKVESSEL_ROOM_TOO_SHORT = 12,   /* the tree buffer is shorter than the least tree */
    CHICKVESSEL_WRONG_LINE = 13,       /* a line of the text is wrong */
    CHICKVESSEL_TEXT_TOO_LONG = 14     /* the text is longer than 8192 bytes */
};

enum chickvessel_verdict {
    CHICKVESSEL_HOLDS = 1,
    CHICKVESSEL_VIOLATED = 2
};

/* The answer of every call. */
typedef struct {
    uint32_t number;  /* 0, or the refusal */
    uint32_t place;   /* of refusal 9; else 0 */
    uint32_t verdict; /* CHICKVESSEL_HOLDS or CHICKVESSEL_VIOLATED; 0 in a refusal */
    uint32_t size;    /* in words, from calls that find one; else 0 */
} chickvessel_answer;

/* EVERY CALL
 * Read:    prefix and loop, the letters; table, the entries: each list as far as its length (in elements, not
 *          bytes) and never written. Lists may overlap. entry is the index of the asked entry, position the
 *          asked position. Both are judged as the whole size_t: 4294967296 is refused, not taken for 0.
 * Pointers: aligned as their elements are, uint32_t to 4 bytes and uint16_t to 2, with as many elements as
 *          the length says. A null pointer with length 0 is an empty list, or an empty buffer; with any other
 *          length it is the caller's fault like any other wrong pointer: no call can test it, and nothing is
 *          promised.
 * Refused: in the order that the call names. Refusals 4 and 5 look at every entry, asked or not.
 * Heights: are worked out by following an entry's parts down: twice for every entry; in truth, find and write
 *          once more for each entry up to the asked one, and for the right side of each until; in check once
 *          more for each node of rule 16. On a table of 32 entries and(k - 1, k - 2) that is up to millions
 *          of steps each time: the dearest write found takes 0.2 s, the dearest check 10 s; on most tables
 *          next to nothing.
 * Keeps no pointer, allocates nothing, has no state, calls nothing but memcpy and memset: calls may run at
 *          once, on the same lists too, if each is lent buffers of its own. Fits in 16 KiB of stack.
 *
 * TRUTH, FIND AND WRITE are lent buffers.
 * Lent:    work, a slice of at least 16384 numbers, whatever they hold: no answer depends on it. For write
 *          also tree, room for the words; 4095 are always enough. The work slice and the tree buffer must not
 *          overlap each other, nor a list that is read; nothing is promised if they do. Each is given with
 *          its true length; numbers past it are neither read nor written.
 *                   number  place  verdict  size   work, first 16384  work, the rest  tree
 *          success  0       0      1 or 2   below  0                  as found        words, rest as found
 *          1 to 8   itself  0      0        0      as found           as found        as found
 *          11, 12   itself  0      0        0      0                  as found        as found
 * Time:    the work slice is filled once, a bounded number of steps for each of at most 496 positions of each
 *          entry up to the asked one, and cleared; so all three take about as long, whichever position is
 *          asked. write then takes time by the words of the tree. */

/* chickvessel_truth: the verdict of an entry at a position.
 * Refused: 1 2 3 4 5 6 7 8, in this order; never 11, for the verdict is there
 *          however large the least tree is.
 * Size:    0. */
chickvessel_answer chickvessel_truth(const uint32_t *prefix, size_t prefix_len,
                                     const uint32_t *loop, size_t loop_len,
                                     const uint32_t *table, size_t table_len,
                                     size_t entry, size_t position,
                                     uint16_t *work, size_t work_len);

/* chickvessel_find: the verdict of an entry at a position, and the size of the least tree that proves it.
 * Refused: 1 2 3 4 5 6 7 8 11, in this order. 11 gives no verdict; truth does.
 * Size:    of the least tree, 1 to 4095. */
chickvessel_answer chickvessel_find(const uint32_t *prefix, size_t prefix_len,
                                    const uint32_t *loop, size_t loop_len,
                                    const uint32_t *table, size_t table_len,
                                    size_t entry, size_t position,
                                    uint16_t *work, size_t work_len);

/* chickvessel_write: the verdict of an entry at a position, and the least tree that proves it.
 * Refused: 1 2 3 4 5 6 7 8 11 12, in this order. 11 and 12 give neither verdict nor size and write no word,
 *          not even the first; find gives the size that the tree buffer must have.
 * Size:    of the least tree, 1 to 4095: exactly so many words stand at the front of the tree buffer, and
 *          those past them are as found. chickvessel_check accepts them, for the same question, with the same
 *          verdict. */
chickvessel_answer chickvessel_write(const uint32_t *prefix, size_t prefix_len,
                                     const uint32_t *loop, size_t loop_len,
                                     const uint32_t *table, size_t table_len,
                                     size_t entry, size_t position,
                                     uint16_t *work, size_t work_len,
                                     uint32_t *tree, size_t tree_len);

/* chickvessel_check: whether the words of tree are a valid tree for an entry at a position, and which verdict
 * it proves. tree is a list that is read, like the others; no buffer is lent.
 * Refused: 1 2 3 4 5 6 7 10 9, in this order.
 *                     number  place  verdict               size
 *          valid      0       0      1 holds, 2 violated   0
 *          1 to 7     itself  0      0                     0
 *          10         10      0      0                     0
 *          9          9       below  0                     0
 * Place:   of refusal 9, an index into tree: of the first word, in tree order, that breaks a rule of its own
 *          node (its form, its kind, its verdict where a part needs one, its count, its position, the
 *          letter); tree_len if a word is missing; the first word left over if the tree ends before the list
 *          does. A count is not held against the words behind it: too large a count that is otherwise allowed
 *          shows where the words run out. An empty tree has place 0.
 * Verdict: the root's rule claims it. It is the true one: no valid tree proves a verdict that the entry does
 *          not have at the position.
 * Size:    0, also for a valid tree; its size is tree_len.
 * Time:    by the words of the tree, and heights: on most tables next to nothing, on the dearest seconds. */
chickvessel_answer chickvessel_check(const uint32_t *prefix, size_t prefix_len,
                                     const uint32_t *loop, size_t loop_len,
                                     const uint32_t *table, size_t table_len,
                                     size_t entry, size_t position,
                                     const uint32_t *tree, size_t tree_len);

#ifdef __cplusplus
}
#endif

#endif
