/*
 * Tables that leave a data page in fewer than two equations of its layer, lent to
 * the four calls that take a table: each stops with 10 and its two values, after 3
 * and before all that follows 3, and leaves every buffer as it was. And the longest
 * tables that there are, which are taken.
 */
#include "parts.h"
#include "volume.h"

#include <string.h>

static struct volume volume, before, recoded;

/* The result of a call that stops with 10. */
static uint64_t uncovered(uint64_t layer, uint64_t page)
{
    return CMT_UNCOVERED + 256 * (layer + 16777216 * page);
}

/* An equation's two data members in the house table, each the low two bytes of a word. */
static uint8_t *data_members(uint64_t layer, size_t equation)
{
    size_t word = 60 * (((size_t)1 << layer) - 1) + (equation == 0 ? 2 : 5 * equation + 1);
    return volume.table + 4 * word + 2;
}

static unsigned member(const uint8_t *at)
{
    return at[0] * 256u + at[1];
}

static void put_member(uint8_t *at, unsigned page)
{
    at[0] = (uint8_t)(page >> 8);
    at[1] = (uint8_t)page;
}

/* Leaves a page in so many equations, its first ones: in the others data page 0, 1 or 2 stands for it. */
static void leave(uint64_t layer, unsigned page, size_t kept)
{
    size_t met = 0;
    for (size_t equation = 0; equation < (size_t)12 << layer; equation++) {
        uint8_t *first = data_members(layer, equation), *second = first + 4;
        if ((member(first) != page && member(second) != page) || met++ < kept) {
            continue;
        }
        unsigned other = member(first) == page ? member(second) : member(first), another = 0;
        while (another == page || another == other) {
            another++;
        }
        put_member(first, another < other ? another : other);
        put_member(second, another < other ? other : another);
    }
}

static uint64_t table_check(void)
{
    return cmt_table_check(volume.depth, volume.table, CMT_HOUSE_TABLE_BYTES(volume.depth));
}

/* A page in two equations is enough; in one, or in none, it is not: in each layer at every depth. */
static int two_are_needed(void)
{
    int right = 1;
    for (uint64_t depth = 1; depth <= CMT_DEPTH_MAX; depth++) {
        for (uint64_t layer = 0; layer < depth; layer++) {
            const unsigned last = (4u << layer) - 1, pages[] = {0, 1, 2, last / 2, last};
            for (size_t i = 0; i < 3 * sizeof pages / sizeof *pages; i++) {
                size_t kept = i % 3;
                right &= volume_begin(&volume, depth) == CMT_DONE && table_check() == CMT_DONE;
                leave(layer, pages[i / 3], kept);
                right &= table_check() == (kept < 2 ? uncovered(layer, pages[i / 3]) : CMT_DONE);
            }
        }
    }
    return right;
}

/* Of several such pages the one in the first layer, and there the lowest, is named. */
static int first_is_named(void)
{
    int right = volume_begin(&volume, 4) == CMT_DONE;
    leave(3, 3, 0);
    right &= table_check() == uncovered(3, 3);
    leave(1, 7, 0);
    right &= table_check() == uncovered(1, 7);
    leave(1, 4, 1);
    right &= table_check() == uncovered(1, 4);
    leave(2, 3, 0);
    return right && table_check() == uncovered(1, 4);
}

/* Whether all five calls stop so, and change nothing. The proof is a head with no right kind. */
static int all_stop(uint64_t result)
{
    memcpy(&before, &volume, sizeof before);
    return table_check() == result && volume_write(&volume) == result &&
           volume_check(&volume, CMT_PROOF_HEAD_BYTES) == result && volume_repair(&volume) == result &&
           volume_recode(&volume, &recoded) == result && memcmp(&before, &volume, sizeof before) == 0;
}

/* A coded volume with a mark and a proof's head that are wrong too, and this page in one equation. */
static int lent(uint64_t depth, uint64_t layer, unsigned page)
{
    int written = volume_begin(&volume, depth) == CMT_DONE && volume_write(&volume) == CMT_DONE;
    volume.marks[0] = 2;
    memset(volume.output, 0x5a, sizeof volume.output);
    leave(layer, page, 1);
    return written;
}

/* 10 comes before 4 and before 6, and a repair that stops so has no end. */
static int every_call_stops(void)
{
    int right = 1;
    for (uint64_t depth = 1; depth <= CMT_DEPTH_MAX; depth++) {
        right &= lent(depth, depth - 1, 3) && all_stop(uncovered(depth - 1, 3));
    }
    uint64_t result = volume_repair(&volume);
    return right && cmt_number(result) == CMT_UNCOVERED && cmt_value(result) == CMT_DEPTH_MAX - 1 &&
           cmt_second_value(result) == 3 && cmt_repair_end(result) == CMT_NO_END && cmt_repair_stored(result) == 0;
}

/* A table that is not well-formed either is 3, at its first word and at its last; depth and length come before both. */
static int others_come_first(void)
{
    int right = lent(2, 0, 2);
    const size_t bytes = CMT_HOUSE_TABLE_BYTES(2), end = bytes / 4 - 1;
    volume.table[bytes - 1] ^= 1;
    right &= all_stop(CMT_WRONG_TABLE + 256 * end);
    volume.table[0] ^= 0x80;
    right &= all_stop(CMT_WRONG_TABLE);
    right &= lent(2, 1, 2) && cmt_table_check(2, volume.table, bytes - 1) == CMT_WRONG_LENGTH;
    right &= volume_check(&volume, CMT_PROOF_HEAD_BYTES - 1) == CMT_WRONG_LENGTH;
    return right && cmt_table_check(0, volume.table, bytes) == CMT_WRONG_DEPTH &&
           cmt_repair(0, volume.record, sizeof volume.record, volume.table, bytes, volume.tree, sizeof volume.tree, volume.marks,
                      sizeof volume.marks, volume.output, sizeof volume.output) == CMT_WRONG_DEPTH;
}

/* The longest table of a depth, and room for one word more than a call takes. */
static uint8_t longest[CMT_TABLE_BYTES_MAX + 4];
static size_t words;

static void put_next(size_t kind, size_t value)
{
    put_word(longest, words++, kind, value);
}

/* Eight members: seven data pages, the next equation the next seven, and its own; in layer 0 all four data pages, and
 * up to three of the parity before its own. */
static void put_equation(size_t k, size_t equation)
{
    const size_t parity = equation < 3 ? equation : 3, from = 7 * equation % k, past = from + 7;
    put_next(2, equation);
    for (size_t page = 0; page < k; page++) {
        if (k == 4 || (page >= from && page < past) || page + k < past) {
            put_next(0, page);
        }
    }
    for (size_t i = k == 4 ? parity : 0; i > 0; i--) {
        put_next(0, k + equation - i);
    }
    put_next(0, k + equation);
}

static void put_longest(uint64_t depth)
{
    words = 0;
    for (uint64_t layer = 0; layer < depth; layer++) {
        const size_t k = (size_t)4 << layer;
        put_next(1, (size_t)layer);
        for (size_t equation = 0; equation < 3 * k; equation++) {
            put_equation(k, equation);
        }
    }
    put_next(3, words);
}

/* Of each depth it has the words that docs/FORMAT.md says, codes a volume and repairs it. A word after its end is wrong,
 * and so it is when it is filled up to the longest that is read; one word more is a wrong length. */
static int longest_are_taken(void)
{
    int right = 1;
    for (uint64_t depth = 1; depth <= CMT_DEPTH_MAX; depth++) {
        const size_t tree = CMT_TREE_BYTES(depth), marks = CMT_MARKS_BYTES(depth);
        memset(longest, 0, sizeof longest);
        put_longest(depth);
        right &= words == 108 * (((size_t)1 << depth) - 1) + depth - 5;
        right &= volume_begin(&volume, depth) == CMT_DONE && cmt_table_check(depth, longest, 4 * words) == CMT_DONE &&
                 cmt_tree_write(depth, volume.kind, longest, 4 * words, volume.block, CMT_BLOCK_BYTES(depth), volume.tree, tree,
                                volume.marks, marks, volume.record, sizeof volume.record) == CMT_DONE;
        memcpy(&before, &volume, sizeof before);
        volume.marks[marks - 1] = 0;
        volume.tree[0] ^= 1;
        uint64_t result = cmt_repair(depth, volume.record, sizeof volume.record, longest, 4 * words, volume.tree, tree,
                                     volume.marks, marks, volume.output, CMT_OUTPUT_BYTES(depth));
        right &= cmt_number(result) == CMT_DONE && cmt_repair_end(result) == CMT_WHOLE && cmt_repair_stored(result) == 2 &&
                 memcmp(&before, &volume, sizeof before) == 0;
        right &= cmt_table_check(depth, longest, 4 * words + 4) == CMT_WRONG_TABLE + 256 * words;
        right &= cmt_table_check(depth, longest, CMT_TABLE_BYTES_MAX) == CMT_WRONG_TABLE + 256 * words;
        right &= cmt_table_check(depth, longest, CMT_TABLE_BYTES_MAX + 4) == CMT_WRONG_LENGTH;
    }
    return right && 4 * words == 220768;
}

int main(void)
{
    static const struct part parts[] = {
        {"how many equations are needed", two_are_needed},
        {"the page that is named", first_is_named},
        {"the calls that take a table", every_call_stops},
        {"the tests that come first", others_come_first},
        {"the longest tables", longest_are_taken},
    };
    return run_parts("coverage", parts, sizeof parts / sizeof *parts);
}
