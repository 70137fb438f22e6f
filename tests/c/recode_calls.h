/*
 * The writer, the recoder and the calls that hash pages, as functions that others can stand in for; and wrong ones, each
 * of which tests/c/recode.c must find.
 */
#ifndef RECODE_CALLS_H
#define RECODE_CALLS_H

#include "volume.h"

#include <string.h>

#define READ(name) const uint8_t *name, size_t name##_len
#define WRITTEN(name) uint8_t *name, size_t name##_len
#define LENT(name) name, name##_len

#define WRITE_WORDS uint64_t depth, uint64_t kind, READ(table), READ(block), WRITTEN(tree), WRITTEN(marks), WRITTEN(record)
#define RECODE_WORDS                                                                                                   \
    uint64_t depth, READ(record), READ(table), READ(tree), READ(marks), WRITTEN(new_tree), WRITTEN(new_marks),         \
        WRITTEN(new_record)
#define SAMPLE_WORDS uint64_t depth, uint64_t number, READ(record), READ(sample)

#define WRITE depth, kind, LENT(table), LENT(block), LENT(tree), LENT(marks), LENT(record)
#define RECODE                                                                                                         \
    depth, LENT(record), LENT(table), LENT(tree), LENT(marks), LENT(new_tree), LENT(new_marks), LENT(new_record)
#define SAMPLE depth, number, LENT(record), LENT(sample)

struct calls {
    uint64_t (*write)(WRITE_WORDS);
    uint64_t (*recode)(RECODE_WORDS);
    uint64_t (*sample)(SAMPLE_WORDS);
};

static const struct calls library = {cmt_tree_write, cmt_recode, cmt_sample_check};

/* A kind of which the lowest 32 bits, or the lowest alone, are looked at. */
static uint64_t writes_32_bits(WRITE_WORDS)
{
    kind = (uint32_t)kind;
    return cmt_tree_write(WRITE);
}

static uint64_t writes_1_bit(WRITE_WORDS)
{
    kind %= 2;
    return cmt_tree_write(WRITE);
}

/* 3 comes before 11. */
static uint64_t writes_by_the_table_first(WRITE_WORDS)
{
    uint64_t result = cmt_tree_write(WRITE), table_result = cmt_table_check(depth, table, table_len);
    return result == CMT_WRONG_RECORD && table_result != CMT_DONE ? table_result : result;
}

/* The other kind. */
static uint64_t writes_the_other(WRITE_WORDS)
{
    kind = kind < 2 ? 1 - kind : kind;
    return cmt_tree_write(WRITE);
}

/* Copies of what a recoder reads. */
static struct copies {
    uint8_t tree[CMT_TREE_BYTES(CMT_DEPTH_MAX)], marks[CMT_MARKS_BYTES(CMT_DEPTH_MAX)];
    uint8_t output[CMT_OUTPUT_BYTES(CMT_DEPTH_MAX)], block[CMT_BLOCK_BYTES(CMT_DEPTH_MAX)];
} copies;

/* What a repair of copies gives. */
static uint64_t repairs_copies(RECODE_WORDS)
{
    (void)new_tree, (void)new_tree_len, (void)new_marks, (void)new_marks_len, (void)new_record, (void)new_record_len;
    memcpy(copies.tree, tree, tree_len);
    memcpy(copies.marks, marks, marks_len);
    return cmt_repair(depth, LENT(record), LENT(table), copies.tree, tree_len, copies.marks, marks_len, copies.output,
                      CMT_OUTPUT_BYTES(depth));
}

/* Whatever the tree is, its block is read and coded as a volume of the other kind. */
static uint64_t recodes_anything(RECODE_WORDS)
{
    uint64_t result = cmt_recode(RECODE);
    if (result != CMT_NOT_WHOLE ||
        cmt_block_read(depth, LENT(record), LENT(tree), LENT(marks), copies.block, CMT_BLOCK_BYTES(depth)) != CMT_DONE) {
        return result;
    }
    return cmt_tree_write(depth, 1 - cmt_record_kind(record), LENT(table), copies.block, (size_t)cmt_record_length(record),
                          LENT(new_tree), LENT(new_marks), LENT(new_record));
}

/* The same, where a repair of the tree ends whole, or misfilled with nothing stored, or finds a fault. */
static uint64_t recodes_repaired(RECODE_WORDS)
{
    uint64_t result = cmt_recode(RECODE);
    if (result == CMT_NOT_WHOLE && cmt_repair_end(repairs_copies(RECODE)) == CMT_WHOLE) {
        tree = copies.tree, marks = copies.marks;
        return cmt_recode(RECODE);
    }
    return result;
}

static uint64_t recodes_misfilled(RECODE_WORDS)
{
    uint64_t result = cmt_recode(RECODE);
    return result == CMT_NOT_WHOLE && repairs_copies(RECODE) == 256 * CMT_MISFILLED ? recodes_anything(RECODE) : result;
}

static uint64_t recodes_faults(RECODE_WORDS)
{
    uint64_t result = cmt_recode(RECODE);
    const int fault = result == CMT_NOT_WHOLE && cmt_repair_end(repairs_copies(RECODE)) == CMT_FAULT;
    return fault ? recodes_anything(RECODE) : result;
}

/* Where the tree is not whole, what would be written is. */
static uint64_t recodes_too_soon(RECODE_WORDS)
{
    uint64_t result = cmt_recode(RECODE);
    return result == CMT_NOT_WHOLE && recodes_anything(RECODE) == CMT_DONE ? (uint64_t)CMT_NOT_WHOLE : result;
}

/* The record keeps its kind; or the whole volume does. */
static uint64_t recodes_with_the_old_kind(RECODE_WORDS)
{
    uint64_t result = cmt_recode(RECODE);
    if (result == CMT_DONE) {
        new_record[0] ^= 0x40;
    }
    return result;
}

static uint64_t recodes_to_itself(RECODE_WORDS)
{
    uint64_t result = cmt_recode(RECODE);
    if (result == CMT_DONE) {
        memcpy(new_tree, tree, tree_len);
        memcpy(new_record, record, record_len);
    }
    return result;
}

/* The record has the longest block's length. */
static uint64_t recodes_the_longest(RECODE_WORDS)
{
    uint64_t result = cmt_recode(RECODE);
    if (result == CMT_DONE) {
        put_word(new_record, 1, 2, CMT_BLOCK_BYTES(depth));
    }
    return result;
}

/* The source is left as it comes out. */
static uint64_t recodes_the_source(RECODE_WORDS)
{
    uint64_t result = cmt_recode(RECODE);
    if (result == CMT_DONE) {
        memcpy((uint8_t *)tree, new_tree, tree_len);
    }
    return result;
}

/* 14 comes before 4. */
static uint64_t recodes_by_the_tree_first(RECODE_WORDS)
{
    uint64_t result = cmt_recode(RECODE);
    return cmt_number(result) == CMT_WRONG_MARK ? (uint64_t)CMT_NOT_WHOLE : result;
}

/* A sample is checked by the kind that fits it. */
static uint64_t samples_of_either_kind(SAMPLE_WORDS)
{
    uint8_t other[CMT_RECORD_BYTES];
    uint64_t result = cmt_sample_check(SAMPLE);
    if (cmt_number(result) == CMT_WRONG_HASH) {
        memcpy(other, record, sizeof other);
        other[0] ^= 0x40;
        record = other;
        result = cmt_sample_check(SAMPLE) == CMT_DONE ? (uint64_t)CMT_DONE : result;
    }
    return result;
}

#endif
