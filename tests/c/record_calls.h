/*
 * The calls that write or take a record, as functions that others can stand in for; and wrong ones, each of which
 * tests/c/record.c must find.
 */
#ifndef RECORD_CALLS_H
#define RECORD_CALLS_H

#include "volume.h"

#include <string.h>

#define READ(name) const uint8_t *name, size_t name##_len
#define WRITTEN(name) uint8_t *name, size_t name##_len
#define LENT(name) name, name##_len

#define WRITE_WORDS uint64_t depth, uint64_t kind, READ(table), READ(block), WRITTEN(tree), WRITTEN(marks), WRITTEN(record)
#define READ_WORDS uint64_t depth, READ(record), READ(tree), READ(marks), WRITTEN(block)
#define SAMPLE_WORDS uint64_t depth, uint64_t number, READ(record), READ(sample)
#define PROOF_WORDS uint64_t depth, READ(record), READ(table), READ(proof)
#define REPAIR_WORDS uint64_t depth, READ(record), READ(table), WRITTEN(tree), WRITTEN(marks), WRITTEN(output)

#define WRITE depth, kind, LENT(table), LENT(block), LENT(tree), LENT(marks), LENT(record)
#define READ_BACK depth, LENT(record), LENT(tree), LENT(marks), LENT(block)
#define SAMPLE depth, number, LENT(record), LENT(sample)
#define PROOF depth, LENT(record), LENT(table), LENT(proof)
#define REPAIR depth, LENT(record), LENT(table), LENT(tree), LENT(marks), LENT(output)

struct calls {
    uint64_t (*write)(WRITE_WORDS);
    uint64_t (*read)(READ_WORDS);
    uint64_t (*sample)(SAMPLE_WORDS);
    uint64_t (*proof)(PROOF_WORDS);
    uint64_t (*repair)(REPAIR_WORDS);
};

static const struct calls library = {cmt_tree_write, cmt_block_read, cmt_sample_check, cmt_proof_check, cmt_repair};

/* The record of a call that is done is of the other kind. */
static uint64_t writes_the_other_kind(WRITE_WORDS)
{
    uint64_t result = cmt_tree_write(WRITE);
    if (result == CMT_DONE) {
        record[0] ^= 0x40;
    }
    return result;
}

/* The table's hash in it covers a place, as a page's does. */
static uint64_t writes_a_place_before_the_table(WRITE_WORDS)
{
    static uint8_t placed[CMT_PLACE_BYTES + CMT_TABLE_BYTES_MAX] = {0x40};
    uint64_t result = cmt_tree_write(WRITE);
    if (result == CMT_DONE && kind == CMT_KIND_PLACED) {
        memcpy(placed + CMT_PLACE_BYTES, table, table_len);
        result = cmt_sha256(placed, CMT_PLACE_BYTES + table_len, record + 12, CMT_SHA256_DIGEST_BYTES);
    }
    return result;
}

/* The record of a call that is done has the longest block's length. */
static uint64_t writes_no_length(WRITE_WORDS)
{
    uint64_t result = cmt_tree_write(WRITE);
    if (result == CMT_DONE) {
        put_word(record, 1, 2, CMT_BLOCK_BYTES(depth));
    }
    return result;
}

/* The table without its end word. */
static uint64_t writes_no_end_word(WRITE_WORDS)
{
    uint64_t result = cmt_tree_write(WRITE);
    return result == CMT_DONE ? record_name(record, table, table_len - 4) : result;
}

/* What stands after the block fills it up. */
static uint64_t writes_what_follows(WRITE_WORDS)
{
    const size_t len = block_len;
    if (depth < 1 || depth > CMT_DEPTH_MAX || block_len > CMT_BLOCK_BYTES(depth)) {
        return cmt_tree_write(WRITE);
    }
    block_len = CMT_BLOCK_BYTES(depth);
    uint64_t result = cmt_tree_write(WRITE);
    put_word(record, 1, 2, len);
    return result;
}

/* The rest of the block is made zero. */
static uint64_t reads_zeros(READ_WORDS)
{
    uint64_t result = cmt_block_read(READ_BACK);
    if (result == CMT_DONE) {
        memset(block + cmt_record_length(record), 0, block_len - cmt_record_length(record));
    }
    return result;
}

/* The whole block is read. */
static uint64_t reads_all(READ_WORDS)
{
    uint8_t longest[CMT_RECORD_BYTES];
    if (record_len != sizeof longest || cmt_record_depth(record) != depth) {
        return cmt_block_read(READ_BACK);
    }
    memcpy(longest, record, sizeof longest);
    put_word(longest, 1, 2, CMT_BLOCK_BYTES(depth));
    record = longest;
    return cmt_block_read(READ_BACK);
}

/* Pages that the length does not reach need not be held. */
static uint64_t reads_without_filling(READ_WORDS)
{
    static uint8_t held[CMT_MARKS_BYTES(CMT_DEPTH_MAX)];
    if (record_len != CMT_RECORD_BYTES || cmt_record_depth(record) != depth || marks_len != CMT_MARKS_BYTES(depth)) {
        return cmt_block_read(READ_BACK);
    }
    memcpy(held, marks, marks_len);
    const size_t base = CMT_MARKS_BYTES(depth - 1), data = CMT_BLOCK_BYTES(depth) / 256;
    for (size_t page = (cmt_record_length(record) + 255) / 256; page < data; page++) {
        held[base + page] |= 1;
    }
    marks = held;
    return cmt_block_read(READ_BACK);
}

/* A record of another depth is taken. */
static uint64_t samples_of_any_depth(SAMPLE_WORDS)
{
    uint8_t own[CMT_RECORD_BYTES];
    if (record_len == sizeof own && depth >= 1 && depth <= CMT_DEPTH_MAX) {
        memcpy(own, record, sizeof own);
        put_word(own, 0, (size_t)cmt_record_kind(own), (size_t)depth);
        record = own;
    }
    return cmt_sample_check(SAMPLE);
}

/* A record with any number of words, or with any hash of the table, is taken. */
static uint64_t proves_by(int count, PROOF_WORDS)
{
    uint8_t own[CMT_RECORD_BYTES], named[CMT_RECORD_BYTES];
    if (record_len == sizeof own && record_name(named, table, table_len) == CMT_DONE) {
        memcpy(own, record, sizeof own);
        const size_t from = count ? 8 : 12, len = count ? 4 : CMT_SHA256_DIGEST_BYTES;
        if (own[8] >= 0xc0) {
            memcpy(own + from, named + from, len);
        }
        record = own;
    }
    return cmt_proof_check(PROOF);
}

static uint64_t proves_by_any_count(PROOF_WORDS)
{
    return proves_by(1, PROOF);
}

static uint64_t proves_by_any_hash(PROOF_WORDS)
{
    return proves_by(0, PROOF);
}

/* Whether a record names another table. */
static int other_table(const uint8_t *record, READ(table))
{
    uint8_t named[CMT_RECORD_BYTES];
    return record_name(named, table, table_len) != CMT_DONE || memcmp(named + 8, record + 8, 36) != 0;
}

/* 12 comes before 3. */
static uint64_t proves_by_the_hash_first(PROOF_WORDS)
{
    uint64_t result = cmt_proof_check(PROOF), number = cmt_number(result);
    return (number == CMT_WRONG_TABLE || number == CMT_UNCOVERED) && other_table(record, LENT(table)) ? CMT_OTHER_TABLE
                                                                                                    : result;
}

/* 11 comes after 3. */
static uint64_t repairs_by_the_table_first(REPAIR_WORDS)
{
    uint64_t result = cmt_repair(REPAIR), table_result = cmt_table_check(depth, table, table_len);
    return result == CMT_WRONG_RECORD && table_result != CMT_DONE ? table_result : result;
}

/* 12 comes after 4. */
static uint64_t repairs_by_the_marks_first(REPAIR_WORDS)
{
    uint64_t result = cmt_repair(REPAIR);
    return result == CMT_OTHER_TABLE && marks[0] > 1 ? CMT_WRONG_MARK : result;
}

/* The filling is not looked at. */
static uint64_t repairs_any_filling(REPAIR_WORDS)
{
    uint64_t result = cmt_repair(REPAIR);
    return cmt_repair_end(result) == CMT_MISFILLED ? result - 256 * CMT_MISFILLED : result;
}

/* A repair that ended whole or misfilled ends misfilled where the base's data has such a byte from here to there. */
static uint64_t repairs_by_bytes(size_t from, size_t past, REPAIR_WORDS)
{
    uint64_t result = cmt_repair(REPAIR), end = cmt_repair_end(result);
    if (end != CMT_WHOLE && end != CMT_MISFILLED) {
        return result;
    }
    result -= 256 * end;
    for (size_t i = from; i < past; i++) {
        if (tree[CMT_TREE_BYTES(depth - 1) + i] != 0) {
            return result + 256 * CMT_MISFILLED;
        }
    }
    return result;
}

/* The filling is looked at from the next page on; without its last byte; and the first parity page with it. */
static uint64_t repairs_filling_pages(REPAIR_WORDS)
{
    const size_t from = ((size_t)cmt_record_length(record) + 255) / 256 * 256;
    return repairs_by_bytes(from, CMT_BLOCK_BYTES(depth), REPAIR);
}

static uint64_t repairs_but_the_last(REPAIR_WORDS)
{
    return repairs_by_bytes((size_t)cmt_record_length(record), CMT_BLOCK_BYTES(depth) - 1, REPAIR);
}

static uint64_t repairs_with_parity(REPAIR_WORDS)
{
    return repairs_by_bytes((size_t)cmt_record_length(record), CMT_BLOCK_BYTES(depth) + 256, REPAIR);
}

/* A misfilled volume is not filled in. */
static uint64_t repairs_nothing(REPAIR_WORDS)
{
    static uint8_t tree_before[CMT_TREE_BYTES(CMT_DEPTH_MAX)];
    memcpy(tree_before, tree, tree_len);
    uint64_t result = cmt_repair(REPAIR);
    if (cmt_repair_end(result) == CMT_MISFILLED) {
        memcpy(tree, tree_before, tree_len);
    }
    return result;
}

/* A root without its head is taken as a record, of the longest block. */
static uint64_t takes_roots(REPAIR_WORDS)
{
    uint8_t headed[CMT_RECORD_BYTES];
    if (record_len == CMT_ROOT_BYTES && depth >= 1 && depth <= CMT_DEPTH_MAX) {
        put_word(headed, 0, 1, (size_t)depth);
        put_word(headed, 1, 2, CMT_BLOCK_BYTES(depth));
        memcpy(headed + CMT_RECORD_HEAD_BYTES, record, CMT_ROOT_BYTES);
        record = headed;
        record_len = record_name(headed, table, table_len) == CMT_DONE ? sizeof headed : 0;
    }
    return cmt_repair(REPAIR);
}

#endif
