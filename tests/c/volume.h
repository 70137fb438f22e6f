/*
 * A volume to test with: a block, at depth 1 that of 01's cases, and the
 * buffers of its tree, which is coded with the house table. Its block is as long as
 * the depth has room for, and it is plain, where nobody says otherwise before it is
 * coded.
 */
#ifndef VOLUME_H
#define VOLUME_H

#include "cedunmi.h"

struct volume {
    uint64_t depth, kind;
    uint8_t table[CMT_HOUSE_TABLE_BYTES(CMT_DEPTH_MAX)];
    uint8_t block[CMT_BLOCK_BYTES(CMT_DEPTH_MAX)];
    size_t block_len;
    uint8_t tree[CMT_TREE_BYTES(CMT_DEPTH_MAX)];
    uint8_t marks[CMT_MARKS_BYTES(CMT_DEPTH_MAX)];
    uint8_t record[CMT_RECORD_BYTES];
    uint8_t output[CMT_OUTPUT_BYTES(CMT_DEPTH_MAX)];
};

/* A word of a table, or of a record's or a proof's head, at this place among its words. */
static inline void put_word(uint8_t *words, size_t at, size_t kind, size_t value)
{
    const size_t word = kind << 30 | value;
    for (size_t i = 0; i < 4; i++) {
        words[4 * at + i] = word >> (24 - 8 * i) & 0xff;
    }
}

CMT_CHECKED
static inline uint64_t volume_house_table(struct volume *v)
{
    return cmt_house_table(v->depth, v->table, CMT_HOUSE_TABLE_BYTES(v->depth));
}

/* The block and the table: each page of the block is one byte throughout. */
CMT_CHECKED
static inline uint64_t volume_begin(struct volume *v, uint64_t depth)
{
    static const uint8_t bytes[8] = {1, 2, 4, 8, 16, 32, 64, 128};
    v->depth = depth;
    v->kind = CMT_KIND_PLAIN;
    v->block_len = CMT_BLOCK_BYTES(depth);
    for (size_t i = 0; i < CMT_BLOCK_BYTES(depth); i++) {
        v->block[i] = bytes[i / 256 % 8];
    }
    return volume_house_table(v);
}

/* The hash that the root has for a symbol of layer 0. */
static inline uint8_t *volume_root_hash(struct volume *v, size_t number)
{
    return v->record + CMT_RECORD_HEAD_BYTES + 32 * number;
}

/* Has the record name this table. */
CMT_CHECKED
static inline uint64_t record_name(uint8_t *record, const uint8_t *table, size_t table_len)
{
    put_word(record, 2, 3, table_len / 4);
    return cmt_sha256(table, table_len, record + 12, CMT_SHA256_DIGEST_BYTES);
}

/* Changes the table's last equation, or changes it back, and has the record name it: the member 2 is 1. By
 * that table the tree of the house table has a fault in its base. */
CMT_CHECKED
static inline uint64_t volume_change_table(struct volume *v)
{
    v->table[CMT_HOUSE_TABLE_BYTES(v->depth) - 4 * 5 + 3] ^= 3;
    return record_name(v->record, v->table, CMT_HOUSE_TABLE_BYTES(v->depth));
}

CMT_CHECKED
static inline uint64_t volume_write(struct volume *v)
{
    return cmt_tree_write(v->depth, v->kind, v->table, CMT_HOUSE_TABLE_BYTES(v->depth), v->block,
                          v->block_len, v->tree, CMT_TREE_BYTES(v->depth), v->marks,
                          CMT_MARKS_BYTES(v->depth), v->record, sizeof v->record);
}

/* Reads the block back, over the one that is there. */
CMT_CHECKED
static inline uint64_t volume_read(struct volume *v)
{
    return cmt_block_read(v->depth, v->record, sizeof v->record, v->tree, CMT_TREE_BYTES(v->depth), v->marks,
                          CMT_MARKS_BYTES(v->depth), v->block, CMT_BLOCK_BYTES(v->depth));
}

CMT_CHECKED
static inline uint64_t volume_repair(struct volume *v)
{
    return cmt_repair(v->depth, v->record, sizeof v->record, v->table, CMT_HOUSE_TABLE_BYTES(v->depth),
                      v->tree, CMT_TREE_BYTES(v->depth), v->marks, CMT_MARKS_BYTES(v->depth),
                      v->output, CMT_OUTPUT_BYTES(v->depth));
}

/* Recodes a volume into the tree, the marks and the record of another. */
CMT_CHECKED
static inline uint64_t volume_recode(const struct volume *v, struct volume *other)
{
    return cmt_recode(v->depth, v->record, sizeof v->record, v->table, CMT_HOUSE_TABLE_BYTES(v->depth), v->tree,
                      CMT_TREE_BYTES(v->depth), v->marks, CMT_MARKS_BYTES(v->depth), other->tree,
                      CMT_TREE_BYTES(v->depth), other->marks, CMT_MARKS_BYTES(v->depth), other->record,
                      sizeof other->record);
}

/* Checks the first bytes of the output as a proof. */
CMT_CHECKED
static inline uint64_t volume_check(const struct volume *v, size_t proof_len)
{
    return cmt_proof_check(v->depth, v->record, sizeof v->record, v->table,
                           CMT_HOUSE_TABLE_BYTES(v->depth), v->output, proof_len);
}

#endif
