/*
 * Drops the result of every call. tests/run sees that the compiler warns of
 * each; nothing runs this.
 */
#include "volume.h"

void drop_all(struct volume *v, struct volume *other, uint8_t *sample)
{
    const size_t table = CMT_HOUSE_TABLE_BYTES(1), tree = CMT_TREE_BYTES(1), marks = CMT_MARKS_BYTES(1);
    cmt_sha256(v->block, 256, v->record, CMT_SHA256_DIGEST_BYTES);
    cmt_house_table(1, v->table, table);
    cmt_table_check(1, v->table, table);
    cmt_tree_write(1, CMT_KIND_PLAIN, v->table, table, v->block, CMT_BLOCK_BYTES(1), v->tree, tree, v->marks, marks,
                   v->record, CMT_RECORD_BYTES);
    cmt_block_read(1, v->record, CMT_RECORD_BYTES, v->tree, tree, v->marks, marks, v->block, CMT_BLOCK_BYTES(1));
    cmt_sample_take(1, 0, v->tree, tree, v->marks, marks, sample, CMT_SAMPLE_BYTES(1));
    cmt_sample_check(1, 0, v->record, CMT_RECORD_BYTES, sample, CMT_SAMPLE_BYTES(1));
    cmt_proof_check(1, v->record, CMT_RECORD_BYTES, v->table, table, v->output, CMT_PROOF_BYTES(0, 4));
    cmt_repair(1, v->record, CMT_RECORD_BYTES, v->table, table, v->tree, tree, v->marks, marks, v->output,
               CMT_OUTPUT_BYTES(1));
    cmt_recode(1, v->record, CMT_RECORD_BYTES, v->table, table, v->tree, tree, v->marks, marks, other->tree, tree,
               other->marks, marks, other->record, CMT_RECORD_BYTES);
}
