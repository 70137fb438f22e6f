/*
 * Writes the files of the example of docs/FORMAT.md into the current folder:
 * the volume of depth 2, a sample of its base symbol 17, and the record and the
 * fault proof of the same volume coded wrongly. And of a volume of depth 9 the
 * record, a sample of its last base symbol, and the fault proof by another table,
 * which the record names.
 */
#include "volume.h"

#include <stdio.h>

enum { DEPTH = 2, NUMBER = 17, TABLE = CMT_HOUSE_TABLE_BYTES(DEPTH), SECOND_MEMBER = 4 * (60 + 3) };

static struct volume volume;
static uint8_t sample[CMT_SAMPLE_BYTES(CMT_DEPTH_MAX)];

static int save(const char *name, const uint8_t *bytes, size_t len)
{
    FILE *file = fopen(name, "wb");
    if (file == NULL) {
        perror(name);
        return 0;
    }
    size_t written = fwrite(bytes, 1, len, file);
    return fclose(file) == 0 && written == len;
}

/* The volume as it should be, and the sample. */
static int save_right(void)
{
    return volume_begin(&volume, DEPTH) == CMT_DONE && volume_write(&volume) == CMT_DONE &&
           cmt_sample_take(DEPTH, NUMBER, volume.tree, CMT_TREE_BYTES(DEPTH), volume.marks,
                           CMT_MARKS_BYTES(DEPTH), sample, CMT_SAMPLE_BYTES(DEPTH)) == CMT_DONE &&
           save("block", volume.block, CMT_BLOCK_BYTES(DEPTH)) &&
           save("table", volume.table, TABLE) && save("record", volume.record, sizeof volume.record) &&
           save("tree", volume.tree, CMT_TREE_BYTES(DEPTH)) &&
           save("sample", sample, CMT_SAMPLE_BYTES(DEPTH));
}

/* Coded with {0, 2, 8} as the base's equation 0, which is {0, 1, 8} in the table that the record names. */
static int save_wrong(void)
{
    volume.table[SECOND_MEMBER + 3] = 2;
    uint64_t written = volume_write(&volume);
    volume.table[SECOND_MEMBER + 3] = 1;
    uint64_t named = record_name(volume.record, volume.table, TABLE), result = volume_repair(&volume);
    return written == CMT_DONE && named == CMT_DONE && cmt_repair_end(result) == CMT_FAULT &&
           save("wrong-record", volume.record, sizeof volume.record) &&
           save("proof", volume.output, cmt_repair_proof_bytes(result));
}

/* By a table that differs from the house table in its last equation, the volume of depth 9 has a fault. */
static int save_deepest(void)
{
    int written = volume_begin(&volume, 9) == CMT_DONE && volume_write(&volume) == CMT_DONE &&
                  cmt_sample_take(9, 4095, volume.tree, CMT_TREE_BYTES(9), volume.marks, CMT_MARKS_BYTES(9), sample,
                                  CMT_SAMPLE_BYTES(9)) == CMT_DONE;
    uint64_t named = volume_change_table(&volume), result = volume_repair(&volume);
    return written && named == CMT_DONE && cmt_repair_end(result) == CMT_FAULT &&
           save("record-9", volume.record, sizeof volume.record) &&
           save("table-9", volume.table, CMT_HOUSE_TABLE_BYTES(9)) && save("sample-9", sample, CMT_SAMPLE_BYTES(9)) &&
           save("proof-9", volume.output, cmt_repair_proof_bytes(result));
}

int main(void)
{
    if (!save_right() || !save_wrong() || !save_deepest()) {
        fprintf(stderr, "files: not written\n");
        return 1;
    }
    return 0;
}
