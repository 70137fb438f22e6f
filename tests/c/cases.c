/*
 * 01's cases at depth 1 with the house table, through the library: the block is
 * 256 bytes each of 01, 02, 04, 08. Cases 8 and 9 as CR 6 has them: depth 6 is
 * accepted, depth 10 is not, and at depth 9 there are 8,176 symbols and a proof of
 * 18,188 bytes.
 */
#include "volume.h"

#include <stdio.h>
#include <string.h>

enum { SYMBOL = 256, SYMBOLS = 16, PROOF = 780 };

static struct volume volume, other;

static int all_bytes(const uint8_t *symbol, uint8_t byte)
{
    for (size_t i = 0; i < SYMBOL; i++) {
        if (symbol[i] != byte) {
            return 0;
        }
    }
    return 1;
}

/* A symbol of the tree as it would be with another byte throughout, and the root made of that. */
static int miscode(size_t number, uint8_t byte)
{
    uint8_t *symbol = volume.tree + SYMBOL * number;
    memset(symbol, byte, SYMBOL);
    return cmt_sha256(symbol, SYMBOL, volume_root_hash(&volume, number), 32) == CMT_DONE;
}

static void take_away(const size_t *numbers, size_t count)
{
    for (size_t i = 0; i < count; i++) {
        volume.marks[numbers[i]] = 0;
    }
}

/* Whether the symbols that are missing are those of the set, bit by bit. */
static int missing_are(unsigned set)
{
    for (size_t i = 0; i < SYMBOLS; i++) {
        if (volume.marks[i] != (set >> i & 1 ? 0 : 1)) {
            return 0;
        }
    }
    return 1;
}

static int case_2_and_3(void)
{
    static const uint8_t first[SYMBOLS] = {1, 2, 4, 8, 3, 5, 9, 0, 5, 15, 10, 0, 9, 10, 12, 0};
    for (size_t i = 0; i < SYMBOLS; i++) {
        if (!all_bytes(volume.tree + SYMBOL * i, first[i])) {
            return 0;
        }
    }
    return CMT_HOUSE_TABLE_BYTES(1) == 4 * 61 && volume.table[4 * 60] == 0xc0 && volume.table[4 * 60 + 3] == 60;
}

static int case_4(void)
{
    uint8_t whole[CMT_TREE_BYTES(1)];
    memcpy(whole, volume.tree, CMT_TREE_BYTES(1));
    take_away((const size_t[]){0, 1}, 2);
    uint64_t result = volume_repair(&volume);
    return cmt_number(result) == CMT_DONE && cmt_repair_end(result) == CMT_WHOLE &&
           cmt_repair_stored(result) == 2 && missing_are(0) &&
           memcmp(whole, volume.tree, CMT_TREE_BYTES(1)) == 0;
}

static int case_5(void)
{
    take_away((const size_t[]){0, 4, 5, 6, 8, 9, 12, 15}, 8);
    uint64_t result = volume_repair(&volume);
    return cmt_number(result) == CMT_DONE && cmt_repair_end(result) == CMT_UNAVAILABLE &&
           cmt_repair_layer(result) == 0 && cmt_repair_stored(result) == 1 &&
           missing_are(1u << 0 | 1u << 4 | 1u << 5 | 1u << 6 | 1u << 8 | 1u << 9 | 1u << 12);
}

static int case_6(void)
{
    memset(volume.marks, 0, SYMBOLS);
    uint64_t result = volume_repair(&volume);
    return cmt_number(result) == CMT_DONE && cmt_repair_end(result) == CMT_UNAVAILABLE &&
           cmt_repair_stored(result) == 0 && missing_are(0xffff);
}

/* Fault at equation 3, withheld 7, 780 bytes. */
static int shows_fault(void)
{
    static const uint8_t head[12] = {0x40, 0, 0, 0, 0x80, 0, 0, 3, 0xc0, 0, 0, 7};
    uint64_t result = volume_repair(&volume);
    return cmt_number(result) == CMT_DONE && cmt_repair_end(result) == CMT_FAULT &&
           cmt_repair_proof_bytes(result) == PROOF && cmt_repair_stored(result) == 0 &&
           memcmp(volume.output, head, sizeof head) == 0 && volume_check(&volume, PROOF) == CMT_DONE;
}

static int case_7(void)
{
    return miscode(7, 1) && shows_fault();
}

static int case_7_absent(void)
{
    int miscoded = miscode(7, 1);
    take_away((const size_t[]){7}, 1);
    return miscoded && shows_fault();
}

/* Whether every call that takes a depth stops with 1 at this one. */
static int stops_at(uint64_t depth)
{
    uint8_t sample[CMT_SAMPLE_BYTES(1)] = {0};
    const size_t table = CMT_HOUSE_TABLE_BYTES(1), tree = CMT_TREE_BYTES(1);
    return cmt_house_table(depth, volume.table, table) == CMT_WRONG_DEPTH &&
           cmt_table_check(depth, volume.table, table) == CMT_WRONG_DEPTH &&
           cmt_tree_write(depth, volume.kind, volume.table, table, volume.block, CMT_BLOCK_BYTES(1), volume.tree, tree, volume.marks,
                          SYMBOLS, volume.record, sizeof volume.record) == CMT_WRONG_DEPTH &&
           cmt_recode(depth, volume.record, sizeof volume.record, volume.table, table, volume.tree, tree, volume.marks,
                      SYMBOLS, other.tree, tree, other.marks, SYMBOLS, other.record, sizeof other.record) ==
               CMT_WRONG_DEPTH &&
           cmt_block_read(depth, volume.record, sizeof volume.record, volume.tree, tree, volume.marks, SYMBOLS, volume.block,
                          CMT_BLOCK_BYTES(1)) == CMT_WRONG_DEPTH &&
           cmt_sample_take(depth, 0, volume.tree, tree, volume.marks, SYMBOLS, sample, sizeof sample) ==
               CMT_WRONG_DEPTH &&
           cmt_sample_check(depth, 0, volume.record, sizeof volume.record, sample, sizeof sample) == CMT_WRONG_DEPTH &&
           cmt_proof_check(depth, volume.record, sizeof volume.record, volume.table, table, volume.output, PROOF) ==
               CMT_WRONG_DEPTH &&
           cmt_repair(depth, volume.record, sizeof volume.record, volume.table, table, volume.tree, tree, volume.marks, SYMBOLS,
                      volume.output, CMT_OUTPUT_BYTES(1)) == CMT_WRONG_DEPTH;
}

static int case_8(void)
{
    return stops_at(0) && stops_at(10) && stops_at(UINT64_C(4294967296) + 1) && stops_at(UINT64_C(4294967296) + 9) &&
           CMT_DEPTH_MAX == 9 && CMT_MARKS_BYTES(5) == 496 && CMT_MARKS_BYTES(9) == 8176;
}

/* A volume of this depth is coded, sampled, lost in part, repaired and read back. */
static int goes_round(uint64_t depth)
{
    static struct volume coded;
    static uint8_t sample[CMT_SAMPLE_BYTES(CMT_DEPTH_MAX)];
    const size_t tree = CMT_TREE_BYTES(depth), marks = CMT_MARKS_BYTES(depth), number = marks / 2;
    int right = volume_begin(&volume, depth) == CMT_DONE && volume_write(&volume) == CMT_DONE;
    memcpy(&coded, &volume, sizeof coded);
    for (size_t place = 0; place < marks; place += 5) {
        volume.marks[place] = 0;
        memset(volume.tree + SYMBOL * place, 0xee, SYMBOL);
    }
    uint64_t result = volume_repair(&volume);
    memset(volume.block, 0, sizeof volume.block);
    return right && cmt_number(result) == CMT_DONE && cmt_repair_end(result) == CMT_WHOLE &&
           cmt_repair_stored(result) == (marks + 4) / 5 && memcmp(volume.tree, coded.tree, tree) == 0 &&
           memcmp(volume.marks, coded.marks, marks) == 0 &&
           volume_read(&volume) == CMT_DONE &&
           memcmp(volume.block, coded.block, CMT_BLOCK_BYTES(depth)) == 0 &&
           cmt_sample_take(depth, number, volume.tree, tree, volume.marks, marks, sample, CMT_SAMPLE_BYTES(depth)) == CMT_DONE &&
           cmt_sample_check(depth, number, volume.record, sizeof volume.record, sample, CMT_SAMPLE_BYTES(depth)) == CMT_DONE;
}

static int case_8_accepted(void)
{
    return goes_round(6) && goes_round(7) && goes_round(8) && goes_round(9);
}

/* By a table whose last equation has eight members in the place of four, the volume of the house table shows a fault
 * there: at the largest depth, and at depth 5. */
static int longest_proof(uint64_t depth, size_t bytes)
{
    static uint8_t table[CMT_HOUSE_TABLE_BYTES(CMT_DEPTH_MAX) + 16];
    const size_t words = CMT_HOUSE_TABLE_BYTES(depth) / 4;
    const size_t k = (size_t)4 << (depth - 1), members[] = {2, 3, 4, 5, 6, k - 1, 4 * k - 2, 4 * k - 1};
    int right = volume_begin(&volume, depth) == CMT_DONE && volume_write(&volume) == CMT_DONE;
    memcpy(table, volume.table, 4 * words);
    for (size_t i = 0; i < 8; i++) {
        put_word(table, words - 5 + i, 0, members[i]);
    }
    put_word(table, words + 3, 3, words + 3);
    right &= record_name(volume.record, table, 4 * words + 16) == CMT_DONE;
    uint64_t result = cmt_repair(depth, volume.record, sizeof volume.record, table, 4 * words + 16, volume.tree,
                                 CMT_TREE_BYTES(depth), volume.marks, CMT_MARKS_BYTES(depth), volume.output,
                                 CMT_OUTPUT_BYTES(depth));
    return right && cmt_number(result) == CMT_DONE && cmt_repair_end(result) == CMT_FAULT &&
           cmt_repair_proof_bytes(result) == bytes && CMT_OUTPUT_BYTES(depth) == bytes &&
           cmt_proof_check(depth, volume.record, sizeof volume.record, table, 4 * words + 16, volume.output, bytes) == CMT_DONE;
}

static int case_9(void)
{
    return longest_proof(5, 9996) && longest_proof(9, 18188);
}

int main(void)
{
    static const struct {
        const char *name;
        int (*holds)(void);
    } cases[] = {
        {"2 and 3", case_2_and_3}, {"4", case_4},
        {"5", case_5},             {"6", case_6},
        {"7", case_7},             {"7, where 7 is absent", case_7_absent},
        {"8", case_8},             {"8, depths that are accepted", case_8_accepted},
        {"9", case_9},
    };
    for (size_t i = 0; i < sizeof cases / sizeof *cases; i++) {
        if (volume_begin(&volume, 1) != CMT_DONE || volume_write(&volume) != CMT_DONE || !cases[i].holds()) {
            printf("cases: %s is not as it should be\n", cases[i].name);
            return 1;
        }
    }
    printf("cases: ok\n");
    return 0;
}
