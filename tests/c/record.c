/*
 * The record: what is written into it of volumes of any length, and what comes back
 * by it; each bit of its head, lent to the calls that take it; the places of its two
 * tests among the others; and volumes that are not filled up with zeros: all of both
 * kinds. Wrong functions are tried first, and each must be found by its own part.
 */
#include "parts.h"
#include "record_calls.h"

enum { LENGTHS = 8, BEFORE = 0xa5 };

static const struct calls *calls = &library;
static uint64_t kind;
static struct volume volume, whole, before;
static uint8_t sample[CMT_SAMPLE_BYTES(CMT_DEPTH_MAX)];

/* The calls over the volume; the sample is that of base page 0, and the proof the first bytes of the output. */
static uint64_t code(void)
{
    return calls->write(volume.depth, volume.kind, volume.table, CMT_HOUSE_TABLE_BYTES(volume.depth), volume.block, volume.block_len,
                        volume.tree, CMT_TREE_BYTES(volume.depth), volume.marks, CMT_MARKS_BYTES(volume.depth),
                        volume.record, sizeof volume.record);
}

static uint64_t read_with(const uint8_t *record, size_t record_len)
{
    return calls->read(volume.depth, record, record_len, volume.tree, CMT_TREE_BYTES(volume.depth), volume.marks,
                       CMT_MARKS_BYTES(volume.depth), volume.block, CMT_BLOCK_BYTES(volume.depth));
}

static uint64_t sample_with(const uint8_t *record, size_t record_len, uint64_t number)
{
    return calls->sample(volume.depth, number, record, record_len, sample, CMT_SAMPLE_BYTES(volume.depth));
}

static uint64_t proof_with(const uint8_t *record, size_t record_len)
{
    return calls->proof(volume.depth, record, record_len, volume.table, CMT_HOUSE_TABLE_BYTES(volume.depth), volume.output,
                        CMT_PROOF_HEAD_BYTES);
}

static uint64_t repair_with(const uint8_t *record, size_t record_len)
{
    return calls->repair(volume.depth, record, record_len, volume.table, CMT_HOUSE_TABLE_BYTES(volume.depth), volume.tree,
                         CMT_TREE_BYTES(volume.depth), volume.marks, CMT_MARKS_BYTES(volume.depth), volume.output,
                         CMT_OUTPUT_BYTES(volume.depth));
}

static uint64_t repair(void)
{
    return repair_with(volume.record, sizeof volume.record);
}

/* Lengths at the ends of pages and of the block, and beside them. */
static size_t length_at(uint64_t depth, size_t i)
{
    const size_t most = CMT_BLOCK_BYTES(depth), lengths[LENGTHS] = {0, 1, 255, 256, 257, most - 256, most - 1, most};
    return lengths[i];
}

/* The volume of this length, before it is coded; no byte of it is zero, and none that follows in its buffer. */
static int begin(uint64_t depth, size_t length)
{
    int begun = volume_begin(&volume, depth) == CMT_DONE;
    volume.kind = kind;
    volume.block_len = length;
    memset(volume.tree, BEFORE, sizeof volume.tree);
    memset(volume.marks, BEFORE, sizeof volume.marks);
    memset(volume.record, BEFORE, sizeof volume.record);
    memset(volume.output, BEFORE, sizeof volume.output);
    return begun;
}

/* The same, coded by the library, with its sample. */
static int begin_coded(uint64_t depth, size_t length)
{
    return begin(depth, length) && volume_write(&volume) == CMT_DONE &&
           cmt_sample_take(depth, 0, volume.tree, CMT_TREE_BYTES(depth), volume.marks, CMT_MARKS_BYTES(depth), sample,
                           CMT_SAMPLE_BYTES(depth)) == CMT_DONE;
}

static int all_are(const uint8_t *bytes, size_t from, size_t past, uint8_t byte)
{
    while (from < past && bytes[from] == byte) {
        from++;
    }
    return from == past;
}

/* The head as it must be. */
static int head_is_right(void)
{
    uint8_t head[CMT_RECORD_BYTES];
    put_word(head, 0, (size_t)kind, (size_t)volume.depth);
    put_word(head, 1, 2, volume.block_len);
    return record_name(head, volume.table, CMT_HOUSE_TABLE_BYTES(volume.depth)) == CMT_DONE &&
           memcmp(head, volume.record, CMT_RECORD_HEAD_BYTES) == 0;
}

/* Tree, marks and root are those of the block that somebody has filled up with zeros before. */
static int is_filled_up(void)
{
    const uint64_t depth = volume.depth;
    int right = volume_begin(&whole, depth) == CMT_DONE;
    whole.kind = kind;
    memset(whole.block + volume.block_len, 0, CMT_BLOCK_BYTES(depth) - volume.block_len);
    return right && volume_write(&whole) == CMT_DONE && memcmp(volume.tree, whole.tree, CMT_TREE_BYTES(depth)) == 0 &&
           memcmp(volume.marks, whole.marks, CMT_MARKS_BYTES(depth)) == 0 &&
           memcmp(volume_root_hash(&volume, 0), volume_root_hash(&whole, 0), CMT_ROOT_BYTES) == 0;
}

/* Of each length at each depth; a byte more than there is room for is a wrong length. */
static int volumes_are_coded(void)
{
    for (uint64_t depth = 1; depth <= CMT_DEPTH_MAX; depth++) {
        for (size_t i = 0; i < LENGTHS; i++) {
            if (!begin(depth, length_at(depth, i)) || code() != CMT_DONE || !head_is_right() || !is_filled_up() ||
                repair() != CMT_DONE) {
                return 0;
            }
        }
        int right = begin(depth, CMT_BLOCK_BYTES(depth) + 1);
        memcpy(&before, &volume, sizeof before);
        if (!right || code() != CMT_WRONG_LENGTH || memcmp(&before, &volume, sizeof before) != 0) {
            return 0;
        }
    }
    return 1;
}

/* So many bytes come back, and the rest of the buffer stays. */
static int volumes_come_back(void)
{
    for (uint64_t depth = 1; depth <= CMT_DEPTH_MAX; depth++) {
        for (size_t i = 0; i < LENGTHS; i++) {
            int right = begin_coded(depth, length_at(depth, i));
            memcpy(&before, &volume, sizeof before);
            memset(volume.block, BEFORE, sizeof volume.block);
            if (!right || read_with(volume.record, sizeof volume.record) != CMT_DONE ||
                memcmp(before.block, volume.block, volume.block_len) != 0 ||
                !all_are(volume.block, volume.block_len, sizeof volume.block, BEFORE)) {
                return 0;
            }
        }
    }
    return 1;
}

/* Every data page of the base must be held, be it one that holds only filling. */
static int filling_is_needed(void)
{
    int right = begin_coded(3, 700);
    for (size_t page = 0; page < CMT_BLOCK_BYTES(3) / 256; page++) {
        volume.marks[CMT_MARKS_BYTES(2) + page] = 0;
        right &= read_with(volume.record, sizeof volume.record) == CMT_ABSENT + 256 * page;
        volume.marks[CMT_MARKS_BYTES(2) + page] = 1;
    }
    return right;
}

/* What the calls that look at the head alone must give for the record as it is, and those that take a table too. */
static uint64_t by_the_head(void)
{
    const uint64_t step = 1073741824, depth = cmt_record_word(volume.record, 0), count = cmt_record_word(volume.record, 2);
    const uint64_t length = cmt_record_word(volume.record, 1);
    const int right = (depth == volume.depth || depth == step + volume.depth) && length >= 2 * step &&
                      length <= 2 * step + CMT_BLOCK_BYTES(volume.depth) && count >= 3 * step;
    return right ? CMT_DONE : CMT_WRONG_RECORD;
}

static uint64_t by_the_table(void)
{
    const uint64_t head = by_the_head();
    return head != CMT_DONE || memcmp(volume.record + 8, before.record + 8, 36) == 0 ? head : CMT_OTHER_TABLE;
}

/* The volume is full to its half: a length in that half leaves other bytes than zeros after it. By a record of the other
 * kind no page fits: a sample breaks at the base, and a repair takes away all of layer 0, which is put back. */
static int answers_are_right(void)
{
    const uint64_t head = by_the_head(), table = by_the_table();
    const int other = head == CMT_DONE && cmt_record_kind(volume.record) != kind;
    const uint64_t filled = cmt_record_length(volume.record) < volume.block_len ? CMT_MISFILLED : CMT_WHOLE;
    const uint64_t end = other ? (uint64_t)CMT_UNAVAILABLE : filled;
    const uint64_t sampled = other ? CMT_WRONG_HASH + 256 * (volume.depth - 1) : head;
    const uint8_t *record = volume.record;
    int right = sample_with(record, CMT_RECORD_BYTES, 0) == sampled && read_with(record, CMT_RECORD_BYTES) == head &&
                proof_with(record, CMT_RECORD_BYTES) == (table == CMT_DONE ? (uint64_t)CMT_WRONG_HEAD : table) &&
                repair_with(record, CMT_RECORD_BYTES) == (table == CMT_DONE ? 256 * end : table);
    if (other && table == CMT_DONE) {
        right &= all_are(volume.marks, 0, 16, 0) && all_are(volume.tree, 0, CMT_TREE_BYTES(1), 0);
        memcpy(volume.marks, before.marks, 16);
        memcpy(volume.tree, before.tree, CMT_TREE_BYTES(1));
    }
    return right;
}

static int each_bit_is_right(void)
{
    for (uint64_t depth = 1; depth <= CMT_DEPTH_MAX; depth += 4) {
        int right = begin_coded(depth, CMT_BLOCK_BYTES(depth) / 2);
        memset(volume.block, 0, sizeof volume.block);
        memcpy(volume.block, volume.tree + CMT_TREE_BYTES(depth - 1), CMT_BLOCK_BYTES(depth));
        memcpy(&before, &volume, sizeof before);
        right &= answers_are_right();
        for (size_t bit = 0; right && bit < 8 * CMT_RECORD_HEAD_BYTES; bit++) {
            volume.record[bit / 8] ^= 1u << bit % 8;
            right &= answers_are_right();
            volume.record[bit / 8] ^= 1u << bit % 8;
            right &= memcmp(&before, &volume, sizeof before) == 0;
        }
        if (!right) {
            return 0;
        }
    }
    return 1;
}

/* Whether the four calls that take a record stop so with this one. */
static int all_stop(const uint8_t *record, size_t record_len, uint64_t result)
{
    memcpy(&before, &volume, sizeof before);
    return read_with(record, record_len) == result && sample_with(record, record_len, UINT64_MAX) == result &&
           proof_with(record, record_len) == result && repair_with(record, record_len) == result &&
           memcmp(&before, &volume, sizeof before) == 0;
}

/* And those two of them that take a table. */
static int both_stop(uint64_t result)
{
    memcpy(&before, &volume, sizeof before);
    return proof_with(volume.record, sizeof volume.record) == result && repair() == result &&
           memcmp(&before, &volume, sizeof before) == 0;
}

/* A root without its head, and other lengths; a depth that there is not comes first. All else is wrong too. */
static int lengths_come_first(void)
{
    static uint8_t longer[CMT_RECORD_BYTES + 1];
    int right = begin_coded(1, 700);
    memcpy(longer, volume.record, CMT_RECORD_BYTES);
    longer[0] = volume.table[0] = volume.marks[0] = 0xff;
    right &= all_stop(longer + CMT_RECORD_HEAD_BYTES, CMT_ROOT_BYTES, CMT_WRONG_LENGTH);
    right &= all_stop(longer, CMT_RECORD_BYTES - 1, CMT_WRONG_LENGTH) && all_stop(longer, sizeof longer, CMT_WRONG_LENGTH);
    right &= all_stop(longer, 0, CMT_WRONG_LENGTH) && all_stop(longer, CMT_RECORD_BYTES, CMT_WRONG_RECORD);
    volume.depth = CMT_DEPTH_MAX + 1;
    right &= read_with(longer, sizeof longer) == CMT_WRONG_DEPTH && repair_with(longer, sizeof longer) == CMT_WRONG_DEPTH;
    volume.depth = 1;
    for (size_t len = 0; len <= sizeof longer; len += len == CMT_RECORD_BYTES - 1 ? 2 : 1) {
        right &= calls->write(1, kind, volume.table, CMT_HOUSE_TABLE_BYTES(1), volume.block, 700, volume.tree, CMT_TREE_BYTES(1),
                              volume.marks, CMT_MARKS_BYTES(1), longer, len) == CMT_WRONG_LENGTH;
    }
    return right;
}

/* 11 before 3, 4, 5 and 6; 3 and 10 before 12; 12 before 4 and 6. The proof's head has no right kind. */
static int tests_have_their_places(void)
{
    static const uint8_t thin[][2] = {{11, 1}, {22, 1}, {32, 3}, {52, 3}, {56, 1}};
    int right = begin_coded(1, 700);
    volume.marks[0] = 2;
    right &= proof_with(volume.record, sizeof volume.record) == CMT_WRONG_HEAD && repair() == CMT_WRONG_MARK;
    volume.record[11] ^= 1;
    right &= both_stop(CMT_OTHER_TABLE);
    volume.record[11] ^= 1;
    for (size_t i = 0; i < sizeof thin / sizeof *thin; i++) {
        volume.table[4 * thin[i][0] + 3] = thin[i][1];
    }
    right &= both_stop(CMT_UNCOVERED + (UINT64_C(2) << 32));
    volume.table[7] = 9;
    right &= both_stop(CMT_WRONG_TABLE + 256);
    put_word(volume.record, 1, 2, 1025);
    return right && all_stop(volume.record, sizeof volume.record, CMT_WRONG_RECORD);
}

/* A table of as many words, which is taken, is another; named by the record, it is the one. */
static int tables_are_told_apart(void)
{
    for (uint64_t depth = 1; depth <= CMT_DEPTH_MAX; depth++) {
        const size_t bytes = CMT_HOUSE_TABLE_BYTES(depth);
        int right = begin_coded(depth, CMT_BLOCK_BYTES(depth) - 1) && volume_change_table(&volume) == CMT_DONE;
        right &= proof_with(volume.record, sizeof volume.record) == CMT_WRONG_HEAD;
        right &= cmt_repair_end(repair()) == CMT_FAULT;
        right &= begin_coded(depth, CMT_BLOCK_BYTES(depth) - 1);
        volume.table[bytes - 4 * 5 + 3] ^= 3;
        if (!right || cmt_table_check(depth, volume.table, bytes) != CMT_DONE || !both_stop(CMT_OTHER_TABLE)) {
            return 0;
        }
    }
    return 1;
}

/* A coded volume of zeros but for this byte, by a record that has this length. */
static int begin_with_byte(uint64_t depth, size_t length, size_t at)
{
    int right = begin(depth, CMT_BLOCK_BYTES(depth));
    memset(volume.block, 0, sizeof volume.block);
    volume.block[at] = 0x80;
    right &= volume_write(&volume) == CMT_DONE;
    put_word(volume.record, 1, 2, length);
    return right;
}

/* Loses three pages and damages one; whatever the end is, the repair must bring them back, and write nothing else. */
static int ends_with(uint64_t end)
{
    const size_t last = CMT_MARKS_BYTES(volume.depth) - 1;
    memcpy(&before, &volume, sizeof before);
    volume.marks[0] = volume.marks[last] = volume.marks[last - 3 * (last + 1) / 8] = 0;
    memset(volume.tree, BEFORE, 256);
    volume.tree[256 * 5 + 9] ^= 4;
    uint64_t result = repair();
    return result == 256 * end + (UINT64_C(4) << 32) && cmt_repair_end(result) == end &&
           memcmp(&before, &volume, sizeof before) == 0;
}

/* The first byte after the length, one between, and the last; before the length any byte is right. */
static int filling_is_looked_at(void)
{
    for (uint64_t depth = 1; depth <= CMT_DEPTH_MAX; depth += depth < 3 ? 1 : 3) {
        const size_t most = CMT_BLOCK_BYTES(depth);
        for (size_t i = 0; i < LENGTHS; i++) {
            const size_t length = length_at(depth, i), at[] = {length, (length + most) / 2, most - 1};
            for (size_t j = 0; length < most && j < 3; j++) {
                if (!begin_with_byte(depth, length, at[j]) || !ends_with(CMT_MISFILLED)) {
                    return 0;
                }
            }
            if (length > 0 && (!begin_with_byte(depth, length, length - 1) || !ends_with(CMT_WHOLE))) {
                return 0;
            }
        }
    }
    return 1;
}

/* Misfilled stands in the place of whole alone. */
static int other_ends_stay(void)
{
    int right = begin_with_byte(2, 1, 2047);
    memset(volume.marks, 0, sizeof volume.marks);
    right &= repair() == 256 * CMT_UNAVAILABLE;
    right &= begin_with_byte(2, 1, 2 * 256) && volume_change_table(&volume) == CMT_DONE;
    uint64_t result = repair();
    return right && cmt_repair_end(result) == CMT_FAULT && cmt_repair_proof_bytes(result) == CMT_PROOF_BYTES(1, 4);
}

static const struct part parts[] = {
    {"volumes that are coded", volumes_are_coded},
    {"volumes that are read back", volumes_come_back},
    {"pages of filling", filling_is_needed},
    {"each bit of the head", each_bit_is_right},
    {"lengths", lengths_come_first},
    {"the places of the tests", tests_have_their_places},
    {"other tables", tables_are_told_apart},
    {"the filling", filling_is_looked_at},
    {"the other ends", other_ends_stay},
};

/* Each is the library but for one call, and is found by this part. */
static const struct {
    const char *name;
    struct calls calls;
    int (*part)(void);
} wrong[] = {
    {"writes_the_other_kind", {.write = writes_the_other_kind}, volumes_are_coded},
    {"writes_a_place_before_the_table", {.write = writes_a_place_before_the_table}, volumes_are_coded},
    {"writes_no_length", {.write = writes_no_length}, volumes_are_coded},
    {"writes_no_end_word", {.write = writes_no_end_word}, volumes_are_coded},
    {"writes_what_follows", {.write = writes_what_follows}, volumes_are_coded},
    {"reads_zeros", {.read = reads_zeros}, volumes_come_back},
    {"reads_all", {.read = reads_all}, volumes_come_back},
    {"reads_without_filling", {.read = reads_without_filling}, filling_is_needed},
    {"samples_of_any_depth", {.sample = samples_of_any_depth}, each_bit_is_right},
    {"proves_by_any_count", {.proof = proves_by_any_count}, each_bit_is_right},
    {"proves_by_any_hash", {.proof = proves_by_any_hash}, tables_are_told_apart},
    {"proves_by_the_hash_first", {.proof = proves_by_the_hash_first}, tests_have_their_places},
    {"repairs_by_the_table_first", {.repair = repairs_by_the_table_first}, tests_have_their_places},
    {"repairs_by_the_marks_first", {.repair = repairs_by_the_marks_first}, tests_have_their_places},
    {"repairs_any_filling", {.repair = repairs_any_filling}, filling_is_looked_at},
    {"repairs_filling_pages", {.repair = repairs_filling_pages}, filling_is_looked_at},
    {"repairs_but_the_last", {.repair = repairs_but_the_last}, filling_is_looked_at},
    {"repairs_with_parity", {.repair = repairs_with_parity}, filling_is_looked_at},
    {"repairs_nothing", {.repair = repairs_nothing}, filling_is_looked_at},
    {"takes_roots", {.repair = takes_roots}, lengths_come_first},
};

static int is_found(size_t i)
{
    struct calls tried = wrong[i].calls;
    tried.write = tried.write == NULL ? library.write : tried.write;
    tried.read = tried.read == NULL ? library.read : tried.read;
    tried.sample = tried.sample == NULL ? library.sample : tried.sample;
    tried.proof = tried.proof == NULL ? library.proof : tried.proof;
    tried.repair = tried.repair == NULL ? library.repair : tried.repair;
    calls = &tried;
    int found = !wrong[i].part();
    calls = &library;
    return found;
}

int main(void)
{
    kind = CMT_KIND_PLACED;
    for (size_t i = 0; i < sizeof wrong / sizeof *wrong; i++) {
        if (!is_found(i)) {
            printf("record: %s was not found\n", wrong[i].name);
            return 1;
        }
    }
    if (run_parts("record, with places", parts, sizeof parts / sizeof *parts) != 0) {
        return 1;
    }
    kind = CMT_KIND_PLAIN;
    return run_parts("record, plain", parts, sizeof parts / sizeof *parts);
}
