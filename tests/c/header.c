/*
 * The header by itself, as C and as C++: it compiles without a warning, may be
 * included twice, and calls through it give the published digest of "abc", the
 * house table's first wrong word where one is put, and 01's cases of repair. Its
 * lengths at the largest depth and its words for numbers and ends are as they
 * should be, both values of a result come out of it, a record's head says what was
 * written, a repair that stopped has no end, twins have a place, volumes of both
 * kinds are recoded, and the version's text is that of its numbers.
 */
#include "cedunmi.h"
#include "cedunmi.h"
#include "volume.h"

#include <stdio.h>
#include <string.h>

static const uint8_t abc[CMT_SHA256_DIGEST_BYTES] = {
    0xba, 0x78, 0x16, 0xbf, 0x8f, 0x01, 0xcf, 0xea, 0x41, 0x41, 0x40,
    0xde, 0x5d, 0xae, 0x22, 0x23, 0xb0, 0x03, 0x61, 0xa3, 0x96, 0x17,
    0x7a, 0x9c, 0xb4, 0x10, 0xff, 0x61, 0xf2, 0x00, 0x15, 0xad,
};

/* The house table of depth 1 is accepted; with its word 4 altered it is refused there. */
static int tables_are_right(void)
{
    uint8_t table[CMT_HOUSE_TABLE_BYTES(1)];
    if (sizeof table != 244 || cmt_house_table(1, table, sizeof table) != CMT_DONE ||
        cmt_table_check(1, table, sizeof table) != CMT_DONE) {
        return 0;
    }
    table[4 * 4 + 3] ^= 1;
    uint64_t result = cmt_table_check(1, table, sizeof table);
    return cmt_number(result) == CMT_WRONG_TABLE && cmt_value(result) == 4;
}

/* Whether a result has these three parts. */
static int parts_are(uint64_t result, uint64_t number, uint64_t value, uint64_t second)
{
    return cmt_number(result) == number && cmt_value(result) == value && cmt_second_value(result) == second;
}

/* Each part of a result at its least and at its most, apart from the others. */
static int values_are_apart(void)
{
    const uint64_t first = 256, second = first * 16777216;
    return parts_are(0, 0, 0, 0) && parts_are(255, 255, 0, 0) && parts_are(first * 16777215, 0, 16777215, 0) &&
           parts_are(second * UINT32_MAX, 0, 0, UINT32_MAX) &&
           parts_are(UINT64_MAX, 255, 16777215, UINT32_MAX) &&
           parts_are(CMT_UNCOVERED + first * 8 + second * 1023, CMT_UNCOVERED, 8, 1023) &&
           parts_are(CMT_WRONG_HASH + first * 8 + second * 7, CMT_WRONG_HASH, 8, 7) &&
           parts_are(CMT_WRONG_TABLE + first * 55198, CMT_WRONG_TABLE, 55198, 0);
}

static struct volume volume;

/* Writes the tree of 01's cases. */
static int cases_tree(void)
{
    return volume_begin(&volume, 1) == CMT_DONE && volume_write(&volume) == CMT_DONE;
}

/* Cases 4 and 5: what a repair reports when these places are lost. */
static int repair_is_right(const uint8_t *lost, size_t count, uint64_t end, uint64_t stored)
{
    int written = cases_tree();
    for (size_t i = 0; i < count; i++) {
        volume.marks[lost[i]] = 0;
    }
    uint64_t result = volume_repair(&volume);
    return written && cmt_number(result) == CMT_DONE && cmt_repair_end(result) == end &&
           cmt_repair_stored(result) == stored && cmt_repair_layer(result) == 0;
}

/* Case 7: symbol 7 is all 01, and the root is made of that. With 6 withheld in place of 7 the third given is not 7. */
static int fault_is_right(void)
{
    uint8_t right[CMT_RECORD_BYTES];
    int written = cases_tree();
    memcpy(right, volume.record, sizeof right);
    memset(volume.tree + 7 * 256, 1, 256);
    written &= cmt_sha256(volume.tree + 7 * 256, 256, volume_root_hash(&volume, 7), 32) == CMT_DONE;
    uint64_t result = volume_repair(&volume);
    if (!written || cmt_number(result) != CMT_DONE || cmt_repair_end(result) != CMT_FAULT ||
        cmt_repair_stored(result) != 0 || cmt_repair_proof_bytes(result) != 780 ||
        CMT_PROOF_BYTES(0, 4) != 780 || cmt_number(volume_check(&volume, 780)) != CMT_DONE) {
        return 0;
    }
    memcpy(volume.record, right, sizeof right);
    int no_fault = cmt_number(volume_check(&volume, 780)) == CMT_NO_FAULT;
    volume.output[11] = 8;
    int no_member = cmt_number(volume_check(&volume, 780)) == CMT_WRONG_HEAD;
    volume.output[11] = 6;
    int no_hash = parts_are(volume_check(&volume, 780), CMT_WRONG_HASH, 0, 2);
    return no_fault && no_member && no_hash;
}

static int repairs_are_right(void)
{
    static const uint8_t two[] = {0, 1}, eight[] = {0, 4, 5, 6, 8, 9, 12, 15};
    return repair_is_right(two, sizeof two, CMT_WHOLE, 2) &&
           repair_is_right(eight, sizeof eight, CMT_UNAVAILABLE, 1) && fault_is_right();
}

/* Whether a result is a repair's that stopped with this number, and so has no end. */
static int has_no_end(uint64_t result, uint64_t number)
{
    return cmt_number(result) == number && cmt_repair_end(result) == CMT_NO_END &&
           cmt_repair_stored(result) == 0 && cmt_repair_proof_bytes(result) == 0 &&
           cmt_repair_layer(result) == 0;
}

/* A repair that stops with each of its numbers, two of them with a value that reads as an end. */
static int stops_have_no_end(void)
{
    int right = cases_tree();
    volume.depth = CMT_DEPTH_MAX + 1;
    right &= has_no_end(volume_repair(&volume), CMT_WRONG_DEPTH);
    volume.depth = 1;
    right &= has_no_end(cmt_repair(1, volume.record, CMT_RECORD_BYTES - 1, volume.table, CMT_HOUSE_TABLE_BYTES(1),
                                   volume.tree, CMT_TREE_BYTES(1), volume.marks, CMT_MARKS_BYTES(1),
                                   volume.output, CMT_OUTPUT_BYTES(1)),
                        CMT_WRONG_LENGTH);
    volume.marks[CMT_FAULT] = 2;
    uint64_t result = volume_repair(&volume);
    right &= has_no_end(result, CMT_WRONG_MARK) && cmt_value(result) == CMT_FAULT;
    volume.record[CMT_RECORD_HEAD_BYTES - 1] ^= 1;
    right &= has_no_end(volume_repair(&volume), CMT_OTHER_TABLE);
    volume.table[4 * CMT_UNAVAILABLE] ^= 1;
    result = volume_repair(&volume);
    right &= has_no_end(result, CMT_WRONG_TABLE) && cmt_value(result) == CMT_UNAVAILABLE;
    volume.record[0] ^= 1;
    right &= has_no_end(volume_repair(&volume), CMT_WRONG_RECORD);
    for (uint64_t number = 1; number < 256; number++) {
        right &= has_no_end(number, number) && has_no_end(UINT64_MAX - 255 + number, number);
    }
    return right;
}

/* Whether a head of these three words, after one that is right, is of this depth, length and table. */
static int head_is(const uint64_t *words, uint64_t depth, uint64_t length, uint64_t table_bytes)
{
    for (size_t i = 0; i < 3; i++) {
        put_word(volume.record, i, CMT_SIZE(words[i] / 1073741824), CMT_SIZE(words[i] % 1073741824));
    }
    return cmt_record_word(volume.record, 0) == words[0] && cmt_record_word(volume.record, 1) == words[1] &&
           cmt_record_word(volume.record, 2) == words[2] && cmt_record_depth(volume.record) == depth &&
           cmt_record_kind(volume.record) == words[0] / 1073741824 &&
           cmt_record_length(volume.record) == length && cmt_record_table_bytes(volume.record) == table_bytes;
}

/* The depth of a head is 0 just where a call at the depth in it stops with 11; each kind is tried in each word. */
static int heads_are_taken(uint64_t depth, uint64_t length)
{
    const uint64_t kind = 1073741824, words[3] = {kind + depth, 2 * kind + length, 3 * kind + 61};
    int right = 1;
    for (size_t at = 0; at < 3; at++) {
        for (uint64_t other = 0; other < 4; other++) {
            uint64_t tried[3] = {words[0], words[1], words[2]};
            tried[at] = other * kind + words[at] % kind;
            int kind_is_right = other == at + 1 || (at == 0 && other == CMT_KIND_PLACED);
            int taken = kind_is_right && depth >= 1 && depth <= CMT_DEPTH_MAX && length <= CMT_BLOCK_BYTES(depth);
            right &= head_is(tried, taken ? depth : 0, length, 244);
            right &= depth != 1 || (volume_read(&volume) == CMT_WRONG_RECORD) == !taken;
        }
    }
    return right;
}

static int heads_are_right(void)
{
    const uint64_t most[3] = {2147483647, 3221225471, 4294967295};
    int right = cases_tree() && cmt_record_depth(volume.record) == 1 && cmt_record_length(volume.record) == 1024 &&
                cmt_record_kind(volume.record) == CMT_KIND_PLAIN &&
                cmt_record_table_bytes(volume.record) == CMT_HOUSE_TABLE_BYTES(1);
    for (uint64_t depth = 0; depth <= CMT_DEPTH_MAX + 1; depth++) {
        const uint64_t k = depth < 1 ? 1 : CMT_BLOCK_BYTES(depth);
        right &= heads_are_taken(depth, 0) && heads_are_taken(depth, k) && heads_are_taken(depth, k + 1);
        right &= heads_are_taken(depth, 1073741823);
    }
    return right && heads_are_taken(1073741823, 1024) && head_is(most, 0, 1073741823, 4294967292) &&
           CMT_RECORD_BYTES == CMT_RECORD_HEAD_BYTES + CMT_ROOT_BYTES;
}

/* The ends that a result has room for: all below CMT_NO_END, with what goes with them. */
static int ends_have_room(void)
{
    const uint64_t step = 256, most = UINT64_MAX - 255, whole = most - step * (CMT_NO_END - 1);
    const uint64_t fault = whole + step * CMT_FAULT, unavailable = whole + step * CMT_UNAVAILABLE;
    const uint64_t misfilled = whole + step * CMT_MISFILLED;
    return cmt_repair_end(whole) == CMT_WHOLE && cmt_repair_end(most) == CMT_NO_END - 1 && cmt_repair_stored(most) == 65535 &&
           cmt_repair_end(fault) == CMT_FAULT && cmt_repair_proof_bytes(fault) == 65535 &&
           cmt_repair_layer(fault) == 0 && cmt_repair_end(unavailable) == CMT_UNAVAILABLE &&
           cmt_repair_layer(unavailable) == 65535 && cmt_repair_proof_bytes(unavailable) == 0 &&
           cmt_repair_end(misfilled) == CMT_MISFILLED && cmt_repair_stored(misfilled) == 65535 &&
           cmt_repair_proof_bytes(misfilled) == 0 && cmt_repair_layer(misfilled) == 0;
}

/* The place that twins name: the least, where it is none, and the last of the largest depth. */
static int twins_have_a_place(void)
{
    const uint64_t twins = 256 * CMT_TWINS, step = UINT64_C(281474976710656), last = twins + step * (8 * 4096 + 4095);
    const uint64_t fault = 256 * CMT_FAULT + step * 18188;
    return cmt_repair_twins_layer(twins) == 0 && cmt_repair_twins_number(twins) == 0 && cmt_repair_twins_layer(last) == 8 &&
           cmt_repair_twins_number(last) == 4095 && cmt_repair_end(last) == CMT_TWINS && cmt_repair_layer(last) == 0 &&
           cmt_repair_proof_bytes(last) == 0 && cmt_repair_stored(last + step / 65536 * 7) == 7 &&
           cmt_repair_twins_layer(fault) == 0 && cmt_repair_twins_number(fault) == 0 &&
           cmt_repair_twins_layer(CMT_WRONG_DEPTH + last) == 0 && cmt_repair_twins_number(CMT_WRONG_DEPTH + last) == 0;
}

/* 01's tree, recoded, is that of the other kind; with a page that is absent it is not whole. */
static int recodings_are_right(void)
{
    static struct volume placed, new_one;
    int right = cases_tree() && volume_begin(&placed, 1) == CMT_DONE;
    placed.kind = CMT_KIND_PLACED;
    right &= volume_write(&placed) == CMT_DONE && volume_recode(&volume, &new_one) == CMT_DONE;
    right &= memcmp(placed.record, new_one.record, sizeof placed.record) == 0 && cmt_record_depth(placed.record) == 1 &&
             cmt_record_kind(placed.record) == CMT_KIND_PLACED && CMT_PLACE_BYTES == 4;
    placed.marks[15] = 0;
    return right && volume_recode(&placed, &new_one) == CMT_NOT_WHOLE && CMT_NOT_WHOLE == 14;
}

/* Lengths at the largest depth, which constants can hold, and how much stack each depth is said to need. */
static int sizes_are_right(void)
{
    static const uint8_t sizes[CMT_STACK_BYTES_AT(CMT_DEPTH_MAX) > CMT_OUTPUT_BYTES(CMT_DEPTH_MAX) ? 1 : -1] = {0};
    int right = sizeof sizes == 1 && CMT_DEPTH_MAX == 9 && CMT_TABLE_BYTES_MAX == 220792;
    for (uint64_t depth = 1; depth <= 5; depth++) {
        right &= CMT_STACK_BYTES_AT(depth) == CMT_STACK_BYTES;
    }
    for (uint64_t depth = 6; depth <= 9; depth++) {
        right &= CMT_STACK_BYTES_AT(depth) == CMT_STACK_BYTES_DEEP;
    }
    return right && CMT_HOUSE_TABLE_BYTES(9) == 122644 && CMT_MARKS_BYTES(9) == 8176 && CMT_TREE_BYTES(9) == 2093056 &&
           CMT_BLOCK_BYTES(9) == 262144 && CMT_SAMPLE_BYTES(9) == 4352 && CMT_PROOF_BYTES(8, 8) == 18188 &&
           CMT_OUTPUT_BYTES(9) == 18188 && CMT_OUTPUT_BYTES(5) == 9996;
}

struct words {
    uint64_t of;
    const char *text;
};

static int texts_are_right(void)
{
    static const char none[] = "a number that no call gives";
    static const struct words numbers[] = {
        {CMT_DONE, "done, or accepted"},
        {CMT_WRONG_DEPTH, "the depth is not 1 to 9"},
        {CMT_WRONG_LENGTH, "a length is wrong"},
        {CMT_WRONG_TABLE, "the table breaks a rule"},
        {CMT_WRONG_MARK, "a mark is neither 0 nor 1"},
        {CMT_WRONG_NUMBER, "the base has no page of this number"},
        {CMT_WRONG_HEAD, "the proof's head has a wrong kind, layer or equation, or the equation has no such member"},
        {CMT_WRONG_HASH, "a hash doesn't lead to the root"},
        {CMT_NO_FAULT, "the withheld hash fits: the proof shows no fault"},
        {CMT_ABSENT, "a needed page is absent"},
        {CMT_UNCOVERED, "a data page stands in fewer than two equations of its layer"},
        {CMT_WRONG_RECORD,
         "the record's head, or what is to be coded, has a wrong kind; or the head has a length that is too large, or "
         "another depth than the call's"},
        {CMT_OTHER_TABLE, "the table is not the one that the record names"},
        {CMT_MISFILLED, none},
        {CMT_NOT_WHOLE, "the tree is not whole as it is, so it is not recoded"},
    };
    const uint64_t known = sizeof numbers / sizeof *numbers;
    int right = known == 15 && strcmp(cmt_explain(UINT64_MAX), none) == 0;
    for (uint64_t number = 0; number < 512; number++) {
        const char *text = number < known ? numbers[number].text : none;
        right &= (number >= known || numbers[number].of == number) && strcmp(cmt_explain(number), text) == 0;
    }
    return right;
}

static int end_texts_are_right(void)
{
    static const char none[] = "an end that no repair has";
    static const struct words ends[] = {
        {CMT_WHOLE, "whole: every page is held, and the tree agrees with the record and the table"},
        {CMT_FAULT, "fault: the volume was not coded as the table says"},
        {CMT_UNAVAILABLE, "unavailable: no equation gives another page of the layer"},
        {CMT_TWINS, "twins: two different pages of equal hash were found"},
        {CMT_MISFILLED,
         "misfilled: every page is held, and the tree agrees with the root and the table, but what fills up the volume "
         "isn't zero"},
        {CMT_NO_END, "no end: the repair stopped"},
        {CMT_TWINS + 1, none},
        {CMT_MISFILLED - 1, none},
        {CMT_MISFILLED + 1, none},
        {CMT_NO_END - 1, none},
        {CMT_NO_END + 1, none},
        {UINT64_MAX, none},
    };
    int right = 1;
    for (size_t i = 0; i < sizeof ends / sizeof *ends; i++) {
        right &= strcmp(cmt_explain_end(ends[i].of), ends[i].text) == 0;
    }
    return right;
}

static int version_is_right(void)
{
    char text[64];
    int len = snprintf(text, sizeof text, "%d.%d.%d", CMT_VERSION_MAJOR, CMT_VERSION_MINOR, CMT_VERSION_PATCH);
    return len > 0 && strcmp(text, CMT_VERSION) == 0;
}

static int digests_are_right(void)
{
    const uint8_t message[3] = {'a', 'b', 'c'};
    uint8_t digest[sizeof abc] = {0};
    uint64_t result = cmt_sha256(message, sizeof message, digest, sizeof digest - 1);
    int refused = cmt_number(result) == CMT_WRONG_LENGTH;
    result = cmt_sha256(message, sizeof message, digest, sizeof digest);
    return refused && cmt_number(result) == CMT_DONE && memcmp(digest, abc, sizeof abc) == 0;
}

int main(void)
{
    static const struct {
        const char *name;
        int (*right)(void);
    } parts[] = {
        {"digests", digests_are_right},
        {"tables", tables_are_right},
        {"values", values_are_apart},
        {"sizes", sizes_are_right},
        {"heads of records", heads_are_right},
        {"repairs and proofs", repairs_are_right},
        {"repairs that stop", stops_have_no_end},
        {"ends", ends_have_room},
        {"twins", twins_have_a_place},
        {"recodings", recodings_are_right},
        {"the words for numbers", texts_are_right},
        {"the words for ends", end_texts_are_right},
        {"the version", version_is_right},
    };
    for (size_t i = 0; i < sizeof parts / sizeof *parts; i++) {
        if (!parts[i].right()) {
            printf("header: %s: not as they should be\n", parts[i].name);
            return 1;
        }
    }
    printf("header: ok\n");
    return 0;
}
