/*
 * The two kinds of volume, and recoding: the hash of a page with its place, worked
 * out by sha256sum and by hand; the kinds that the writer is told; blank pages, and
 * records of the other kind; volumes of each depth and of any length, recoded there
 * and back again; sources that are not whole, which leave all as it was; and the
 * recoder's tests in their order. Wrong functions are tried first, and each must be
 * found by its own part.
 */
#include "parts.h"
#include "recode_calls.h"

enum { LENGTHS = 7, BEFORE = 0xa5, PAGE = 256, HASH = CMT_SHA256_DIGEST_BYTES };

static const struct calls *calls = &library;
static struct volume volume, other, new_one, before, new_before;

/* The volume of a kind, coded, of this length. */
static int code(struct volume *v, uint64_t depth, uint64_t kind, size_t length)
{
    int begun = volume_begin(v, depth) == CMT_DONE;
    v->kind = kind;
    v->block_len = length;
    return begun && calls->write(depth, kind, v->table, CMT_HOUSE_TABLE_BYTES(depth), v->block, length, v->tree,
                                 CMT_TREE_BYTES(depth), v->marks, CMT_MARKS_BYTES(depth), v->record,
                                 sizeof v->record) == CMT_DONE;
}

/* The lengths of what a recoder is lent. */
enum { RECORD, TABLE, TREE, MARKS, NEW_TREE, NEW_MARKS, NEW_RECORD, LENT_TO_IT };

static uint64_t recode_of(uint64_t depth, const size_t *len)
{
    return calls->recode(depth, volume.record, len[RECORD], volume.table, len[TABLE], volume.tree, len[TREE], volume.marks,
                         len[MARKS], new_one.tree, len[NEW_TREE], new_one.marks, len[NEW_MARKS], new_one.record,
                         len[NEW_RECORD]);
}

/* Recodes the volume into the new one, which then holds other bytes everywhere else. */
static uint64_t recode(void)
{
    const uint64_t d = volume.depth;
    const size_t len[LENT_TO_IT] = {CMT_RECORD_BYTES,  CMT_HOUSE_TABLE_BYTES(d), CMT_TREE_BYTES(d),
                                    CMT_MARKS_BYTES(d), CMT_TREE_BYTES(d),        CMT_MARKS_BYTES(d),
                                    CMT_RECORD_BYTES};
    memset(&new_one, BEFORE, sizeof new_one);
    memcpy(&before, &volume, sizeof before);
    memcpy(&new_before, &new_one, sizeof new_before);
    return recode_of(d, len);
}

/* Whether a recoder that stopped has left everything as it was. */
static int is_untouched(void)
{
    return memcmp(&before, &volume, sizeof before) == 0 && memcmp(&new_before, &new_one, sizeof new_before) == 0;
}

static int stops_with(uint64_t result)
{
    return recode() == result && is_untouched();
}

/* Whether bytes are those that hexadecimal digits say. */
static int bytes_are(const uint8_t *bytes, const char *digits)
{
    static const char values[] = "0123456789abcdef";
    for (size_t i = 0; digits[2 * i] != '\0'; i++) {
        if (bytes[i] != 16 * (strchr(values, digits[2 * i]) - values) + (strchr(values, digits[2 * i + 1]) - values)) {
            return 0;
        }
    }
    return 1;
}

/* The hash that is committed for a page: in the root, or in a data page of the layer above. */
static const uint8_t *committed(const struct volume *v, size_t layer, size_t number)
{
    const size_t s = (size_t)2 << layer, above = CMT_MARKS_BYTES(layer - 1) + number % s;
    return layer == 0 ? v->record + CMT_RECORD_HEAD_BYTES + HASH * number : v->tree + PAGE * above + HASH * (number / s);
}

/* Every hash of a volume is that of the place and the page, or of the page alone. */
static int hashes_are_right(const struct volume *v)
{
    uint8_t message[CMT_PLACE_BYTES + PAGE], digest[HASH];
    const size_t skipped = v->kind == CMT_KIND_PLAIN ? CMT_PLACE_BYTES : 0;
    int right = 1;
    for (size_t layer = 0; layer < v->depth; layer++) {
        for (size_t number = 0; number < (size_t)16 << layer; number++) {
            const uint8_t place[CMT_PLACE_BYTES] = {(uint8_t)(0x40 + layer), 0, (uint8_t)(number / 256), (uint8_t)number};
            memcpy(message, place, sizeof place);
            memcpy(message + CMT_PLACE_BYTES, v->tree + PAGE * (CMT_MARKS_BYTES(layer) + number), PAGE);
            right &= cmt_sha256(message + skipped, sizeof message - skipped, digest, sizeof digest) == CMT_DONE &&
                     memcmp(digest, committed(v, layer, number), HASH) == 0;
        }
    }
    return right;
}

/*
 * By sha256sum: page 0 of layer 0, which is 256 bytes of 01, after 40 00 00 00; and at depth 2 page 31 of the base, all
 * zeros, after 41 00 00 1f, whose hash stands in page 3 of layer 0 from byte 224 on, as 01's case 10 has it. Plain, each
 * without these four bytes. The record's first word is the depth, with the kind above it; the rest of the head is alike.
 */
static int hashes_are_worked_out(void)
{
    int right = code(&volume, 1, CMT_KIND_PLACED, 1024) && code(&other, 1, CMT_KIND_PLAIN, 1024);
    right &= bytes_are(volume.record, "00000001800004") && bytes_are(other.record, "40000001800004");
    right &= memcmp(volume.record + 1, other.record + 1, CMT_RECORD_HEAD_BYTES - 1) == 0;
    right &= bytes_are(volume_root_hash(&volume, 0), "d30af8af42509ccd5c2f820d9f2b1b926bd9abd8937b9910083fce1c5f9a098b");
    right &= bytes_are(volume_root_hash(&other, 0), "2661920f2409dd6c8adeb0c44972959f232b6429afa913845d0fd95e7e768234");
    right &= code(&volume, 2, CMT_KIND_PLACED, 2048) && code(&other, 2, CMT_KIND_PLAIN, 2048);
    right &= bytes_are(volume.tree + PAGE * 3 + 224, "851b887d196c4f6d2fc439fae9951cbbc0f6b9a6c1181a351bcb772fa262226f");
    right &= bytes_are(other.tree + PAGE * 3 + 224, "5341e6b2646979a70e57653007a1f310169421ec9bdd9f1a5648f75ade005af1");
    for (uint64_t depth = 1; right && depth <= CMT_DEPTH_MAX; depth++) {
        right &= code(&volume, depth, CMT_KIND_PLACED, CMT_BLOCK_BYTES(depth)) && hashes_are_right(&volume);
        right &= code(&volume, depth, CMT_KIND_PLAIN, CMT_BLOCK_BYTES(depth)) && hashes_are_right(&volume);
    }
    return right;
}

/* What the writer gives for this kind and this table length of depth 2; where it is not done, all is as it was. */
static int told(uint64_t kind, size_t table_len, uint64_t result)
{
    memcpy(&before, &volume, sizeof before);
    uint64_t found = calls->write(2, kind, volume.table, table_len, volume.block, 700, volume.tree, CMT_TREE_BYTES(2),
                                  volume.marks, CMT_MARKS_BYTES(2), volume.record, sizeof volume.record);
    return found == result && (result == CMT_DONE || memcmp(&before, &volume, sizeof before) == 0);
}

/* Another kind than 0 and 1 is 11: after 2, and before 3 and 10. */
static int kinds_are_told(void)
{
    static const uint8_t thin[][2] = {{11, 1}, {22, 1}, {32, 3}, {52, 3}, {56, 1}};
    const uint64_t two_32 = UINT64_C(4294967296), none[] = {2, 3, 255, 256, 257, two_32, two_32 + 1, two_32 * 2147483648,
                                                            two_32 * 2147483648 + 1, UINT64_MAX};
    const size_t table = CMT_HOUSE_TABLE_BYTES(2);
    int right = volume_begin(&volume, 2) == CMT_DONE;
    right &= told(CMT_KIND_PLACED, table, CMT_DONE) && cmt_record_kind(volume.record) == 0;
    right &= told(CMT_KIND_PLAIN, table, CMT_DONE) && cmt_record_kind(volume.record) == 1;
    for (size_t i = 0; i < sizeof none / sizeof *none; i++) {
        right &= told(none[i], table, CMT_WRONG_RECORD) && told(none[i], table - 1, CMT_WRONG_LENGTH);
        right &= told(none[i], table - 4, CMT_WRONG_RECORD) && told(none[i], 0, CMT_WRONG_RECORD);
    }
    right &= told(0, table - 4, CMT_WRONG_TABLE + 256 * (table / 4 - 1));
    for (size_t i = 0; i < sizeof thin / sizeof *thin; i++) {
        volume.table[4 * thin[i][0] + 3] = thin[i][1];
    }
    return right && told(2, table, CMT_WRONG_RECORD) && told(1, table, CMT_UNCOVERED + (UINT64_C(2) << 32));
}

static uint8_t sample[CMT_SAMPLE_BYTES(CMT_DEPTH_MAX)];

/* Whether the sample of one page of the volume is accepted as that of another. */
static int passes_for(uint64_t one, uint64_t another)
{
    const uint64_t d = volume.depth;
    return cmt_sample_take(d, one, volume.tree, CMT_TREE_BYTES(d), volume.marks, CMT_MARKS_BYTES(d), sample,
                           CMT_SAMPLE_BYTES(d)) == CMT_DONE &&
           calls->sample(d, another, volume.record, sizeof volume.record, sample, CMT_SAMPLE_BYTES(d)) == CMT_DONE;
}

/* Of a blank volume each page passes for any other, where it is plain; with places page 0 of the base only for itself,
 * and for 12 and 24, which have the same pages above them. */
static int blank_pages_are_told_apart(void)
{
    int right = code(&volume, 2, CMT_KIND_PLAIN, 0);
    for (uint64_t number = 0; number < 32; number++) {
        right &= passes_for(0, number) && passes_for(number, 0);
    }
    right &= code(&volume, 2, CMT_KIND_PLACED, 0);
    for (uint64_t number = 0; number < 32; number++) {
        right &= passes_for(number, number) && passes_for(0, number) == (number % 12 == 0);
    }
    return right;
}

/* By a record of the other kind a sample breaks at the base, and a repair finds no page of layer 0 that fits. */
static int kinds_are_told_apart(void)
{
    int right = 1;
    for (uint64_t depth = 1; depth <= CMT_DEPTH_MAX; depth++) {
        for (uint64_t kind = 0; kind < 2; kind++) {
            right &= code(&volume, depth, kind, CMT_BLOCK_BYTES(depth)) && passes_for(5, 5);
            volume.record[0] ^= 0x40;
            right &= calls->sample(depth, 5, volume.record, sizeof volume.record, sample, CMT_SAMPLE_BYTES(depth)) ==
                     CMT_WRONG_HASH + 256 * (depth - 1);
            right &= volume_repair(&volume) == 256 * CMT_UNAVAILABLE;
        }
    }
    return right;
}

/* Lengths at the ends of pages and of the block, and beside them. */
static size_t length_at(uint64_t depth, size_t i)
{
    const size_t most = CMT_BLOCK_BYTES(depth), lengths[LENGTHS] = {0, 1, 255, 256, 257, most - 1, most};
    return lengths[i];
}

/* Whether the volume is recoded to what the writer makes of the other kind, and nothing else is touched. */
static int is_recoded(uint64_t kind, size_t length)
{
    const uint64_t d = volume.depth;
    if (!code(&other, d, 1 - kind, length) || recode() != CMT_DONE) {
        return 0;
    }
    memcpy(new_before.tree, other.tree, CMT_TREE_BYTES(d));
    memcpy(new_before.marks, other.marks, CMT_MARKS_BYTES(d));
    memcpy(new_before.record, other.record, sizeof other.record);
    return is_untouched();
}

/* There, and back again to the first tree, marks and record. */
static int volumes_are_recoded(void)
{
    for (uint64_t depth = 1; depth <= CMT_DEPTH_MAX; depth++) {
        for (size_t i = depth < 6 ? 0 : LENGTHS - 2; i < LENGTHS; i++) {
            const size_t length = length_at(depth, i);
            if (!code(&volume, depth, CMT_KIND_PLAIN, length) || !is_recoded(CMT_KIND_PLAIN, length)) {
                return 0;
            }
            memcpy(volume.tree, new_one.tree, sizeof volume.tree);
            memcpy(volume.marks, new_one.marks, sizeof volume.marks);
            memcpy(volume.record, new_one.record, sizeof volume.record);
            if (!is_recoded(CMT_KIND_PLACED, length)) {
                return 0;
            }
        }
    }
    return 1;
}

/* A page of each layer that is absent, and one with another bit: the first and the last. */
static int pages_are_needed(void)
{
    int right = 1;
    for (uint64_t depth = 1; depth <= CMT_DEPTH_MAX; depth += depth < 5 ? 1 : 4) {
        right &= code(&volume, depth, depth % 2, CMT_BLOCK_BYTES(depth)) && recode() == CMT_DONE;
        for (size_t layer = 0; layer < depth; layer++) {
            const size_t places[] = {CMT_MARKS_BYTES(layer), CMT_MARKS_BYTES(layer + 1) - 1};
            for (size_t i = 0; i < 2; i++) {
                volume.marks[places[i]] = 0;
                right &= stops_with(CMT_NOT_WHOLE);
                volume.marks[places[i]] = 1;
                volume.tree[PAGE * places[i] + layer] ^= 0x10;
                right &= stops_with(CMT_NOT_WHOLE);
                volume.tree[PAGE * places[i] + layer] ^= 0x10;
            }
        }
    }
    return right;
}

/* By a table that differs in the last equation, and that the record names, the base is miscoded. By a record with a
 * shorter length the filling is not zero: with a page that is, it is. And the hashes of the other kind. */
static int trees_must_agree(void)
{
    int right = 1;
    for (uint64_t depth = 1; depth <= CMT_DEPTH_MAX; depth += depth < 5 ? 1 : 4) {
        const size_t most = CMT_BLOCK_BYTES(depth);
        right &= code(&volume, depth, depth % 2, most) && volume_change_table(&volume) == CMT_DONE;
        right &= stops_with(CMT_NOT_WHOLE) && volume_change_table(&volume) == CMT_DONE && recode() == CMT_DONE;
        for (size_t i = 0; i < LENGTHS - 1; i++) {
            put_word(volume.record, 1, 2, length_at(depth, i));
            right &= stops_with(CMT_NOT_WHOLE);
        }
        put_word(volume.record, 1, 2, most);
        volume.record[0] ^= 0x40;
        right &= stops_with(CMT_NOT_WHOLE);
        right &= code(&volume, depth, depth % 2, most - PAGE);
        put_word(volume.record, 1, 2, most);
        right &= recode() == CMT_DONE;
    }
    return right;
}

/* A length of each buffer that is a byte off, with all else wrong too; a depth that there is not comes first. */
static int lengths_come_first(void)
{
    const size_t right_len[LENT_TO_IT] = {CMT_RECORD_BYTES,  CMT_HOUSE_TABLE_BYTES(1), CMT_TREE_BYTES(1),
                                          CMT_MARKS_BYTES(1), CMT_TREE_BYTES(1),        CMT_MARKS_BYTES(1),
                                          CMT_RECORD_BYTES};
    int right = code(&volume, 1, CMT_KIND_PLAIN, 1024) && recode() == CMT_DONE;
    volume.record[0] = volume.table[0] = volume.marks[0] = 0xff;
    right &= stops_with(CMT_WRONG_RECORD);
    for (size_t i = 0; i < LENT_TO_IT; i++) {
        for (size_t more = 0; more < 3; more += 2) {
            size_t len[LENT_TO_IT];
            memcpy(len, right_len, sizeof len);
            len[i] += more - 1;
            right &= recode_of(1, len) == CMT_WRONG_LENGTH && is_untouched();
            right &= recode_of(0, len) == CMT_WRONG_DEPTH && recode_of(CMT_DEPTH_MAX + 1, len) == CMT_WRONG_DEPTH;
            right &= recode_of(UINT64_C(4294967297), len) == CMT_WRONG_DEPTH && is_untouched();
        }
    }
    return right;
}

/* 11, 3, 10, 12, 4, 14: each is the first, and the cause of the one before is undone. */
static int tests_have_their_places(void)
{
    static const uint8_t thin[][2] = {{11, 1}, {22, 1}, {32, 3}, {52, 3}, {56, 1}};
    int right = code(&volume, 1, CMT_KIND_PLACED, 700);
    volume.tree[0] ^= 1;
    right &= stops_with(CMT_NOT_WHOLE);
    volume.marks[3] = 0;
    right &= stops_with(CMT_NOT_WHOLE);
    volume.marks[9] = 2;
    right &= stops_with(CMT_WRONG_MARK + 256 * 9);
    volume.record[20] ^= 1;
    right &= stops_with(CMT_OTHER_TABLE);
    for (size_t i = 0; i < sizeof thin / sizeof *thin; i++) {
        volume.table[4 * thin[i][0] + 3] = thin[i][1];
    }
    right &= stops_with(CMT_UNCOVERED + (UINT64_C(2) << 32));
    volume.table[7] = 9;
    right &= stops_with(CMT_WRONG_TABLE + 256);
    for (size_t kind = 2; kind < 4; kind++) {
        put_word(volume.record, 0, kind, 1);
        right &= stops_with(CMT_WRONG_RECORD);
    }
    put_word(volume.record, 0, 0, 2);
    return right && stops_with(CMT_WRONG_RECORD);
}

static const struct part parts[] = {
    {"hashes that were worked out", hashes_are_worked_out},
    {"the kinds that the writer is told", kinds_are_told},
    {"blank pages", blank_pages_are_told_apart},
    {"records of the other kind", kinds_are_told_apart},
    {"volumes that are recoded", volumes_are_recoded},
    {"pages that are needed", pages_are_needed},
    {"trees that must agree", trees_must_agree},
    {"lengths", lengths_come_first},
    {"the places of the tests", tests_have_their_places},
};

/* Each is the library but for one call, and is found by this part. */
static const struct {
    const char *name;
    struct calls calls;
    int (*part)(void);
} wrong[] = {
    {"writes_32_bits", {.write = writes_32_bits}, kinds_are_told},
    {"writes_1_bit", {.write = writes_1_bit}, kinds_are_told},
    {"writes_by_the_table_first", {.write = writes_by_the_table_first}, kinds_are_told},
    {"writes_the_other", {.write = writes_the_other}, hashes_are_worked_out},
    {"samples_of_either_kind", {.sample = samples_of_either_kind}, kinds_are_told_apart},
    {"recodes_anything", {.recode = recodes_anything}, trees_must_agree},
    {"recodes_repaired", {.recode = recodes_repaired}, pages_are_needed},
    {"recodes_misfilled", {.recode = recodes_misfilled}, trees_must_agree},
    {"recodes_faults", {.recode = recodes_faults}, trees_must_agree},
    {"recodes_too_soon", {.recode = recodes_too_soon}, trees_must_agree},
    {"recodes_with_the_old_kind", {.recode = recodes_with_the_old_kind}, volumes_are_recoded},
    {"recodes_to_itself", {.recode = recodes_to_itself}, volumes_are_recoded},
    {"recodes_the_longest", {.recode = recodes_the_longest}, volumes_are_recoded},
    {"recodes_the_source", {.recode = recodes_the_source}, volumes_are_recoded},
    {"recodes_by_the_tree_first", {.recode = recodes_by_the_tree_first}, tests_have_their_places},
};

static int is_found(size_t i)
{
    struct calls tried = wrong[i].calls;
    tried.write = tried.write == NULL ? library.write : tried.write;
    tried.recode = tried.recode == NULL ? library.recode : tried.recode;
    tried.sample = tried.sample == NULL ? library.sample : tried.sample;
    calls = &tried;
    int found = !wrong[i].part();
    calls = &library;
    return found;
}

int main(void)
{
    for (size_t i = 0; i < sizeof wrong / sizeof *wrong; i++) {
        if (!is_found(i)) {
            printf("recode: %s was not found\n", wrong[i].name);
            return 1;
        }
    }
    return run_parts("recode", parts, sizeof parts / sizeof *parts);
}
