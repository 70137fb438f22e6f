/*
 * Where a path breaks: samples and proofs at depths 1, 3, 5 and 9, with damage whose
 * layer, and of a proof whose position, were worked out by hand, which are the same in
 * both kinds of volume. Each is as before when the damage is undone.
 */
#include "parts.h"
#include "volume.h"

#include <string.h>

#define MEMBERS 4
#define DAMAGES 3

static struct volume volume;
static uint64_t kind;
static uint8_t sample[CMT_SAMPLE_BYTES(CMT_DEPTH_MAX)];

/* So many bytes of pages, a bit of each of which is changed, or changed back. */
struct damage {
    size_t count;
    struct {
        size_t page, byte;
    } at[DAMAGES];
};

static void damage(uint8_t *pages, const struct damage *d)
{
    for (size_t i = 0; i < d->count; i++) {
        pages[256 * d->at[i].page + d->at[i].byte] ^= 0x10;
    }
}

/* Whether a result is this one, as a whole and as the header's functions read it. */
static int breaks(uint64_t result, uint64_t layer, uint64_t position)
{
    return result == 7 + (layer << 8) + (position << 32) && cmt_number(result) == CMT_WRONG_HASH &&
           cmt_value(result) == layer && cmt_second_value(result) == position;
}

static int begin(uint64_t depth)
{
    int begun = volume_begin(&volume, depth) == CMT_DONE;
    volume.kind = kind;
    return begun && volume_write(&volume) == CMT_DONE;
}

static int take(uint64_t number)
{
    return cmt_sample_take(volume.depth, number, volume.tree, CMT_TREE_BYTES(volume.depth), volume.marks,
                           CMT_MARKS_BYTES(volume.depth), sample, CMT_SAMPLE_BYTES(volume.depth)) == CMT_DONE;
}

static uint64_t check_sample(uint64_t number)
{
    return cmt_sample_check(volume.depth, number, volume.record, sizeof volume.record, sample,
                            CMT_SAMPLE_BYTES(volume.depth));
}

/*
 * A sample at depth 3 of base page 61 has then 5 and 21 of layer 1, 1 and 5 of layer 0. The hash of 61 is in 5 from
 * byte 224 on, those of 5 and 21 in layer 0's 1 from bytes 32 and 160 on. One at depth 5 of base page 200 has then 8
 * and 40, 8 and 24, 0 and 16, 0 and 12. The hash of 200 is from byte 192 on in the first of these, and those of each
 * two from bytes 0 and 64, 32 and 96, 0 and 128 on in the next data page. One at depth 9 of base page 3000 has then 440
 * and 1976, 184 and 952, 56 and 440, 56 and 184, 24 and 56, 8 and 40, 0 and 8, 0 and 4. The hash of 3000 is from byte 160
 * on in the first of these, and those of each two from bytes 32 and 224, 32 and 224, 0 and 192, 32 and 160, 32 and 96, 32
 * and 160, 0 and 64 on in the next data page.
 */
static const struct {
    uint64_t depth, number;
    struct damage damage;
    uint64_t layer;
} samples[] = {
    {1, 9, {1, {{0, 0}}}, 0},
    /* The base page, and its hash. */
    {3, 61, {1, {{0, 0}}}, 2},
    {3, 61, {1, {{1, 224}}}, 2},
    /* Data and parity, each alone, the hash of each, and both. */
    {3, 61, {1, {{1, 223}}}, 1},
    {3, 61, {1, {{2, 0}}}, 1},
    {3, 61, {1, {{3, 63}}}, 1},
    {3, 61, {1, {{3, 160}}}, 1},
    {3, 61, {2, {{1, 0}, {2, 0}}}, 1},
    {3, 61, {1, {{3, 64}}}, 0},
    {3, 61, {1, {{4, 160}}}, 0},
    {3, 61, {2, {{3, 0}, {4, 0}}}, 0},
    /* Two layers. */
    {3, 61, {2, {{4, 0}, {2, 0}}}, 1},
    {3, 61, {2, {{4, 0}, {1, 0}}}, 1},
    {3, 61, {2, {{3, 0}, {0, 0}}}, 2},
    {5, 200, {1, {{0, 255}}}, 4},
    {5, 200, {1, {{1, 223}}}, 4},
    {5, 200, {1, {{1, 224}}}, 3},
    {5, 200, {1, {{2, 0}}}, 3},
    {5, 200, {1, {{3, 0}}}, 3},
    {5, 200, {1, {{3, 95}}}, 3},
    {5, 200, {1, {{3, 32}}}, 2},
    {5, 200, {1, {{4, 255}}}, 2},
    {5, 200, {1, {{5, 32}}}, 2},
    {5, 200, {1, {{5, 96}}}, 2},
    {5, 200, {1, {{5, 0}}}, 1},
    {5, 200, {1, {{6, 0}}}, 1},
    {5, 200, {1, {{7, 31}}}, 1},
    {5, 200, {1, {{7, 128}}}, 1},
    {5, 200, {1, {{7, 127}}}, 0},
    {5, 200, {1, {{8, 128}}}, 0},
    {5, 200, {2, {{7, 255}, {8, 255}}}, 0},
    {5, 200, {2, {{8, 0}, {1, 0}}}, 3},
    {5, 200, {3, {{8, 0}, {6, 0}, {4, 0}}}, 2},
    {9, 3000, {1, {{0, 255}}}, 8},
    {9, 3000, {1, {{1, 160}}}, 8},
    {9, 3000, {1, {{1, 191}}}, 8},
    {9, 3000, {1, {{1, 192}}}, 7},
    {9, 3000, {1, {{2, 0}}}, 7},
    {9, 3000, {1, {{3, 32}}}, 7},
    {9, 3000, {1, {{3, 255}}}, 7},
    {9, 3000, {1, {{3, 64}}}, 6},
    {9, 3000, {1, {{4, 0}}}, 6},
    {9, 3000, {1, {{5, 63}}}, 6},
    {9, 3000, {1, {{5, 224}}}, 6},
    {9, 3000, {1, {{5, 0}}}, 5},
    {9, 3000, {1, {{6, 0}}}, 5},
    {9, 3000, {1, {{7, 0}}}, 5},
    {9, 3000, {1, {{7, 192}}}, 5},
    {9, 3000, {1, {{7, 32}}}, 4},
    {9, 3000, {1, {{8, 255}}}, 4},
    {9, 3000, {1, {{9, 32}}}, 4},
    {9, 3000, {1, {{9, 160}}}, 4},
    {9, 3000, {1, {{9, 0}}}, 3},
    {9, 3000, {1, {{10, 0}}}, 3},
    {9, 3000, {1, {{11, 32}}}, 3},
    {9, 3000, {1, {{11, 96}}}, 3},
    {9, 3000, {1, {{11, 0}}}, 2},
    {9, 3000, {1, {{12, 0}}}, 2},
    {9, 3000, {1, {{13, 32}}}, 2},
    {9, 3000, {1, {{13, 191}}}, 2},
    {9, 3000, {1, {{13, 0}}}, 1},
    {9, 3000, {1, {{14, 0}}}, 1},
    {9, 3000, {1, {{15, 31}}}, 1},
    {9, 3000, {1, {{15, 64}}}, 1},
    {9, 3000, {1, {{15, 32}}}, 0},
    {9, 3000, {1, {{16, 0}}}, 0},
    {9, 3000, {2, {{16, 0}, {2, 0}}}, 7},
    {9, 3000, {3, {{16, 0}, {12, 0}, {6, 0}}}, 5},
};

static int of_samples(void)
{
    int right = 1;
    for (size_t i = 0; i < sizeof samples / sizeof *samples; i++) {
        const uint64_t number = samples[i].number;
        right &= (samples[i].depth == volume.depth || begin(samples[i].depth)) && take(number) &&
                 check_sample(number) == CMT_DONE;
        damage(sample, &samples[i].damage);
        right &= breaks(check_sample(number), samples[i].layer, 0);
        damage(sample, &samples[i].damage);
        right &= check_sample(number) == CMT_DONE;
    }
    return right;
}

/* Of the root's sixteen hashes only those of the sample's own pages of layer 0 count. */
static int of_samples_by_the_root(void)
{
    static const struct {
        uint64_t depth, number;
        unsigned own;
    } roots[] = {{1, 9, 1u << 9}, {3, 61, 1u << 1 | 1u << 5}, {5, 200, 1u << 0 | 1u << 12}, {9, 3000, 1u << 0 | 1u << 4}};
    int right = 1;
    for (size_t i = 0; i < sizeof roots / sizeof *roots; i++) {
        right &= begin(roots[i].depth) && take(roots[i].number);
        for (size_t hash = 0; hash < 16; hash++) {
            volume_root_hash(&volume, hash)[hash] ^= 1;
            uint64_t result = check_sample(roots[i].number);
            right &= roots[i].own >> hash & 1 ? breaks(result, 0, 0) : result == CMT_DONE;
            volume_root_hash(&volume, hash)[hash] ^= 1;
        }
    }
    return right;
}

/* Puts a page of a layer, and then those above it, into the proof at a place, and gives the place after them. */
static size_t put_path(size_t at, uint64_t layer, size_t page)
{
    for (uint64_t up = layer + 1; up-- > 0;) {
        size_t place = 16 * (((size_t)1 << up) - 1) + (up == layer ? page : page % ((size_t)4 << up));
        memcpy(volume.output + at, volume.tree + 256 * place, 256);
        at += 256;
    }
    return at;
}

/* Writes the proof of an equation with one member withheld, and gives its length. */
static size_t put_proof(uint64_t layer, size_t equation, const size_t *members, size_t withheld)
{
    size_t at = CMT_PROOF_HEAD_BYTES;
    put_word(volume.output, 0, 1, (size_t)layer);
    put_word(volume.output, 1, 2, equation);
    put_word(volume.output, 2, 3, members[withheld]);
    for (size_t i = 0; i < MEMBERS; i++) {
        at = i == withheld ? at : put_path(at, layer, members[i]);
    }
    /* The path begins at the page above the withheld one. */
    return layer == 0 ? at : put_path(at, layer - 1, members[withheld] % ((size_t)2 << layer));
}

/* The last equation of a layer of k data pages has 2, k - 1, 4k - 2 and 4k - 1. On none of their paths is a hash in a
 * page from byte 128 to 159. Pages k - 1 and 4k - 1 have one path, which is given twice. */
static const struct {
    uint64_t depth, layer;
    size_t equation, members[MEMBERS];
} proofs[] = {
    {1, 0, 11, {2, 3, 14, 15}},
    {3, 0, 11, {2, 3, 14, 15}},
    {3, 1, 23, {2, 7, 30, 31}},
    {3, 2, 47, {2, 15, 62, 63}},
    {5, 0, 11, {2, 3, 14, 15}},
    {5, 1, 23, {2, 7, 30, 31}},
    {5, 2, 47, {2, 15, 62, 63}},
    {5, 3, 95, {2, 31, 126, 127}},
    {5, 4, 191, {2, 63, 254, 255}},
    {9, 0, 11, {2, 3, 14, 15}},
    {9, 1, 23, {2, 7, 30, 31}},
    {9, 2, 47, {2, 15, 62, 63}},
    {9, 3, 95, {2, 31, 126, 127}},
    {9, 4, 191, {2, 63, 254, 255}},
    {9, 5, 383, {2, 127, 510, 511}},
    {9, 6, 767, {2, 255, 1022, 1023}},
    {9, 7, 1535, {2, 511, 2046, 2047}},
    {9, 8, 3071, {2, 1023, 4094, 4095}},
};

/* Each page of a proof that shows no fault, damaged alone: from each member up, the withheld one last. */
static int each_page(uint64_t layer, size_t length)
{
    uint8_t *pages = volume.output + CMT_PROOF_HEAD_BYTES;
    int right = volume_check(&volume, length) == CMT_NO_FAULT;
    struct damage one = {1, {{0, 128}}};
    for (uint64_t position = 0; position < MEMBERS; position++) {
        for (uint64_t up = position < MEMBERS - 1 ? layer + 1 : layer; up-- > 0; one.at[0].page++) {
            damage(pages, &one);
            right &= breaks(volume_check(&volume, length), up, position);
            damage(pages, &one);
            right &= volume_check(&volume, length) == CMT_NO_FAULT;
        }
    }
    return right && length == CMT_PROOF_HEAD_BYTES + 256 * one.at[0].page;
}

static int of_proofs(void)
{
    int right = 1;
    for (size_t i = 0; i < sizeof proofs / sizeof *proofs; i++) {
        right &= begin(proofs[i].depth);
        for (size_t withheld = 0; withheld < MEMBERS; withheld++) {
            size_t length = put_proof(proofs[i].layer, proofs[i].equation, proofs[i].members, withheld);
            right &= length == CMT_PROOF_BYTES(proofs[i].layer, MEMBERS) && each_page(proofs[i].layer, length);
        }
    }
    return right;
}

/* A fault's proof at depth 3: 1, 15 and 63 are given, each with a path of two pages, and of 62 its path. */
static int of_some_pages(void)
{
    static const struct {
        struct damage damage;
        uint64_t layer, position;
    } rows[] = {
        /* Two pages of one path. */
        {{2, {{2, 128}, {0, 128}}}, 2, 0},
        {{2, {{5, 128}, {4, 128}}}, 1, 1},
        {{2, {{10, 128}, {9, 128}}}, 1, 3},
        /* Two members: the first counts, though it breaks further up. */
        {{2, {{3, 128}, {2, 128}}}, 0, 0},
        {{3, {{9, 128}, {6, 128}, {5, 128}}}, 0, 1},
        {{2, {{9, 128}, {8, 128}}}, 0, 2},
        /* One of two equal pages, and both. */
        {{1, {{4, 128}}}, 1, 1},
        {{1, {{7, 128}}}, 1, 2},
        {{2, {{8, 128}, {5, 128}}}, 0, 1},
        /* The hash for the page below: of 63, of layer 1's page 7 for 15, of layer 1's page 6 for 62. */
        {{1, {{7, 224}}}, 2, 2},
        {{1, {{5, 32}}}, 1, 1},
        {{1, {{10, 32}}}, 1, 3},
    };
    static const size_t members[MEMBERS] = {1, 15, 62, 63};
    uint8_t *pages = volume.output + CMT_PROOF_HEAD_BYTES;
    int right = begin(3) && volume_change_table(&volume) == CMT_DONE;
    size_t length = put_proof(2, 47, members, 2);
    for (size_t i = 0; i < sizeof rows / sizeof *rows; i++) {
        damage(pages, &rows[i].damage);
        right &= breaks(volume_check(&volume, length), rows[i].layer, rows[i].position);
        damage(pages, &rows[i].damage);
        right &= volume_check(&volume, length) == CMT_DONE;
    }
    return right;
}

/*
 * Each hash of the root, for proofs that withhold their third member. One of layer 0 gives 2, 3 and 15: its withheld
 * page 14 has no path, and another hash for it shows a fault where there was none. The fault's proof of layer 2 has
 * paths that end at pages 1, 3 and 3 of layer 0, and the withheld one's at 2.
 */
static int of_proofs_by_the_root(void)
{
#define TOP(position) (CMT_WRONG_HASH + ((uint64_t)(position) << 32))
    static const struct {
        uint64_t layer;
        size_t equation, members[MEMBERS];
        uint64_t results[16];
    } roots[] = {
        {0, 11, {2, 3, 14, 15}, {8, 8, TOP(0), TOP(1), 8, 8, 8, 8, 8, 8, 8, 8, 8, 8, CMT_DONE, TOP(2)}},
        {2, 47, {1, 15, 62, 63}, {CMT_DONE, TOP(0), TOP(3), TOP(1), CMT_DONE /* and all others */}},
    };
    int right = begin(3);
    for (size_t i = 0; i < 2; i++) {
        size_t length = put_proof(roots[i].layer, roots[i].equation, roots[i].members, 2);
        for (size_t hash = 0; hash < 16; hash++) {
            volume_root_hash(&volume, hash)[31 - hash] ^= 1;
            right &= volume_check(&volume, length) == roots[i].results[hash];
            volume_root_hash(&volume, hash)[31 - hash] ^= 1;
        }
        right &= volume_change_table(&volume) == CMT_DONE;
    }
    return right;
}

int main(void)
{
    static const struct part parts[] = {
        {"samples", of_samples},
        {"samples and the root", of_samples_by_the_root},
        {"each page of a proof", of_proofs},
        {"some pages of a proof", of_some_pages},
        {"proofs and the root", of_proofs_by_the_root},
    };
    const size_t count = sizeof parts / sizeof *parts;
    kind = CMT_KIND_PLACED;
    if (run_parts("breaks, with places", parts, count) != 0) {
        return 1;
    }
    kind = CMT_KIND_PLAIN;
    return run_parts("breaks, plain", parts, count);
}
