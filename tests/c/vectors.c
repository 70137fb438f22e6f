/*
 * Writes the files of vectors/ into the current folder, as the library has
 * them: vectors/README.md says what each is.
 */
#define _POSIX_C_SOURCE 200809L
#include "volume.h"

#include <stdio.h>
#include <string.h>
#include <sys/stat.h>

enum { NONE = -1, PATH = 64, ROW = 16, SYMBOL = 256 };

/* What is done to a coded tree before it is repaired: places, each list ended
 * by NONE. A bad copy is marked held and has one other byte; junk stands under
 * mark 0. */
struct damage {
    const char *name;
    void (*code)(void);
    int lost[10];
    int lost_each;
    int bad[6];
    int junk;
};

/* A folder's vectors, of a volume of so many bytes; those of one with places have a folder beside it. Where a tree is
 * large, a damaged one is written as changes. */
struct vectors {
    const char *folder;
    uint64_t depth;
    size_t length;
    uint64_t sample;
    int large;
    struct damage damages[3];
};

static void code_rightly(void);
static void code_wrongly(void);
static void code_misfilled(void);

static const struct vectors ALL[] = {
    {"depth-1", 1, CMT_BLOCK_BYTES(1), 9, 0,
     {{"whole", code_rightly, {0, 1, NONE}, 0, {9, NONE}, 1},
      {"unavailable", code_rightly, {4, 5, 6, 8, 9, 12, 15, NONE}, 0, {0, NONE}, NONE},
      {"wrong", code_wrongly, {1, NONE}, 0, {NONE}, NONE}}},
    {"depth-2", 2, CMT_BLOCK_BYTES(2), 20, 1,
     {{"whole", code_rightly, {NONE}, 3, {3, 30, NONE}, 40},
      {"unavailable", code_rightly, {2, 19, 26, 33, 34, 40, 41, NONE}, 0, {42, NONE}, NONE},
      {"wrong", code_wrongly, {24, NONE}, 0, {NONE}, NONE}}},
    {"depth-3", 3, CMT_BLOCK_BYTES(3), 61, 1,
     {{"whole", code_rightly, {NONE}, 3, {0, 20, 90, NONE}, 49},
      {"unavailable", code_rightly, {4, 5, 6, 8, 9, 12, 15, 16, 50, NONE}, 0, {0, 60, NONE}, NONE},
      {"wrong", code_wrongly, {48, 49, NONE}, 0, {3, NONE}, NONE}}},
    {"depth-4", 4, CMT_BLOCK_BYTES(4), 100, 1,
     {{"whole", code_rightly, {NONE}, 4, {7, 33, 60, 200, NONE}, 113},
      {"unavailable", code_rightly, {5, 20, 66, 81, 82, 96, 97, 98, 130, NONE}, 0, {51, 140, NONE}, NONE},
      {"wrong", code_wrongly, {20, 100, NONE}, 0, {NONE}, NONE}}},
    {"depth-5", 5, CMT_BLOCK_BYTES(5), 200, 1,
     {{"whole", code_rightly, {NONE}, 4, {2, 40, 100, 150, 300, NONE}, 241},
      {"unavailable", code_rightly, {20, 115, 122, 146, 177, 178, 208, 209, 270, NONE}, 0, {210, 300, NONE}, NONE},
      {"wrong", code_wrongly, {60, NONE}, 0, {NONE}, NONE}}},
    {"depth-1-short", 1, 700, 2, 0,
     {{"whole", code_rightly, {2, 3, NONE}, 0, {5, NONE}, NONE},
      {"misfilled", code_misfilled, {2, 3, NONE}, 0, {9, NONE}, 3}}},
};

static const char *folder_of_all;
static struct volume right, lent, left;
static int failed;

static void must(int done, const char *what)
{
    if (!done) {
        fprintf(stderr, "vectors: %s: not written\n", what);
        failed = 1;
    }
}

/* A file of the volume's folder, or of a folder in it. */
static const char *path(const char *folder, const char *name)
{
    static char text[PATH];
    snprintf(text, sizeof text, "%s%s%s%s/%s", folder_of_all, right.kind == CMT_KIND_PLAIN ? "" : "-placed",
             *folder ? "/" : "", folder, name);
    return text;
}

static void save(const char *folder, const char *name, const void *bytes, size_t len)
{
    FILE *file = fopen(path(folder, name), "wb");
    size_t written = file == NULL ? 0 : fwrite(bytes, 1, len, file);
    must(file != NULL && fclose(file) == 0 && written == len, path(folder, name));
}

/* The rows of sixteen bytes in which a tree differs from the right one, as xxd has them. */
static void save_changes(const char *folder, const char *name, const uint8_t *tree)
{
    static char text[CMT_TREE_BYTES(CMT_DEPTH_MAX) * 4];
    size_t len = 0;
    for (size_t row = 0; row < CMT_TREE_BYTES(right.depth); row += ROW) {
        if (memcmp(tree + row, right.tree + row, ROW) == 0) {
            continue;
        }
        len += (size_t)sprintf(text + len, "%08zx:", row);
        for (size_t i = row; i < row + ROW; i++) {
            len += (size_t)sprintf(text + len, i % 2 == 0 ? " %02x" : "%02x", tree[i]);
        }
        text[len++] = '\n';
    }
    save(folder, name, text, len);
}

/* Prints the first bytes of the SHA-256 of a message. */
static size_t print_digest(char *text, const uint8_t *message, size_t len, size_t bytes)
{
    uint8_t digest[CMT_SHA256_DIGEST_BYTES];
    must(cmt_sha256(message, len, digest, sizeof digest) == CMT_DONE, "a digest");
    for (size_t i = 0; i < bytes; i++) {
        sprintf(text + 2 * i, "%02x", digest[i]);
    }
    return 2 * bytes;
}

/* Prints two spaces, and the check of a line: of a byte and then the line's bytes. */
static size_t print_check(char *text, uint8_t before, const uint8_t *bytes, size_t len)
{
    uint8_t message[1 + 32] = {before};
    memcpy(message + 1, bytes, len);
    size_t printed = (size_t)sprintf(text, "  ");
    printed += print_digest(text + printed, message, 1 + len, 2);
    return printed + (size_t)sprintf(text + printed, "\n");
}

/* Prints the line of a hash, which begins with this label. */
static size_t print_hash(char *text, const char *label, uint8_t before, const uint8_t *hash)
{
    size_t len = (size_t)sprintf(text, "%2s", label);
    for (int i = 0; i < 32; i++) {
        len += (size_t)sprintf(text + len, i % 4 == 0 ? " %02x" : "%02x", hash[i]);
    }
    return len + print_check(text + len, before, hash, 32);
}

/* The record as it is printed. */
static void save_print(void)
{
    const char *kind = cmt_record_kind(right.record) == CMT_KIND_PLAIN ? " plain" : " placed";
    const struct {
        const char *word, *unit;
    } heads[] = {{"depth", kind}, {"length", " bytes"}, {"table", " words"}};
    char text[2048], said[64], label[12] = "T";
    size_t len = 0;
    for (uint8_t i = 0; i < 3; i++) {
        const unsigned value = (unsigned)(cmt_record_word(right.record, i) % 1073741824);
        snprintf(said, sizeof said, "%-7s %u%s", heads[i].word, value, heads[i].unit);
        len += (size_t)sprintf(text + len, "%-20s", said);
        len += print_check(text + len, 16 + i, right.record + 4 * i, 4);
    }
    len += print_hash(text + len, label, 19, right.record + 12);
    for (uint8_t i = 0; i < 16; i++) {
        snprintf(label, sizeof label, "%d", i);
        len += print_hash(text + len, label, i, volume_root_hash(&right, i));
    }
    len += (size_t)sprintf(text + len, "check  ");
    len += print_digest(text + len, right.record, sizeof right.record, 4);
    text[len++] = '\n';
    save("", "record.txt", text, len);
}

/* The volume, coded as it should be as one of a kind, and a sample. */
static void save_right(const struct vectors *v, uint64_t kind)
{
    static uint8_t sample[CMT_SAMPLE_BYTES(CMT_DEPTH_MAX)];
    char name[PATH];
    folder_of_all = v->folder;
    must(volume_begin(&right, v->depth) == CMT_DONE, "the table");
    right.kind = kind;
    right.block_len = v->length;
    for (size_t i = 0; i < CMT_BLOCK_BYTES(v->depth); i++) {
        right.block[i] = (uint8_t)(i + i / SYMBOL);
    }
    must(volume_write(&right) == CMT_DONE, "the tree");
    must(cmt_sample_take(v->depth, v->sample, right.tree, CMT_TREE_BYTES(v->depth), right.marks, CMT_MARKS_BYTES(v->depth),
                         sample, CMT_SAMPLE_BYTES(v->depth)) == CMT_DONE, "the sample");
    must(mkdir(path("", ""), 0777) == 0, path("", ""));
    save("", "volume", right.block, right.block_len);
    save("", "table", right.table, CMT_HOUSE_TABLE_BYTES(v->depth));
    save("", "tree", right.tree, CMT_TREE_BYTES(v->depth));
    save("", "marks", right.marks, CMT_MARKS_BYTES(v->depth));
    save("", "record", right.record, sizeof right.record);
    snprintf(name, sizeof name, "sample-%d", (int)v->sample);
    save("", name, sample, CMT_SAMPLE_BYTES(v->depth));
    save_print();
}

static void apply(const struct damage *damage)
{
    for (size_t place = 0; damage->lost_each > 0 && place < CMT_MARKS_BYTES(lent.depth); place++) {
        lent.marks[place] = place % (size_t)damage->lost_each != 1;
    }
    for (const int *place = damage->lost; *place != NONE; place++) {
        lent.marks[*place] = 0;
    }
    for (const int *place = damage->bad; *place != NONE; place++) {
        lent.tree[SYMBOL * *place + *place % SYMBOL] ^= 0x10;
    }
    if (damage->junk != NONE) {
        memset(lent.tree + SYMBOL * damage->junk, 0xee, SYMBOL);
    }
}

/* The file that has the tree that a repair left: the right one, the one that it was lent, or a file of its own. */
static const char *save_left_tree(const char *folder, int large)
{
    size_t len = CMT_TREE_BYTES(right.depth);
    if (memcmp(left.tree, right.tree, len) == 0) {
        return "../tree";
    }
    if (memcmp(left.tree, lent.tree, len) == 0) {
        return "tree";
    }
    if (large) {
        save_changes(folder, "after-tree.xxd", left.tree);
        return "after-tree.xxd";
    }
    save(folder, "after-tree", left.tree, len);
    return "after-tree";
}

static const char *save_left_marks(const char *folder)
{
    size_t len = CMT_MARKS_BYTES(right.depth);
    if (memcmp(left.marks, right.marks, len) == 0) {
        return "../marks";
    }
    if (memcmp(left.marks, lent.marks, len) == 0) {
        return "marks";
    }
    save(folder, "after-marks", left.marks, len);
    return "after-marks";
}

static void save_report(const char *folder, uint64_t result, int large)
{
    char text[256];
    uint64_t end = cmt_repair_end(result), value = cmt_repair_proof_bytes(result) + cmt_repair_layer(result);
    const char *tree = save_left_tree(folder, large), *marks = save_left_marks(folder);
    int len = snprintf(text, sizeof text, "number %d\nend %d\nstored %d\nvalue %d\ntree %s\nmarks %s\n", (int)cmt_number(result),
                       (int)end, (int)cmt_repair_stored(result), (int)value, tree, marks);
    save(folder, "report", text, (size_t)len);
}

/* What a repair is lent, which is coded and damaged so; what it reports, and what it leaves. */
static void save_repair(const struct damage *damage, int large)
{
    must(mkdir(path(damage->name, ""), 0777) == 0, path(damage->name, ""));
    damage->code();
    apply(damage);
    if (large) {
        save_changes(damage->name, "tree.xxd", lent.tree);
    } else {
        save(damage->name, "tree", lent.tree, CMT_TREE_BYTES(lent.depth));
    }
    save(damage->name, "marks", lent.marks, CMT_MARKS_BYTES(lent.depth));
    left = lent;
    uint64_t result = volume_repair(&left);
    save_report(damage->name, result, large);
    if (cmt_repair_end(result) == CMT_FAULT) {
        must(volume_check(&left, cmt_repair_proof_bytes(result)) == CMT_DONE, "the proof");
        save(damage->name, "proof", left.output, cmt_repair_proof_bytes(result));
    }
    if (memcmp(lent.record, right.record, sizeof lent.record) != 0) {
        save(damage->name, "record", lent.record, sizeof lent.record);
    }
}

static void code_rightly(void)
{
    lent = right;
}

/* The same volume, with member 2 in the place of 1 in equation 0 of the base; the record names the house table. */
static void code_wrongly(void)
{
    size_t second = 4 * (60 * (((size_t)1 << (right.depth - 1)) - 1) + 3);
    lent = right;
    lent.table[second + 3] = 2;
    must(volume_write(&lent) == CMT_DONE, "the wrong tree");
    lent.table[second + 3] = 1;
    memcpy(lent.record, right.record, CMT_RECORD_HEAD_BYTES);
}

/* The same volume, filled up as it would go on, and not with zeros: that of depth 1, cut short by its record. */
static void code_misfilled(void)
{
    lent = right;
    lent.block_len = CMT_BLOCK_BYTES(lent.depth);
    must(volume_write(&lent) == CMT_DONE, "the misfilled tree");
    memcpy(lent.record, right.record, CMT_RECORD_HEAD_BYTES);
}

static void save_all(const struct vectors *v, uint64_t kind)
{
    save_right(v, kind);
    for (size_t j = 0; j < 3 && v->damages[j].name != NULL; j++) {
        save_repair(&v->damages[j], v->large && v->damages[j].code != code_wrongly);
    }
}

int main(void)
{
    for (size_t i = 0; i < sizeof ALL / sizeof *ALL; i++) {
        save_all(&ALL[i], CMT_KIND_PLAIN);
        save_all(&ALL[i], CMT_KIND_PLACED);
    }
    return failed;
}
