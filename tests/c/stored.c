/*
 * Stored forms of depth 1 to 5, which are the files of vectors/: each is read, goes
 * through the library, and comes out as it is stored, byte for byte. A library
 * whose largest depth was 5 wrote them, when a root had no head: what follows the
 * head in their records is the root that was stored then. And of depth 1 a volume
 * that is shorter than there is room for, which no library wrote before. They are
 * plain, as all volumes were then; beside each is the same volume with places, and
 * each of the two is the other recoded.
 *
 *     stored FOLDER    the folder that has depth-1 to depth-5 and depth-1-short, and
 *                      depth-1-placed to depth-5-placed and depth-1-short-placed
 */
#include "volume.h"

#include <stdio.h>
#include <string.h>

enum { DEPTHS = 5, PATH = 256, NAME = 32, TEXT = 262144, ROW = 16, SYMBOL = 256, UNTOUCHED = 0x5a };

/* The files of a volume: its bytes, the base symbol of its sample, its repairs, and the SHA-256 of the roots that were
 * stored without a head, of the plain one: its own, and that of the last repair. */
static const struct form {
    const char *folder;
    uint64_t depth;
    size_t length;
    unsigned sampled;
    const char *repairs[3], *root, *last_root;
} forms[] = {
    {"depth-1", 1, CMT_BLOCK_BYTES(1), 9, {"whole", "unavailable", "wrong"},
     "ca04ff136a941fbbec83f5afbf25c30516c1ebff1f026bb0927f6ccf50f46c94",
     "3d9eba443dddc8b70e99ba3bc5270c798104ec633b061ee7025d6683c4829b9d"},
    {"depth-2", 2, CMT_BLOCK_BYTES(2), 20, {"whole", "unavailable", "wrong"},
     "ef7270ad27dc64d490e08dbb5da31654ab0debd54916ec7e98313b18a1626d87",
     "5f7b42be0cbcf1df92b4cb8a7a0a5a34ef07076979e456e80635e40938d3287a"},
    {"depth-3", 3, CMT_BLOCK_BYTES(3), 61, {"whole", "unavailable", "wrong"},
     "3ee6d801d0b04d7684ed9ad8ea70a8346c30c6e2865cda9f4d2e9ee1c47bf990",
     "fbd8cde6e65c3bfc4fce6690181d12ec5ff62c2d78c175a6a00749fac587dc37"},
    {"depth-4", 4, CMT_BLOCK_BYTES(4), 100, {"whole", "unavailable", "wrong"},
     "6bfe36a5034eae638e7f33ca984fd6d7a3aad55e23b67802aeb2d2305fddabb7",
     "9f3cb9b43ce9070176d7489fe7af18ae74c2ee45917342743ad1bc5b8eb901ef"},
    {"depth-5", 5, CMT_BLOCK_BYTES(5), 200, {"whole", "unavailable", "wrong"},
     "a4defa424ef0f478f0d46fbe720af29e2aba6ad0d1bd7ffcd3064acab7838041",
     "7a577591041d59aa7f9a01e55ed8ad6f98bbb8d600e19d168deebfa94ebecb67"},
    {"depth-1-short", 1, 700, 2, {"whole", "misfilled", NULL}, NULL, NULL},
};

static const char *folder;
static const struct form *form;
static uint64_t kind;
static int wrong;

/* What is stored; what the library writes, or is lent to be changed; what it should leave. */
static struct volume stored, used, after;
static uint8_t sample[CMT_SAMPLE_BYTES(DEPTHS)], taken[CMT_SAMPLE_BYTES(DEPTHS)];
static uint8_t proof[CMT_OUTPUT_BYTES(DEPTHS)];
static uint8_t text[TEXT + 1];

/* What the folder of a volume with places has after its name. */
static const char *placed(void)
{
    return kind == CMT_KIND_PLAIN ? "" : "-placed";
}

static void must(int right, const char *part, const char *what)
{
    if (!right) {
        printf("stored: %s%s%s%s: %s\n", form->folder, placed(), *part ? ", " : "", part, what);
        wrong = 1;
    }
}

/* The bytes of a file, at most so many, and whether it is there and has no more. */
static size_t load(const char *part, const char *name, uint8_t *bytes, size_t most, int *there)
{
    char path[PATH];
    snprintf(path, sizeof path, "%s/%s%s/%s%s%s", folder, form->folder, placed(), part, *part ? "/" : "", name);
    FILE *file = fopen(path, "rb");
    size_t len = file == NULL ? 0 : fread(bytes, 1, most, file);
    *there = file != NULL && fgetc(file) == EOF;
    if (file != NULL) {
        fclose(file);
    }
    return len;
}

/* A file that has just so many bytes. */
static void exactly(const char *part, const char *name, uint8_t *bytes, size_t len)
{
    int there = 0;
    size_t found = load(part, name, bytes, len, &there);
    must(there && found == len, part, name);
}

/* A hexadecimal digit's value, 16 where it is none. */
static unsigned digit(uint8_t byte)
{
    static const char digits[] = "0123456789abcdef";
    const char *at = byte == 0 ? NULL : strchr(digits, byte);
    return at == NULL ? 16 : (unsigned)(at - digits);
}

/* The value of so many digits; all bits where one is none. */
static size_t digits(const uint8_t *at, size_t count)
{
    size_t value = 0;
    for (size_t i = 0; i < count; i++) {
        if (digit(at[i]) > 15) {
            return SIZE_MAX;
        }
        value = 16 * value + digit(at[i]);
    }
    return value;
}

/* Puts a row as xxd prints it, without the text after it, into a tree; gives whether it is one. */
static int put_row(const uint8_t *line, uint8_t *tree, size_t len)
{
    const size_t row = digits(line, 8);
    int right = row < len && row % ROW == 0 && line[8] == ':' && line[49] == '\n';
    for (size_t i = 0; right && i < ROW; i++) {
        const uint8_t *at = line + 10 + 5 * (i / 2) + 2 * (i % 2);
        const size_t byte = digits(at, 2);
        right = byte < 256 && (i % 2 == 1 || at[-1] == ' ');
        tree[row + i] = (uint8_t)byte;
    }
    return right;
}

/* A tree, which is a file, or rows that make it of the right one. */
static void tree_of(const char *part, const char *name, uint8_t *tree)
{
    const size_t len = CMT_TREE_BYTES(stored.depth), line = 50;
    char rows[NAME];
    int there = 0;
    snprintf(rows, sizeof rows, "%s%s", name, strstr(name, ".xxd") == NULL ? ".xxd" : "");
    size_t found = load(part, rows, text, TEXT, &there);
    if (!there) {
        exactly(part, name, tree, len);
        return;
    }
    memcpy(tree, stored.tree, len);
    must(found > 0 && found % line == 0, part, rows);
    for (size_t at = 0; at + line <= found; at += line) {
        must(put_row(text + at, tree, len), part, rows);
    }
}

/* The root in a record is that of this SHA-256, where it was stored without a head, plain. */
static void has_root(const char *part, const uint8_t *record, const char *sum)
{
    uint8_t digest[CMT_SHA256_DIGEST_BYTES];
    must(cmt_sha256(record + CMT_RECORD_HEAD_BYTES, CMT_ROOT_BYTES, digest, sizeof digest) == CMT_DONE, part, "a digest");
    for (size_t i = 0; sum != NULL && kind == CMT_KIND_PLAIN && i < sizeof digest; i++) {
        must(digits((const uint8_t *)sum + 2 * i, 2) == digest[i], part, "the root is not the one that was stored");
    }
}

/* The table that is written, and the tree, the marks and the record that the stored volume gives by the stored table. */
static void is_written(void)
{
    const uint64_t d = stored.depth;
    memset(&used, UNTOUCHED, sizeof used);
    used.depth = d;
    must(volume_house_table(&used) == CMT_DONE && memcmp(used.table, stored.table, CMT_HOUSE_TABLE_BYTES(d)) == 0, "",
         "the table comes out otherwise");
    must(cmt_table_check(d, stored.table, CMT_HOUSE_TABLE_BYTES(d)) == CMT_DONE, "", "the table is not taken");
    must(cmt_tree_write(d, kind, stored.table, CMT_HOUSE_TABLE_BYTES(d), stored.block, stored.block_len, used.tree,
                        CMT_TREE_BYTES(d), used.marks, CMT_MARKS_BYTES(d), used.record, sizeof used.record) == CMT_DONE,
         "", "the volume is not coded");
    must(memcmp(used.tree, stored.tree, CMT_TREE_BYTES(d)) == 0, "", "the tree comes out otherwise");
    must(memcmp(used.marks, stored.marks, CMT_MARKS_BYTES(d)) == 0, "", "the marks come out otherwise");
    must(memcmp(used.record, stored.record, sizeof used.record) == 0, "", "the record comes out otherwise");
}

/* The stored tree gives the stored volume and the stored sample, and the record accepts that. A root without its head
 * is taken no more. */
static void is_read(unsigned number)
{
    const uint64_t d = stored.depth;
    const uint8_t *root = volume_root_hash(&stored, 0);
    must(cmt_block_read(d, stored.record, sizeof stored.record, stored.tree, CMT_TREE_BYTES(d), stored.marks,
                        CMT_MARKS_BYTES(d), used.block, CMT_BLOCK_BYTES(d)) == CMT_DONE &&
             memcmp(used.block, stored.block, sizeof used.block) == 0, "", "the volume is read otherwise");
    must(cmt_sample_take(d, number, stored.tree, CMT_TREE_BYTES(d), stored.marks, CMT_MARKS_BYTES(d), taken,
                         CMT_SAMPLE_BYTES(d)) == CMT_DONE && memcmp(taken, sample, CMT_SAMPLE_BYTES(d)) == 0,
         "", "the sample comes out otherwise");
    must(cmt_sample_check(d, number, stored.record, sizeof stored.record, sample, CMT_SAMPLE_BYTES(d)) == CMT_DONE, "",
         "the sample is not accepted");
    must(cmt_sample_check(d, number, root, CMT_ROOT_BYTES, sample, CMT_SAMPLE_BYTES(d)) == CMT_WRONG_LENGTH, "",
         "a root is taken as a record");
}

/* The stored tree is recoded to the stored one of the other kind. */
static void is_recoded(void)
{
    const uint64_t d = stored.depth;
    memset(used.tree, UNTOUCHED, sizeof used.tree);
    must(volume_recode(&stored, &used) == CMT_DONE, "", "the tree is not recoded");
    kind = CMT_KIND_PLAIN + CMT_KIND_PLACED - kind;
    exactly("", "tree", after.tree, CMT_TREE_BYTES(d));
    exactly("", "marks", after.marks, CMT_MARKS_BYTES(d));
    exactly("", "record", after.record, sizeof after.record);
    must(memcmp(used.tree, after.tree, CMT_TREE_BYTES(d)) == 0, "", "another tree is recoded to this");
    must(memcmp(used.marks, after.marks, CMT_MARKS_BYTES(d)) == 0, "", "other marks are recoded to these");
    must(memcmp(used.record, after.record, sizeof used.record) == 0, "", "another record is recoded to this");
    kind = CMT_KIND_PLAIN + CMT_KIND_PLACED - kind;
}

/* A repair's report as the file has it: the result that it stands for, and the names of the files with what is left. */
static uint64_t report(const char *part, char *tree, char *marks)
{
    unsigned number = 0, end = 0, count = 0, value = 0;
    char again[TEXT / 1024];
    int there = 0;
    size_t len = load(part, "report", text, TEXT, &there);
    text[len] = '\0';
    int items = sscanf((char *)text, "number %u\nend %u\nstored %u\nvalue %u\ntree %31s\nmarks %31s\n", &number, &end, &count,
                       &value, tree, marks);
    snprintf(again, sizeof again, "number %u\nend %u\nstored %u\nvalue %u\ntree %s\nmarks %s\n", number, end, count, value,
             tree, marks);
    must(there && items == 6 && strcmp(again, (char *)text) == 0, part, "report");
    return number + ((uint64_t)end << 8) + ((uint64_t)count << 32) + ((uint64_t)value << 48);
}

/* What a repair is lent: the stored table and record, or a record of its own; and tree and marks. */
static void lend(const char *part, uint64_t end)
{
    memset(used.output, UNTOUCHED, sizeof used.output);
    memcpy(used.table, stored.table, sizeof used.table);
    memcpy(used.record, stored.record, sizeof used.record);
    tree_of(part, "tree", used.tree);
    exactly(part, "marks", used.marks, CMT_MARKS_BYTES(stored.depth));
    if (end == CMT_FAULT || end == CMT_MISFILLED) {
        exactly(part, "record", used.record, sizeof used.record);
        has_root(part, used.record, form->last_root);
    }
}

/* The stored tree is repaired to what is stored, with the stored report and proof, which is accepted. */
static void is_repaired(const char *part)
{
    const uint64_t d = stored.depth;
    char tree[NAME] = "", marks[NAME] = "";
    const uint64_t result = report(part, tree, marks);
    const size_t proof_len = cmt_repair_proof_bytes(result);
    lend(part, cmt_repair_end(result));
    memset(after.output, UNTOUCHED, sizeof after.output);
    tree_of(part, tree, after.tree);
    exactly(part, marks, after.marks, CMT_MARKS_BYTES(d));
    if (proof_len > 0 && proof_len <= CMT_OUTPUT_BYTES(d)) {
        exactly(part, "proof", proof, proof_len);
        memcpy(after.output, proof, proof_len);
        must(cmt_proof_check(d, used.record, sizeof used.record, stored.table, CMT_HOUSE_TABLE_BYTES(d), proof, proof_len) ==
                 CMT_DONE, part, "the proof is not accepted");
    }
    must(volume_repair(&used) == result, part, "the repair reports otherwise");
    must(memcmp(used.tree, after.tree, CMT_TREE_BYTES(d)) == 0, part, "the repair leaves another tree");
    must(memcmp(used.marks, after.marks, CMT_MARKS_BYTES(d)) == 0, part, "the repair leaves other marks");
    must(memcmp(used.output, after.output, sizeof used.output) == 0, part, "the repair leaves another output");
}

/* All files of a form, of the kind. The rest of the volume's buffer is as that which it is read back into. */
static void form_is_right(void)
{
    const uint64_t d = form->depth;
    char name[NAME];
    memset(stored.block, UNTOUCHED, sizeof stored.block);
    stored.depth = d;
    stored.block_len = form->length;
    exactly("", "volume", stored.block, stored.block_len);
    exactly("", "table", stored.table, CMT_HOUSE_TABLE_BYTES(d));
    exactly("", "tree", stored.tree, CMT_TREE_BYTES(d));
    exactly("", "marks", stored.marks, CMT_MARKS_BYTES(d));
    exactly("", "record", stored.record, sizeof stored.record);
    has_root("", stored.record, form->root);
    snprintf(name, sizeof name, "sample-%u", form->sampled);
    exactly("", name, sample, CMT_SAMPLE_BYTES(d));
    is_written();
    is_read(form->sampled);
    is_recoded();
    for (size_t i = 0; i < 3 && form->repairs[i] != NULL; i++) {
        is_repaired(form->repairs[i]);
    }
}

int main(int count, char **words)
{
    if (count != 2) {
        fprintf(stderr, "stored FOLDER\n");
        return 2;
    }
    folder = words[1];
    for (form = forms; form < forms + sizeof forms / sizeof *forms; form++) {
        kind = CMT_KIND_PLAIN;
        form_is_right();
        kind = CMT_KIND_PLACED;
        form_is_right();
    }
    if (!wrong) {
        printf("stored: forms of depth 1 to %d, of both kinds, are read, and come out as they are stored\n", DEPTHS);
    }
    return wrong;
}
