/*
 * How much stack a call uses: it is made on a stack of its own that was filled
 * with one byte, and the deepest byte that then holds another is looked for.
 * Fails where it is deeper than the header says: for each call at every depth and
 * of both kinds, and where it is refused for its depth, or at a small depth for a table as long
 * as any. That too deep a use is found is tried first.
 */
#define _XOPEN_SOURCE 700
#include "cedunmi.h"
#include "volume.h"

#include <stdio.h>
#include <string.h>
#include <ucontext.h>

/* The deepest of the depths that CMT_STACK_BYTES is for. */
enum { STACK = 4 * CMT_STACK_BYTES_DEEP, SHALLOW = 5 };

static uint8_t stack[STACK];
static uint8_t message[CMT_SHA256_MESSAGE_MAX];
static uint8_t digest[CMT_SHA256_DIGEST_BYTES];
static struct volume volume, recoded;
static uint8_t sample[CMT_SAMPLE_BYTES(CMT_DEPTH_MAX)];
static uint8_t long_table[CMT_TABLE_BYTES_MAX];
static size_t message_len, proof_len;
static uint64_t depth_asked;

/* What a call that is measured must give, and whether one gave another. */
static uint64_t wanted;
static int another;

static void gives(uint64_t result)
{
    another |= result != wanted;
}

static void sha256(void)
{
    gives(cmt_sha256(message, message_len, digest, sizeof digest));
}

static void house_table(void)
{
    gives(volume_house_table(&volume));
}

/* Follows house_table(), so that the table is read to its end. */
static void table_check(void)
{
    gives(cmt_table_check(volume.depth, volume.table, CMT_HOUSE_TABLE_BYTES(volume.depth)));
}

/* These follow house_table() and each other, so that each does all its work. */
static void tree_write(void)
{
    gives(volume_write(&volume));
}

static void block_read(void)
{
    gives(volume_read(&volume));
}

static void sample_take(void)
{
    gives(cmt_sample_take(volume.depth, 7, volume.tree, CMT_TREE_BYTES(volume.depth), volume.marks,
                          CMT_MARKS_BYTES(volume.depth), sample, CMT_SAMPLE_BYTES(volume.depth)));
}

static void sample_check(void)
{
    gives(cmt_sample_check(volume.depth, 7, volume.record, sizeof volume.record, sample,
                           CMT_SAMPLE_BYTES(volume.depth)));
}

/* Symbols are formed in every layer, and a fault is found in the base. */
static void repair(void)
{
    for (size_t place = 3; place < CMT_MARKS_BYTES(volume.depth); place += 10) {
        volume.marks[place] = 0;
    }
    another |= volume_change_table(&volume) != CMT_DONE;
    proof_len = cmt_repair_proof_bytes(volume_repair(&volume));
    another |= volume_change_table(&volume) != CMT_DONE || proof_len != CMT_PROOF_BYTES(volume.depth - 1, 4);
}

/* Follows repair(). */
static void proof_check(void)
{
    another |= volume_change_table(&volume) != CMT_DONE;
    gives(volume_check(&volume, proof_len));
    another |= volume_change_table(&volume) != CMT_DONE;
}

static void repair_whole(void)
{
    another |= cmt_repair_end(volume_repair(&volume)) != CMT_WHOLE;
}

/* Follows repair_whole(). */
static void recode(void)
{
    gives(volume_recode(&volume, &recoded));
}

/* The last page is absent, so that all before it is looked at. */
static void recode_refused(void)
{
    volume.marks[CMT_MARKS_BYTES(volume.depth) - 1] = 0;
    another |= volume_recode(&volume, &recoded) != CMT_NOT_WHOLE;
    volume.marks[CMT_MARKS_BYTES(volume.depth) - 1] = 1;
}

/* By a record that has a byte less for the length. */
static void repair_misfilled(void)
{
    put_word(volume.record, 1, 2, volume.block_len - 1);
    another |= cmt_repair_end(volume_repair(&volume)) != CMT_MISFILLED;
    put_word(volume.record, 1, 2, volume.block_len);
}

/* By a record that names another table of as many words. */
static void repair_otherwise(void)
{
    volume.record[CMT_RECORD_HEAD_BYTES - 1] ^= 1;
    another |= volume_repair(&volume) != CMT_OTHER_TABLE;
    volume.record[CMT_RECORD_HEAD_BYTES - 1] ^= 1;
}

/* The calls that take a table, with the longest that may be lent, and all else as depth 3 asks. */
static void long_check(void)
{
    gives(cmt_table_check(depth_asked, long_table, sizeof long_table));
}

static void long_write(void)
{
    gives(cmt_tree_write(depth_asked, volume.kind, long_table, sizeof long_table, volume.block, CMT_BLOCK_BYTES(3), volume.tree,
                         CMT_TREE_BYTES(3), volume.marks, CMT_MARKS_BYTES(3), volume.record, sizeof volume.record));
}

static void long_repair(void)
{
    gives(cmt_repair(depth_asked, volume.record, sizeof volume.record, long_table, sizeof long_table, volume.tree,
                     CMT_TREE_BYTES(3), volume.marks, CMT_MARKS_BYTES(3), volume.output, CMT_OUTPUT_BYTES(3)));
}

static void long_recode(void)
{
    gives(cmt_recode(depth_asked, volume.record, sizeof volume.record, long_table, sizeof long_table, volume.tree,
                     CMT_TREE_BYTES(3), volume.marks, CMT_MARKS_BYTES(3), recoded.tree, CMT_TREE_BYTES(3), recoded.marks,
                     CMT_MARKS_BYTES(3), recoded.record, sizeof recoded.record));
}

static void long_proof_check(void)
{
    gives(cmt_proof_check(depth_asked, volume.record, sizeof volume.record, long_table, sizeof long_table, volume.output,
                          CMT_PROOF_BYTES(0, 4)));
}

static void long_house_table(void)
{
    gives(cmt_house_table(depth_asked, long_table, sizeof long_table));
}

/* The bytes of stack that `call` uses, where they differ from `fill`. */
static size_t used_over(void (*call)(void), uint8_t fill)
{
    static ucontext_t caller, callee;
    size_t unused = 0;
    memset(stack, fill, sizeof stack);
    getcontext(&callee);
    callee.uc_stack.ss_sp = stack;
    callee.uc_stack.ss_size = sizeof stack;
    callee.uc_link = &caller;
    makecontext(&callee, call, 0);
    swapcontext(&caller, &callee);
    while (unused < sizeof stack && stack[unused] == fill) {
        unused++;
    }
    return sizeof stack - unused;
}

static size_t used(void (*call)(void))
{
    size_t first = used_over(call, 0x55);
    size_t second = used_over(call, 0xaa);
    return first > second ? first : second;
}

struct measured {
    const char *name;
    void (*call)(void);
};

/* In this order, since some follow others. */
static const struct measured calls[] = {
    {"cmt_house_table", house_table},
    {"cmt_table_check", table_check},
    {"cmt_tree_write", tree_write},
    {"cmt_block_read", block_read},
    {"cmt_sample_take", sample_take},
    {"cmt_sample_check", sample_check},
    {"cmt_repair, to a fault", repair},
    {"cmt_proof_check", proof_check},
    {"cmt_repair", repair_whole},
    {"cmt_recode", recode},
    {"cmt_recode, not whole", recode_refused},
    {"cmt_repair, misfilled", repair_misfilled},
    {"cmt_repair, another table", repair_otherwise},
};

/* Those that take or write a table: refused, with the longest that may be lent. */
static const struct measured refused[] = {
    {"cmt_house_table, refused", long_house_table},
    {"cmt_table_check, refused", long_check},
    {"cmt_tree_write, refused", long_write},
    {"cmt_repair, refused", long_repair},
    {"cmt_recode, refused", long_recode},
    {"cmt_proof_check, refused", long_proof_check},
};

/* Whether one of so many calls, each of which must give this result, uses more than is allowed. */
static int any_over(const char *when, const struct measured *some, size_t count, uint64_t result, size_t allowed)
{
    int found = 0;
    wanted = result;
    for (size_t i = 0; i < count; i++) {
        size_t bytes = used(some[i].call);
        printf("stack: %s%s used %zu bytes, %zu are allowed\n", when, some[i].name, bytes, allowed);
        found |= bytes > allowed;
    }
    return found;
}

/* Messages that end in each kind of block. */
static int sha256_over(void)
{
    static const struct measured hashed = {"cmt_sha256", sha256};
    const size_t lengths[] = {0, 1, 55, 56, 64, 119, 120, 256, 4096, sizeof message};
    int found = 0;
    for (size_t i = 0; i < sizeof lengths / sizeof *lengths; i++) {
        message_len = lengths[i];
        found |= any_over("", &hashed, 1, CMT_DONE, CMT_STACK_BYTES);
    }
    return found;
}

/* All calls at a depth, of a kind: each does its work, and the repair finds a fault. */
static int calls_over(uint64_t depth, uint64_t kind)
{
    char when[] = "depth 0, kind 00: ";
    when[6] = (char)('0' + depth);
    when[15] = (char)('0' + kind);
    another |= volume_begin(&volume, depth) != CMT_DONE;
    volume.kind = kind;
    return any_over(when, calls, sizeof calls / sizeof *calls, CMT_DONE, CMT_STACK_BYTES_AT(depth));
}

/* Calls at depths that there are not; and at depth 3, with a record of it, and the house table of the largest depth,
 * filled up: the word that opens its layer 3 is wrong. */
static int refused_over(void)
{
    const size_t count = sizeof refused / sizeof *refused, opens = 60 * ((1 << 3) - 1);
    const uint64_t none[] = {0, CMT_DEPTH_MAX + 1, UINT64_C(4294967296) + CMT_DEPTH_MAX, UINT64_MAX};
    int found = 0;
    another |= cmt_house_table(CMT_DEPTH_MAX, long_table, CMT_HOUSE_TABLE_BYTES(CMT_DEPTH_MAX)) != CMT_DONE;
    for (size_t i = 0; i < sizeof none / sizeof *none; i++) {
        depth_asked = none[i];
        found |= any_over("no such depth: ", refused, count, CMT_WRONG_DEPTH, CMT_STACK_BYTES);
    }
    depth_asked = 3;
    put_word(volume.record, 0, 1, 3);
    put_word(volume.record, 1, 2, CMT_BLOCK_BYTES(3));
    found |= any_over("depth 3, a table of depth 9: ", refused, 1, CMT_WRONG_LENGTH, CMT_STACK_BYTES);
    found |= any_over("depth 3, a table of depth 9: ", refused + 1, count - 1, CMT_WRONG_TABLE + 256 * opens, CMT_STACK_BYTES);
    return found;
}

/* Use at least as many bytes as are allowed at a depth to 5, and at a deeper one, to show that both are found. */
#define USES(name, bytes)                                                                                              \
    static void name(void)                                                                                             \
    {                                                                                                                  \
        volatile uint8_t room[bytes];                                                                                  \
        for (size_t i = 0; i < sizeof room; i++) {                                                                     \
            room[i] = (uint8_t)i;                                                                                      \
        }                                                                                                              \
    }

USES(too_deep_to_5, CMT_STACK_BYTES)
USES(too_deep, CMT_STACK_BYTES_DEEP)

/* Whether both uses are found over what is allowed, and the lesser is not where more is. */
static int known_are_found(void)
{
    static const struct measured lesser = {"a known use", too_deep_to_5}, greater = {"a known use", too_deep};
    return any_over("", &lesser, 1, CMT_DONE, CMT_STACK_BYTES_AT(SHALLOW)) &&
           any_over("", &greater, 1, CMT_DONE, CMT_STACK_BYTES_AT(SHALLOW + 1)) &&
           !any_over("", &lesser, 1, CMT_DONE, CMT_STACK_BYTES_AT(SHALLOW + 1));
}

int main(void)
{
    int wrong = 0;
    if (!known_are_found()) {
        printf("stack: the measuring misses a known use\n");
        return 1;
    }
    wrong |= sha256_over();
    for (uint64_t depth = 1; depth <= CMT_DEPTH_MAX; depth++) {
        wrong |= calls_over(depth, CMT_KIND_PLACED);
        wrong |= calls_over(depth, CMT_KIND_PLAIN);
    }
    wrong |= refused_over();
    if (another) {
        printf("stack: a call gave another result\n");
        return 1;
    }
    return wrong;
}
