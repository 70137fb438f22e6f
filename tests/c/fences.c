/*
 * Reads and writes stay inside the lent buffers: each buffer is lent with its
 * start, and then with its end, at a page that nobody may touch.
 */
#define _DEFAULT_SOURCE
#include "cedunmi.h"
#include "volume.h"

#include <signal.h>
#include <stdio.h>
#include <stdlib.h>
#include <string.h>
#include <sys/mman.h>
#include <sys/wait.h>
#include <unistd.h>

enum { PAGE = 4096, MESSAGE_ROOM = CMT_SHA256_MESSAGE_MAX + PAGE, TABLE_ROOM = (CMT_TABLE_BYTES_MAX / PAGE + 1) * PAGE };

typedef uint64_t sha256(const uint8_t *, size_t, uint8_t *, size_t);

static uint8_t *message_room, *digest_room, *table_room;

/* Set where a call gave another number than it should. */
static int another;

static void expect(uint64_t number, uint64_t result)
{
    another |= cmt_number(result) != number;
}

/* Room for `bytes` bytes, whole pages, with a fence on each side. */
static uint8_t *fenced(size_t bytes)
{
    uint8_t *pages = mmap(NULL, bytes + 2 * PAGE, PROT_NONE,
                          MAP_PRIVATE | MAP_ANONYMOUS, -1, 0);
    if (pages == MAP_FAILED ||
        mprotect(pages + PAGE, bytes, PROT_READ | PROT_WRITE) != 0) {
        perror("fences");
        exit(2);
    }
    return pages + PAGE;
}

static void touched(int signal)
{
    static const char text[] = "fences: a call touched bytes outside its buffers\n";
    ssize_t written = write(STDERR_FILENO, text, sizeof text - 1);
    (void)signal;
    (void)written;
    _exit(1);
}

/* Lends both buffers at their starts, then both at their ends. */
static void lend(sha256 *call, size_t message_len, size_t digest_len)
{
    int right = message_len <= CMT_SHA256_MESSAGE_MAX && digest_len == CMT_SHA256_DIGEST_BYTES;
    uint64_t number = right ? CMT_DONE : CMT_WRONG_LENGTH;
    expect(number, call(message_room, message_len, digest_room, digest_len));
    expect(number, call(message_room + MESSAGE_ROOM - message_len, message_len,
                        digest_room + PAGE - digest_len, digest_len));
}

static void lend_all(sha256 *call)
{
    for (size_t len = 0; len <= 400; len++) {
        lend(call, len, CMT_SHA256_DIGEST_BYTES);
    }
    for (size_t len = CMT_SHA256_MESSAGE_MAX - 1; len <= CMT_SHA256_MESSAGE_MAX + 1; len++) {
        lend(call, len, CMT_SHA256_DIGEST_BYTES);
    }
    for (size_t digest_len = 0; digest_len <= 64; digest_len++) {
        lend(call, 256, digest_len);
    }
}

/* What the check of such a table gives where it is not the house table. */
static uint64_t no_house_table(uint64_t depth, size_t len)
{
    if (depth < 1 || depth > CMT_DEPTH_MAX) {
        return CMT_WRONG_DEPTH;
    }
    return len > CMT_TABLE_BYTES_MAX || len % 4 != 0 ? CMT_WRONG_LENGTH : CMT_WRONG_TABLE;
}

/* Lends a table's bytes at the start of their room, then at its end, to be written and to be read. */
static void lend_table(uint64_t depth, size_t len)
{
    uint64_t checked = no_house_table(depth, len);
    uint64_t written = checked == CMT_WRONG_DEPTH ? CMT_WRONG_DEPTH : CMT_WRONG_LENGTH;
    if (checked == CMT_WRONG_TABLE && len == CMT_HOUSE_TABLE_BYTES(depth)) {
        checked = written = CMT_DONE;
    }
    for (size_t start = 0; start <= TABLE_ROOM - len; start += TABLE_ROOM - len) {
        expect(written, cmt_house_table(depth, table_room + start, len));
        expect(checked, cmt_table_check(depth, table_room + start, len));
        if (len == TABLE_ROOM) {
            break;
        }
    }
}

/* House tables, whole, cut short at each kind of word, and of lengths that are refused. */
static void lend_tables(void)
{
    for (uint64_t depth = 0; depth <= CMT_DEPTH_MAX + 1; depth++) {
        for (size_t len = 0; len <= 64; len++) {
            lend_table(depth, len);
        }
        for (uint64_t of = 1; of <= CMT_DEPTH_MAX; of++) {
            lend_table(depth, CMT_HOUSE_TABLE_BYTES(of));
        }
        lend_table(depth, CMT_TABLE_BYTES_MAX);
        lend_table(depth, CMT_TABLE_BYTES_MAX + 4);
        lend_table(depth, TABLE_ROOM);
    }
}

/* A room, and what is lent in it. */
struct room {
    uint8_t *start;
    size_t bytes;
};

enum { RECORD, TABLE, TREE, MARKS, OUTPUT, BLOCK, NEW_TREE, NEW_MARKS, NEW_RECORD, ROOMS };

static struct room rooms[ROOMS];

static void make_rooms(void)
{
    const size_t bytes[ROOMS] = {CMT_RECORD_BYTES, CMT_TABLE_BYTES_MAX, CMT_TREE_BYTES(CMT_DEPTH_MAX),
                                 CMT_MARKS_BYTES(CMT_DEPTH_MAX), CMT_OUTPUT_BYTES(CMT_DEPTH_MAX),
                                 CMT_BLOCK_BYTES(CMT_DEPTH_MAX), CMT_TREE_BYTES(CMT_DEPTH_MAX),
                                 CMT_MARKS_BYTES(CMT_DEPTH_MAX), CMT_RECORD_BYTES};
    for (int i = 0; i < ROOMS; i++) {
        rooms[i].bytes = (bytes[i] / PAGE + 1) * PAGE;
        rooms[i].start = fenced(rooms[i].bytes);
    }
}

/* A copy of bytes at the start of a room, or at its end. */
static uint8_t *copy(int room, int at_end, const uint8_t *bytes, size_t len)
{
    uint8_t *lent = rooms[room].start + (at_end ? rooms[room].bytes - len : 0);
    return memcpy(lent, bytes, len);
}

/* The lengths of a volume's buffers. */
struct lengths {
    size_t of[ROOMS];
};

static struct lengths lengths_at(uint64_t depth)
{
    const struct lengths right = {{CMT_RECORD_BYTES, CMT_HOUSE_TABLE_BYTES(depth), CMT_TREE_BYTES(depth),
                                   CMT_MARKS_BYTES(depth), CMT_OUTPUT_BYTES(depth), CMT_BLOCK_BYTES(depth),
                                   CMT_TREE_BYTES(depth), CMT_MARKS_BYTES(depth), CMT_RECORD_BYTES}};
    return right;
}

/* Repairs a copy of a volume, and keeps what it writes. */
static uint64_t lend_repair(struct volume *v, struct lengths len, int at_end)
{
    uint8_t *output = copy(OUTPUT, at_end, v->output, len.of[OUTPUT]);
    uint64_t result = cmt_repair(
        v->depth, copy(RECORD, at_end, v->record, len.of[RECORD]), len.of[RECORD],
        copy(TABLE, at_end, v->table, len.of[TABLE]), len.of[TABLE],
        copy(TREE, at_end, v->tree, len.of[TREE]), len.of[TREE],
        copy(MARKS, at_end, v->marks, len.of[MARKS]), len.of[MARKS], output, len.of[OUTPUT]);
    memcpy(v->output, output, len.of[OUTPUT]);
    return result;
}

/* Checks the first bytes of a volume's output as a proof. */
static uint64_t lend_proof(const struct volume *v, struct lengths len, int at_end, size_t proof_len)
{
    return cmt_proof_check(v->depth, copy(RECORD, at_end, v->record, len.of[RECORD]), len.of[RECORD],
                           copy(TABLE, at_end, v->table, len.of[TABLE]), len.of[TABLE],
                           copy(OUTPUT, at_end, v->output, proof_len), proof_len);
}

/* Lends a volume with its right lengths, and with each buffer a byte shorter. Gives whether there
 * was a proof to lend. */
static int lend_volume(struct volume *v, int at_end)
{
    const struct lengths right = lengths_at(v->depth);
    uint64_t result = lend_repair(v, right, at_end);
    size_t proof_len = cmt_repair_proof_bytes(result);
    expect(CMT_DONE, result);
    for (size_t n = 0; n < 16 && n < proof_len; n++) {
        expect(CMT_WRONG_LENGTH, lend_proof(v, right, at_end, n));
        expect(n == 0 ? CMT_DONE : CMT_WRONG_LENGTH, lend_proof(v, right, at_end, proof_len - n));
    }
    for (int cut = RECORD; cut <= OUTPUT; cut++) {
        struct lengths shorter = right;
        shorter.of[cut]--;
        int whole = proof_len > 0 && cut != RECORD && cut != TABLE;
        expect(CMT_WRONG_LENGTH, lend_repair(v, shorter, at_end));
        expect(whole ? CMT_DONE : CMT_WRONG_LENGTH, lend_proof(v, shorter, at_end, proof_len));
    }
    return proof_len > 0;
}

/* Trees of each depth: whole, with losses, and with a fault. Gives how many proofs were lent. */
static int lend_volumes(void)
{
    static struct volume v;
    int proofs = 0;
    for (uint64_t depth = 1; depth <= CMT_DEPTH_MAX; depth++) {
        for (size_t lost = 0; lost < 16; lost += 5) {
            expect(CMT_DONE, volume_begin(&v, depth));
            v.kind = (depth + lost) % 2;
            expect(CMT_DONE, volume_write(&v));
            for (size_t place = 0; place < CMT_MARKS_BYTES(depth); place++) {
                v.marks[place] = place % 16 >= lost;
            }
            lend_volume(&v, 0);
            lend_volume(&v, 1);
            expect(CMT_DONE, volume_change_table(&v));
            proofs += lend_volume(&v, 0);
            proofs += lend_volume(&v, 1);
        }
    }
    return proofs;
}

/* Codes a copy of a volume's block, and keeps tree, marks and record, which are written where they are lent. */
static uint64_t lend_block(struct volume *v, struct lengths len, int at_end)
{
    uint8_t *tree = copy(TREE, at_end, v->tree, len.of[TREE]), *marks = copy(MARKS, at_end, v->marks, len.of[MARKS]);
    uint8_t *record = copy(RECORD, at_end, v->record, len.of[RECORD]);
    uint64_t result = cmt_tree_write(v->depth, v->kind, copy(TABLE, at_end, v->table, len.of[TABLE]), len.of[TABLE],
                                     copy(BLOCK, at_end, v->block, len.of[BLOCK]), len.of[BLOCK], tree, len.of[TREE], marks,
                                     len.of[MARKS], record, len.of[RECORD]);
    memcpy(v->tree, tree, len.of[TREE]);
    memcpy(v->marks, marks, len.of[MARKS]);
    memcpy(v->record, record, len.of[RECORD]);
    return result;
}

/* Reads a copy of a tree back; where that is done, the block must be the volume's, as far as it goes. */
static uint64_t lend_reading(const struct volume *v, struct lengths len, int at_end)
{
    static const uint8_t before[CMT_BLOCK_BYTES(CMT_DEPTH_MAX)];
    uint8_t *block = copy(BLOCK, at_end, before, len.of[BLOCK]);
    uint64_t result = cmt_block_read(v->depth, copy(RECORD, at_end, v->record, len.of[RECORD]), len.of[RECORD],
                                     copy(TREE, at_end, v->tree, len.of[TREE]), len.of[TREE],
                                     copy(MARKS, at_end, v->marks, len.of[MARKS]), len.of[MARKS], block, len.of[BLOCK]);
    another |= result == CMT_DONE && memcmp(block, v->block, v->block_len) != 0;
    return result;
}

/* Lends the sample of base page 0 of a coded volume, and its record. */
static uint64_t lend_sample(const struct volume *v, struct lengths len, int at_end)
{
    static uint8_t sample[CMT_SAMPLE_BYTES(CMT_DEPTH_MAX)];
    expect(CMT_DONE, cmt_sample_take(v->depth, 0, v->tree, CMT_TREE_BYTES(v->depth), v->marks, CMT_MARKS_BYTES(v->depth),
                                     sample, CMT_SAMPLE_BYTES(v->depth)));
    return cmt_sample_check(v->depth, 0, copy(RECORD, at_end, v->record, len.of[RECORD]), len.of[RECORD],
                            copy(OUTPUT, at_end, sample, CMT_SAMPLE_BYTES(v->depth)), CMT_SAMPLE_BYTES(v->depth));
}

/* Recodes a copy of a coded volume; where that is done, its base must be the volume's. */
static uint64_t lend_recoding(const struct volume *v, struct lengths len, int at_end)
{
    static const uint8_t new_before[CMT_TREE_BYTES(CMT_DEPTH_MAX)];
    const size_t base = CMT_TREE_BYTES(v->depth - 1), bytes = CMT_TREE_BYTES(v->depth) - base;
    uint8_t *tree = copy(NEW_TREE, at_end, new_before, len.of[NEW_TREE]);
    uint64_t result = cmt_recode(v->depth, copy(RECORD, at_end, v->record, len.of[RECORD]), len.of[RECORD],
                                 copy(TABLE, at_end, v->table, len.of[TABLE]), len.of[TABLE],
                                 copy(TREE, at_end, v->tree, len.of[TREE]), len.of[TREE],
                                 copy(MARKS, at_end, v->marks, len.of[MARKS]), len.of[MARKS], tree, len.of[NEW_TREE],
                                 copy(NEW_MARKS, at_end, new_before, len.of[NEW_MARKS]), len.of[NEW_MARKS],
                                 copy(NEW_RECORD, at_end, new_before, len.of[NEW_RECORD]), len.of[NEW_RECORD]);
    another |= result == CMT_DONE && memcmp(tree + base, v->tree + base, bytes) != 0;
    return result;
}

/* Lends a coded volume to be recoded, with right lengths, with each a byte shorter, and where it is not whole. */
static void lend_recodings(struct volume *v, int at_end)
{
    const struct lengths right = lengths_at(v->depth);
    expect(CMT_DONE, lend_recoding(v, right, at_end));
    for (int cut = RECORD; cut < ROOMS; cut++) {
        struct lengths shorter = right;
        shorter.of[cut]--;
        expect(cut == OUTPUT || cut == BLOCK ? CMT_DONE : CMT_WRONG_LENGTH, lend_recoding(v, shorter, at_end));
    }
    v->marks[CMT_MARKS_BYTES(v->depth) - 1] = 0;
    expect(CMT_NOT_WHOLE, lend_recoding(v, right, at_end));
    v->marks[CMT_MARKS_BYTES(v->depth) - 1] = 1;
}

/* Lends a block of this length, and what comes of it, with right lengths and with each a byte shorter. */
static void lend_length(struct volume *v, size_t block_len, int at_end)
{
    const struct lengths right = lengths_at(v->depth);
    struct lengths coded = right;
    coded.of[BLOCK] = v->block_len = block_len;
    expect(CMT_DONE, lend_block(v, coded, at_end));
    expect(CMT_DONE, lend_reading(v, right, at_end));
    expect(CMT_DONE, lend_sample(v, right, at_end));
    for (int cut = RECORD; cut <= BLOCK; cut++) {
        struct lengths shorter = right;
        shorter.of[cut]--;
        int read = cut == TABLE || cut == OUTPUT;
        expect(cut == OUTPUT || cut == BLOCK ? CMT_DONE : CMT_WRONG_LENGTH, lend_block(v, shorter, at_end));
        expect(CMT_DONE, lend_block(v, coded, at_end));
        expect(read ? CMT_DONE : CMT_WRONG_LENGTH, lend_reading(v, shorter, at_end));
        expect(cut == RECORD ? CMT_WRONG_LENGTH : CMT_DONE, lend_sample(v, shorter, at_end));
    }
}

/* Blocks that end at the end of a page, a byte before it and a byte after it. */
static void lend_lengths(void)
{
    static struct volume v;
    for (uint64_t depth = 1; depth <= CMT_DEPTH_MAX; depth++) {
        const size_t most = CMT_BLOCK_BYTES(depth), lens[] = {0, 1, 255, 256, 257, most - 256, most - 1, most};
        for (size_t i = 0; i < sizeof lens / sizeof *lens; i++) {
            expect(CMT_DONE, volume_begin(&v, depth));
            v.kind = i % 2;
            lend_length(&v, lens[i], 0);
            lend_recodings(&v, 0);
            lend_length(&v, lens[i], 1);
            lend_recodings(&v, 1);
        }
    }
}

/* Wrong functions, to show that the fences find what they do. */

static uint64_t reads_after(const uint8_t *m, size_t n, uint8_t *d, size_t dn)
{
    (void)d, (void)dn;
    return *(const volatile uint8_t *)(m + n);
}

static uint64_t reads_before(const uint8_t *m, size_t n, uint8_t *d, size_t dn)
{
    (void)n, (void)d, (void)dn;
    return *(const volatile uint8_t *)(m - 1);
}

static uint64_t writes_without_looking(const uint8_t *m, size_t n, uint8_t *d, size_t dn)
{
    (void)m, (void)n, (void)dn;
    for (size_t i = 0; i < CMT_SHA256_DIGEST_BYTES; i++) {
        ((volatile uint8_t *)d)[i] = 0;
    }
    return CMT_DONE;
}

/* Whether the fences find a wrong function, tried in a process of its own. */
static int found(sha256 *wrong)
{
    int status = 0;
    pid_t child = fork();
    if (child == 0) {
        close(STDERR_FILENO);
        lend_all(wrong);
        _exit(0);
    }
    return child > 0 && waitpid(child, &status, 0) == child && WIFEXITED(status) &&
           WEXITSTATUS(status) == 1;
}

int main(void)
{
    message_room = fenced(MESSAGE_ROOM);
    digest_room = fenced(PAGE);
    table_room = fenced(TABLE_ROOM);
    make_rooms();
    signal(SIGSEGV, touched);
    if (!found(reads_after) || !found(reads_before) || !found(writes_without_looking)) {
        printf("fences: a wrong function was not found\n");
        return 1;
    }
    lend_all(cmt_sha256);
    lend_tables();
    lend_lengths();
    if (lend_volumes() < 2 * CMT_DEPTH_MAX) {
        printf("fences: proofs were not lent at every depth\n");
        return 1;
    }
    if (another) {
        printf("fences: a call gave another number\n");
        return 1;
    }
    printf("fences: ok\n");
    return 0;
}
