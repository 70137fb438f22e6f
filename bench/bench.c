/*
 * The service bench program: checks a sample or a fault proof that came as
 * files. The exit status is the call's number (include/cedunmi.h), and standard error
 * says what it means.
 */
#define _POSIX_C_SOURCE 200809L
#include "cedunmi.h"

#include <errno.h>
#include <fcntl.h>
#include <stdio.h>
#include <stdlib.h>
#include <string.h>
#include <sys/stat.h>
#include <unistd.h>

/* Exit statuses that are no call's numbers. */
enum { WRONG_USE = 64, UNREADABLE = 66 };

static const char usage[] =
    "bench sample DEPTH NUMBER RECORD SAMPLE    check a sample of a base page\n"
    "bench proof DEPTH RECORD TABLE PROOF       check a fault proof\n"
    "\n"
    "DEPTH 1 to 9; NUMBER a decimal number too; the others are files. RECORD must come from where it can be trusted:\n"
    "a DEPTH or a TABLE that it doesn't name is turned down, and pages are hashed by its kind. Exit status: 0\n"
    "accepted; 1 to 8 and 10 to 12 not, and why not; 64 bad usage; 66 a file cannot be read. At 7 it says the layer of\n"
    "the page that doesn't fit, and of a proof the position of the member on whose way up it is, the withheld one last.\n"
    "That page, or one above it, is to be asked for again: cedunmi check-sample and check-proof say which.\n";

struct file {
    uint8_t *bytes;
    size_t len;
};

static void stop(int status, const char *what, const char *why)
{
    fprintf(stderr, "bench: %s: %s\n", what, why);
    exit(status);
}

/* Opens a file, and says where it is known to be longer than any of its kind. */
static int open_file(const char *name, size_t longest)
{
    struct stat about;
    int from = open(name, O_RDONLY);
    if (from < 0 || fstat(from, &about) != 0) {
        stop(UNREADABLE, name, strerror(errno));
    }
    if (S_ISREG(about.st_mode) && about.st_size > (off_t)longest) {
        fprintf(stderr, "bench: %s: %lld bytes, and the longest of its kind has %zu\n", name,
                (long long)about.st_size, longest);
    }
    return from;
}

/*
 * A file's bytes, but at most one more than the longest of its kind has: to the
 * call every longer length is as wrong. There is always room: the library takes
 * no null pointer.
 */
static struct file read_file(const char *name, size_t longest)
{
    struct file file = {malloc(longest + 1), 0};
    int from = open_file(name, longest);
    ssize_t got = 0;
    if (file.bytes == NULL) {
        stop(UNREADABLE, name, "no memory");
    }
    do {
        got = read(from, file.bytes + file.len, longest + 1 - file.len);
        if (got < 0) {
            stop(UNREADABLE, name, strerror(errno));
        }
        file.len += (size_t)got;
    } while (got > 0 && file.len <= longest);
    close(from);
    return file;
}

/* A decimal number of 64 bits. */
static uint64_t number(const char *text)
{
    uint64_t value = 0;
    for (const char *at = text; at == text || *at != '\0'; at++) {
        if (*at < '0' || *at > '9') {
            stop(WRONG_USE, text, "not a decimal number");
        }
        uint64_t digit = (uint64_t)(*at - '0');
        if (value > (UINT64_MAX - digit) / 10) {
            stop(WRONG_USE, text, "over 64 bits");
        }
        value = 10 * value + digit;
    }
    return value;
}

/* Says what the result means, with its values, but for the second of 7, which a sample has not. */
static void explain(uint64_t result, const char *accepted)
{
    unsigned long long value = cmt_value(result), second = cmt_second_value(result);
    fprintf(stderr, "bench: %s", cmt_number(result) == CMT_DONE ? accepted : cmt_explain(cmt_number(result)));
    switch (cmt_number(result)) {
    case CMT_WRONG_TABLE:
        fprintf(stderr, ", first wrong word %llu", value);
        break;
    case CMT_WRONG_HASH:
        fprintf(stderr, ": layer %llu", value);
        break;
    case CMT_UNCOVERED:
        fprintf(stderr, ": page %llu of layer %llu, counted in that layer, is the first such", second, value);
        break;
    default:
        break;
    }
}

/* Says what is wrong with a record that was not taken. */
static void explain_record(uint64_t result, struct file record)
{
    unsigned long long depth = record.len < CMT_RECORD_BYTES ? 0 : cmt_record_depth(record.bytes);
    if (cmt_number(result) == CMT_WRONG_LENGTH && record.len < CMT_RECORD_BYTES) {
        fprintf(stderr, ": a record has %d bytes, and not %zu", CMT_RECORD_BYTES, record.len);
    }
    if (cmt_number(result) == CMT_WRONG_RECORD && depth > 0) {
        fprintf(stderr, ": it is of depth %llu", depth);
    }
}

/* Says how a table differs from the one that a record names. */
static void explain_table(struct file record, struct file table)
{
    unsigned long long named = cmt_record_table_bytes(record.bytes) / 4, words = table.len / 4;
    if (named == words) {
        fprintf(stderr, ": both have %llu words, but it has another SHA-256", words);
    } else {
        fprintf(stderr, ": it has %llu words, and that one %llu", words, named);
    }
}

static int check_sample(char **words)
{
    uint64_t depth = number(words[0]), base = number(words[1]);
    struct file record = read_file(words[2], CMT_RECORD_BYTES);
    struct file sample = read_file(words[3], CMT_SAMPLE_BYTES(CMT_DEPTH_MAX));
    uint64_t result = cmt_sample_check(depth, base, record.bytes, record.len, sample.bytes, sample.len);
    explain(result, "accepted: every hash in the sample leads to the root");
    explain_record(result, record);
    fputc('\n', stderr);
    free(record.bytes);
    free(sample.bytes);
    return (int)cmt_number(result);
}

static int check_proof(char **words)
{
    uint64_t depth = number(words[0]);
    struct file record = read_file(words[1], CMT_RECORD_BYTES);
    struct file table = read_file(words[2], CMT_TABLE_BYTES_MAX);
    struct file proof = read_file(words[3], CMT_OUTPUT_BYTES(CMT_DEPTH_MAX));
    uint64_t result = cmt_proof_check(depth, record.bytes, record.len, table.bytes, table.len,
                                      proof.bytes, proof.len);
    explain(result, "accepted: the proof shows that the volume was not coded as this table says");
    explain_record(result, record);
    if (cmt_number(result) == CMT_OTHER_TABLE) {
        explain_table(record, table);
    }
    if (cmt_number(result) == CMT_WRONG_HASH) {
        fprintf(stderr, ", position %llu", (unsigned long long)cmt_second_value(result));
    }
    fputc('\n', stderr);
    free(record.bytes);
    free(table.bytes);
    free(proof.bytes);
    return (int)cmt_number(result);
}

int main(int count, char **words)
{
    if (count == 6 && strcmp(words[1], "sample") == 0) {
        return check_sample(words + 2);
    }
    if (count == 6 && strcmp(words[1], "proof") == 0) {
        return check_proof(words + 2);
    }
    fputs(usage, stderr);
    return WRONG_USE;
}
