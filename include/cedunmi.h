/*
 * Cedunmi: coded Merkle trees, proved.
 *
 * Link with libcedunmi, which is libcedunmi_c.a where it is built. The library
 * needs no start-up call, keeps nothing between calls and allocates no memory.
 * docs/FORMAT.md has every byte of the buffers, and says what a page, a mark, a
 * layer, the base, a place and a withheld member are. A page is a symbol: the
 * papers and the proofs say symbol, this header says page.
 *
 * Results. Every call returns one uint64_t. Its low eight bits are a number:
 *
 *   0  done, or accepted
 *   1  stopped: the depth is not 1 to 9
 *   2  stopped: a length is wrong
 *   3  stopped: the table breaks a rule; the value is the first wrong word, or
 *      the number of words where the table is short
 *   4  stopped: a mark is neither 0 nor 1; the value is the lowest such place
 *   5  stopped: the base has no page of this number
 *   6  stopped: the proof's head has a wrong kind, layer or equation, or the
 *      equation has no such member
 *   7  stopped: a hash doesn't lead to the root; the value is the layer of the
 *      page whose hash is not the committed one; of a proof a second value is the
 *      position of the member on whose way up that page is
 *   8  stopped: the withheld hash fits: the proof shows no fault
 *   9  stopped: a needed page is absent; the value is the index in the sample
 *      of the first, or, reading a block, its base number
 *  10  stopped: a data page stands in fewer than two equations of its layer; two
 *      values, the first such layer and the lowest such page's number in it
 *  11  stopped: the record's head has a wrong kind, a length over that of the
 *      depth's block, or another depth than the call's; of cmt_tree_write(), there
 *      is no such kind of volume
 *  12  stopped: the table is not the one that the record names: it has another
 *      number of words, or another SHA-256
 *  14  stopped: the tree is not one that a repair calls whole with nothing stored,
 *      so it is not recoded
 *
 * 13 is none of them: it is an end of a repair, CMT_MISFILLED, which stops nothing.
 *
 * A call makes its tests in the order in which its numbers are listed below,
 * and stops at the first that fails. A call that stops changes no byte of any
 * buffer. The bits above the low eight are the values that go with the number:
 * 24 for the first, or the only one, and 32 above these for the second, which 10
 * has, and 7 of a proof; zero where there is none. Read a result with
 * cmt_number(), cmt_value() and cmt_second_value(); of a repair that ended, with
 * cmt_repair_end() and the functions after it. cmt_explain() and
 * cmt_explain_end() have the words for numbers and ends. A compiler that can
 * warns where a result is dropped.
 *
 * Buffers. Every pointer is followed by its length in bytes. What the caller
 * must see to, since no call can test it, and without which nothing is promised:
 * a pointer is not NULL, even where its length is 0, and points to at least that
 * many bytes; the buffers of one call do not overlap; nobody else changes them
 * during the call. Any alignment will do. What a buffer that is only written
 * held before does not matter. A call reads and writes only inside its buffers.
 *
 * Lengths are exact: a record has CMT_RECORD_BYTES, and the block that is read
 * back, tree, marks, sample and output of a depth have CMT_BLOCK_BYTES(depth),
 * CMT_TREE_BYTES(depth), CMT_MARKS_BYTES(depth), CMT_SAMPLE_BYTES(depth) and
 * CMT_OUTPUT_BYTES(depth); another length is CMT_WRONG_LENGTH. Only the message,
 * the table, the proof and the block that is coded have lengths of their own.
 *
 * Depths. A depth is 1 to CMT_DEPTH_MAX, at every call. One of 2^32+1 is not
 * taken for 1: depths are 64-bit numbers.
 *
 * Tables. A parity table is a list of 32-bit words, as big-endian bytes, four
 * to a word. CMT_TABLE_BYTES_MAX is the limit at every depth, and no table of
 * depth 1 to 5 has more than 13,392 bytes. While depths went to 5, the limit was
 * 16,384, and a longer table was CMT_WRONG_LENGTH; up to the limit of now it is
 * read, and at depth 1 to 5 is CMT_WRONG_TABLE, at its first wrong word.
 *
 * Records. A record is what a manual has of a volume: its kind and its depth, its
 * length, how many words its table has and the SHA-256 of the table's bytes, which
 * are the head, and then the root, which is the hash of each page of layer 0.
 * cmt_record_kind(), cmt_record_depth(), cmt_record_length() and
 * cmt_record_table_bytes() read the head. While a root had none, calls took its
 * CMT_ROOT_BYTES alone; these are CMT_WRONG_LENGTH now.
 *
 * Kinds. There are two kinds of volume, which differ in the hash of a page. In a
 * plain one, CMT_KIND_PLAIN, it is the SHA-256 of its 256 bytes, so that equal
 * pages have one hash; all volumes were so while there was one kind, and stay
 * readable. In one with places, CMT_KIND_PLACED, it is the SHA-256 of
 * CMT_PLACE_BYTES, which say the page's layer and its number in that layer, and
 * the 256 after these: equal pages have different hashes at different places, and
 * one that is filed by the hash of its place passes for no other. A record says
 * its kind, and each call that takes one hashes by that; by a record of the other
 * kind pages don't fit. Tree, marks, sample and proof have the same layout in
 * both. The hash of the table in a record is the SHA-256 of its bytes in both.
 *
 * Trust. A check is against the record, which must come from where it can be
 * trusted. Depth and table need not: a call with another depth than the record's
 * stops, and so does one with another table, unless the two tables have one
 * SHA-256.
 *
 * Stack. A call uses at most CMT_STACK_BYTES bytes of the caller's stack at
 * depth 1 to 5, without a depth, or with one that is refused; at depth 6 to 9 a
 * call that takes or writes a table uses more, at most CMT_STACK_BYTES_AT(depth).
 * No call tests whether there is room. A thread whose stack is smaller must not
 * make deeper calls: it would run over the end of its stack. These figures are
 * measured, not proved.
 */
#ifndef CEDUNMI_H
#define CEDUNMI_H

#include <stddef.h>
#include <stdint.h>

/* The version, as three numbers and as a text, which has dots between them. */
#define CMT_VERSION_MAJOR 0
#define CMT_VERSION_MINOR 2
#define CMT_VERSION_PATCH 0
#define CMT_VERSION CMT_DOTTED(CMT_VERSION_MAJOR, CMT_VERSION_MINOR, CMT_VERSION_PATCH)
#define CMT_DOTTED(major, minor, patch) CMT_TEXT(major) "." CMT_TEXT(minor) "." CMT_TEXT(patch)
#define CMT_TEXT(number) #number

/* Before a declaration: the compiler warns where what the function gives is dropped. */
#if defined(__GNUC__) || defined(__clang__)
#define CMT_CHECKED __attribute__((warn_unused_result))
#else
#define CMT_CHECKED
#endif

/* A number as a size_t, by the language's own cast. */
#ifdef __cplusplus
#define CMT_SIZE(number) (static_cast<size_t>(number))
#else
#define CMT_SIZE(number) ((size_t)(number))
#endif

#ifdef __cplusplus
extern "C" {
#endif

/* The numbers that cmt_number() gives. */
enum {
    CMT_DONE = 0,
    CMT_WRONG_DEPTH = 1,
    CMT_WRONG_LENGTH = 2,
    CMT_WRONG_TABLE = 3,
    CMT_WRONG_MARK = 4,
    CMT_WRONG_NUMBER = 5,
    CMT_WRONG_HEAD = 6,
    CMT_WRONG_HASH = 7,
    CMT_NO_FAULT = 8,
    CMT_ABSENT = 9,
    CMT_UNCOVERED = 10,
    CMT_WRONG_RECORD = 11,
    CMT_OTHER_TABLE = 12,
    CMT_NOT_WHOLE = 14
};

/* The kinds of volume: that of a record's first word, and what cmt_tree_write() is told. */
enum {
    CMT_KIND_PLACED = 0,
    CMT_KIND_PLAIN = 1
};

/* What cmt_repair_end() gives: the end of a repair, or that it stopped and has none. */
enum {
    CMT_WHOLE = 0,
    CMT_FAULT = 1,
    CMT_UNAVAILABLE = 2,
    CMT_TWINS = 3,
    CMT_MISFILLED = 13,
    CMT_NO_END = 16777216
};

/*
 * The most stack that a call uses, in bytes: at depth 1 to 5, without a depth, or
 * with one that is refused; at a deeper one; and at a depth from 1 to
 * CMT_DEPTH_MAX.
 */
#define CMT_STACK_BYTES 32768
#define CMT_STACK_BYTES_DEEP 524288
#define CMT_STACK_BYTES_AT(depth) ((depth) > 5 ? CMT_STACK_BYTES_DEEP : CMT_STACK_BYTES)

/* The longest message that cmt_sha256() takes, and its digest, in bytes. */
#define CMT_SHA256_MESSAGE_MAX 1048576
#define CMT_SHA256_DIGEST_BYTES 32

/* The largest depth, and the longest table that a call takes, in bytes. */
#define CMT_DEPTH_MAX 9
#define CMT_TABLE_BYTES_MAX 220792

/* The bytes of the house table of a depth from 1 to CMT_DEPTH_MAX. */
#define CMT_HOUSE_TABLE_BYTES(depth) (4 * (60 * ((CMT_SIZE(1) << (depth)) - 1) + 1))

/* The lengths of a tree's buffers at a depth from 1 to CMT_DEPTH_MAX, in bytes; of the block, the longest. */
#define CMT_MARKS_BYTES(depth) (16 * ((CMT_SIZE(1) << (depth)) - 1))
#define CMT_TREE_BYTES(depth) (256 * CMT_MARKS_BYTES(depth))
#define CMT_BLOCK_BYTES(depth) (256 * (CMT_SIZE(4) << ((depth) - 1)))
#define CMT_SAMPLE_BYTES(depth) (256 * (2 * CMT_SIZE(depth) - 1))

/* The bytes of a record, which are those of its head and of the root in it. */
#define CMT_RECORD_BYTES 556
#define CMT_RECORD_HEAD_BYTES 44
#define CMT_ROOT_BYTES 512

/* What is hashed before a page of a volume with places, in bytes: the big-endian word 2^30 + 2^24 * layer + number. */
#define CMT_PLACE_BYTES 4

/*
 * The bytes of a fault proof at a layer, of an equation of 2 to 8 members, its
 * head among them; and of the output buffer of a repair, which the longest
 * proof of its depth fills.
 */
#define CMT_PROOF_HEAD_BYTES 12
#define CMT_PROOF_BYTES(layer, members) \
    (CMT_PROOF_HEAD_BYTES + 256 * ((CMT_SIZE(members) - 1) * (CMT_SIZE(layer) + 1) + CMT_SIZE(layer)))
#define CMT_OUTPUT_BYTES(depth) CMT_PROOF_BYTES((depth) - 1, 8)
#define CMT_TWINS_BYTES 512

/* Word 0, 1 or 2 of a record, of which this and the next four read the first twelve bytes: of 32 bits the two
 * highest are its kind, the others its value. */
static inline uint64_t cmt_record_word(const uint8_t *record, size_t number)
{
    uint64_t word = 0;
    for (size_t i = 4 * number; i < 4 * number + 4; i++) {
        word = 256 * word + record[i];
    }
    return word;
}

/* The kind of volume that a record is of: CMT_KIND_PLACED, CMT_KIND_PLAIN, or 2 or 3, which no call takes. */
static inline uint64_t cmt_record_kind(const uint8_t *record)
{
    return cmt_record_word(record, 0) / 1073741824;
}

/* The length that a record says its volume has, in bytes. */
static inline uint64_t cmt_record_length(const uint8_t *record)
{
    return cmt_record_word(record, 1) % 1073741824;
}

/* The bytes that a record says the volume's table has, four to a word. */
static inline uint64_t cmt_record_table_bytes(const uint8_t *record)
{
    return 4 * (cmt_record_word(record, 2) % 1073741824);
}

/* The depth of a record of either kind, whatever its table and its root; 0 where no call takes its head. */
static inline uint64_t cmt_record_depth(const uint8_t *record)
{
    const uint64_t depth = cmt_record_word(record, 0) % 1073741824;
    if (cmt_record_kind(record) > CMT_KIND_PLAIN || cmt_record_word(record, 1) / 1073741824 != 2 ||
        cmt_record_word(record, 2) / 1073741824 != 3) {
        return 0;
    }
    if (depth < 1 || depth > CMT_DEPTH_MAX || cmt_record_length(record) > CMT_BLOCK_BYTES(depth)) {
        return 0;
    }
    return depth;
}

/* The number in a result: CMT_DONE, or why the call stopped. */
static inline uint64_t cmt_number(uint64_t result)
{
    return result % 256;
}

/* The value that goes with the number, the first where it has two, 0 where it has none; not of a repair
 * that ended. */
static inline uint64_t cmt_value(uint64_t result)
{
    return result / 256 % 16777216;
}

/* The second value that goes with the number, 0 where it has none; not of a repair that ended. */
static inline uint64_t cmt_second_value(uint64_t result)
{
    return result / 4294967296;
}

/* How a repair ended: one of the ends, CMT_NO_END where it stopped. */
static inline uint64_t cmt_repair_end(uint64_t result)
{
    if (cmt_number(result) != CMT_DONE) {
        return CMT_NO_END;
    }
    return cmt_value(result);
}

/* How many pages a repair has formed and stored; 0 where it stopped. */
static inline uint64_t cmt_repair_stored(uint64_t result)
{
    return cmt_number(result) == CMT_DONE ? cmt_second_value(result) % 65536 : 0;
}

/* The bytes of the proof that a repair wrote; 0 where its end is not CMT_FAULT. */
static inline uint64_t cmt_repair_proof_bytes(uint64_t result)
{
    return cmt_repair_end(result) == CMT_FAULT ? cmt_second_value(result) / 65536 : 0;
}

/* The layer that a repair left incomplete; 0 where its end is not CMT_UNAVAILABLE. */
static inline uint64_t cmt_repair_layer(uint64_t result)
{
    return cmt_repair_end(result) == CMT_UNAVAILABLE ? cmt_second_value(result) / 65536 : 0;
}

/* Of the twins that a repair found in a volume with places, the layer, and the number in that layer, of the place
 * whose hash both have; 0 where its end is not CMT_TWINS, or the record is of a plain volume: its twins name none. */
static inline uint64_t cmt_repair_twins_layer(uint64_t result)
{
    return cmt_repair_end(result) == CMT_TWINS ? cmt_second_value(result) / 65536 / 4096 : 0;
}

static inline uint64_t cmt_repair_twins_number(uint64_t result)
{
    return cmt_repair_end(result) == CMT_TWINS ? cmt_second_value(result) / 65536 % 4096 : 0;
}

/* What a number that cmt_number() gives means. */
static inline const char *cmt_explain(uint64_t number)
{
    switch (number) {
    case CMT_DONE:
        return "done, or accepted";
    case CMT_WRONG_DEPTH:
        return "the depth is not 1 to 9";
    case CMT_WRONG_LENGTH:
        return "a length is wrong";
    case CMT_WRONG_TABLE:
        return "the table breaks a rule";
    case CMT_WRONG_MARK:
        return "a mark is neither 0 nor 1";
    case CMT_WRONG_NUMBER:
        return "the base has no page of this number";
    case CMT_WRONG_HEAD:
        return "the proof's head has a wrong kind, layer or equation, or the equation has no such member";
    case CMT_WRONG_HASH:
        return "a hash doesn't lead to the root";
    case CMT_NO_FAULT:
        return "the withheld hash fits: the proof shows no fault";
    case CMT_ABSENT:
        return "a needed page is absent";
    case CMT_UNCOVERED:
        return "a data page stands in fewer than two equations of its layer";
    case CMT_WRONG_RECORD:
        return "the record's head, or what is to be coded, has a wrong kind; or the head has a length that is too large, "
               "or another depth than the call's";
    case CMT_OTHER_TABLE:
        return "the table is not the one that the record names";
    case CMT_NOT_WHOLE:
        return "the tree is not whole as it is, so it is not recoded";
    default:
        return "a number that no call gives";
    }
}

/* What an end that cmt_repair_end() gives means. */
static inline const char *cmt_explain_end(uint64_t end)
{
    switch (end) {
    case CMT_WHOLE:
        return "whole: every page is held, and the tree agrees with the record and the table";
    case CMT_FAULT:
        return "fault: the volume was not coded as the table says";
    case CMT_UNAVAILABLE:
        return "unavailable: no equation gives another page of the layer";
    case CMT_TWINS:
        return "twins: two different pages of equal hash were found";
    case CMT_MISFILLED:
        return "misfilled: every page is held, and the tree agrees with the root and the table, but what fills up "
               "the volume isn't zero";
    case CMT_NO_END:
        return "no end: the repair stopped";
    default:
        return "an end that no repair has";
    }
}

/*
 * SHA-256 (FIPS 180-4) of the message, written to the digest.
 *
 * CMT_DONE          the 32 bytes of the digest are the message's SHA-256.
 * CMT_WRONG_LENGTH  message_len is over 1,048,576 or digest_len is not 32; the
 *                   digest is as it was.
 *
 * The message may be empty. It is never changed.
 */
CMT_CHECKED
uint64_t cmt_sha256(const uint8_t *message, size_t message_len,
                    uint8_t *digest, size_t digest_len);

/*
 * Whether the bytes are a parity table of this depth that calls take: a
 * well-formed one, with each data page in at least two equations of its layer.
 *
 * CMT_DONE          they are.
 * CMT_WRONG_DEPTH   the depth is not 1 to CMT_DEPTH_MAX.
 * CMT_WRONG_LENGTH  table_len is over CMT_TABLE_BYTES_MAX or not a multiple of 4.
 * CMT_WRONG_TABLE   a rule is broken. cmt_value() is the first wrong word,
 *                   counted from 0: no well-formed table of this depth begins
 *                   with the words up to it. Of a table that is only short it
 *                   is the number of its words.
 * CMT_UNCOVERED     the table is well-formed, but a data page is a member of
 *                   fewer than two equations of its layer. cmt_value() is the
 *                   first layer that has such a page, cmt_second_value() the
 *                   lowest such page's number in that layer.
 */
CMT_CHECKED
uint64_t cmt_table_check(uint64_t depth, const uint8_t *table, size_t table_len);

/*
 * Writes the house table of this depth.
 *
 * CMT_DONE          the buffer is the table.
 * CMT_WRONG_DEPTH   the depth is not 1 to CMT_DEPTH_MAX.
 * CMT_WRONG_LENGTH  table_len is not CMT_HOUSE_TABLE_BYTES(depth).
 */
CMT_CHECKED
uint64_t cmt_house_table(uint64_t depth, uint8_t *table, size_t table_len);

/*
 * Codes a block as a volume of this kind, CMT_KIND_PLACED or CMT_KIND_PLAIN. The
 * block is filled up with zeros where it is shorter than CMT_BLOCK_BYTES(depth).
 * Writes its tree, a mark of 1 for every page, and its record, which has the kind,
 * and block_len for the length. A block of 0 bytes needs a pointer that is not
 * NULL all the same.
 *
 * CMT_DONE          all three are written.
 * CMT_WRONG_DEPTH   the depth is not 1 to CMT_DEPTH_MAX.
 * CMT_WRONG_LENGTH  block_len is over CMT_BLOCK_BYTES(depth), another buffer has
 *                   another length than this depth asks, or the table's is over
 *                   CMT_TABLE_BYTES_MAX or no multiple of 4.
 * CMT_WRONG_RECORD  the kind is neither 0 nor 1: it is a 64-bit number, and 2^32
 *                   is not taken for 0.
 * CMT_WRONG_TABLE   the table breaks a rule, as for cmt_table_check().
 * CMT_UNCOVERED     as for cmt_table_check().
 */
CMT_CHECKED
uint64_t cmt_tree_write(uint64_t depth, uint64_t kind,
                        const uint8_t *table, size_t table_len,
                        const uint8_t *block, size_t block_len,
                        uint8_t *tree, size_t tree_len,
                        uint8_t *marks, size_t marks_len,
                        uint8_t *record, size_t record_len);

/*
 * Reads the block back: copies the base's data pages, each of which must be
 * marked held, as far as the record's length. It looks at marks, and never at
 * hashes or at what fills the block up.
 *
 * CMT_DONE          the first cmt_record_length() bytes of the block are those of
 *                   the base's data pages, in their order; the rest of it is as
 *                   it was.
 * CMT_WRONG_DEPTH   the depth is not 1 to CMT_DEPTH_MAX.
 * CMT_WRONG_LENGTH  a buffer has another length than this depth asks: block_len
 *                   is CMT_BLOCK_BYTES(depth), whatever the record's length is.
 * CMT_WRONG_RECORD  a word of the record's head has another kind than 00 or 01,
 *                   10 and 11 in this order, the length is over
 *                   CMT_BLOCK_BYTES(depth), or the record is of another depth.
 * CMT_WRONG_MARK    cmt_value() is the lowest place with a mark that is neither
 *                   0 nor 1, anywhere in the tree.
 * CMT_ABSENT        cmt_value() is the number of the base's first absent data
 *                   page, be it one that the record's length does not reach.
 */
CMT_CHECKED
uint64_t cmt_block_read(uint64_t depth, const uint8_t *record, size_t record_len,
                        const uint8_t *tree, size_t tree_len,
                        const uint8_t *marks, size_t marks_len,
                        uint8_t *block, size_t block_len);

/*
 * Takes a sample of a base page. It looks at marks and never at hashes.
 *
 * CMT_DONE          the sample is the base page, and from each layer above, going
 *                   up, a data page and a parity page.
 * CMT_WRONG_DEPTH   the depth is not 1 to CMT_DEPTH_MAX.
 * CMT_WRONG_LENGTH  a buffer has another length than this depth asks.
 * CMT_WRONG_MARK    as for cmt_block_read().
 * CMT_WRONG_NUMBER  the base has no page of this number.
 * CMT_ABSENT        cmt_value() is the index in the sample of the first page that
 *                   is absent, 0 for the base page.
 */
CMT_CHECKED
uint64_t cmt_sample_take(uint64_t depth, uint64_t number,
                         const uint8_t *tree, size_t tree_len,
                         const uint8_t *marks, size_t marks_len,
                         uint8_t *sample, size_t sample_len);

/*
 * Checks a sample of a base page against the record.
 *
 * CMT_DONE          every hash in it leads to the root.
 * CMT_WRONG_DEPTH   the depth is not 1 to CMT_DEPTH_MAX.
 * CMT_WRONG_LENGTH  a buffer has another length than this depth asks.
 * CMT_WRONG_RECORD  as for cmt_block_read().
 * CMT_WRONG_NUMBER  the base has no page of this number.
 * CMT_WRONG_HASH    a hash doesn't lead to the root. cmt_value() is the first
 *                   layer, going up from the base, that has a page in the sample
 *                   whose hash is not the one that the sample's data page of the
 *                   next layer up, or of layer 0 the root, has for it: its data
 *                   page, its parity page, or both: hash the two, by the record's
 *                   kind, to see which.
 *                   If record and number are the right ones, ask again first for
 *                   the topmost page that doesn't fit, of these and the data
 *                   pages above them: the page above it leads to the root, so
 *                   it is wrong, unless two pages of equal hash came together.
 */
CMT_CHECKED
uint64_t cmt_sample_check(uint64_t depth, uint64_t number,
                          const uint8_t *record, size_t record_len,
                          const uint8_t *sample, size_t sample_len);

/*
 * Checks a fault proof against the record and the table.
 *
 * CMT_DONE          every hash leads to the root, and the hash of the
 *                   exclusive-or of the given members is not the one committed
 *                   for the withheld one: the volume with this record was not
 *                   coded as this table says.
 * CMT_WRONG_DEPTH   the depth is not 1 to CMT_DEPTH_MAX.
 * CMT_WRONG_LENGTH  record_len is not CMT_RECORD_BYTES, the table's is over
 *                   CMT_TABLE_BYTES_MAX or no multiple of 4, proof_len is under
 *                   CMT_PROOF_HEAD_BYTES; or, after the next five, proof_len is
 *                   not the one that the head demands.
 * CMT_WRONG_RECORD  as for cmt_block_read().
 * CMT_WRONG_TABLE   the table breaks a rule, as for cmt_table_check().
 * CMT_UNCOVERED     as for cmt_table_check().
 * CMT_OTHER_TABLE   the table has another number of words than the record says,
 *                   or another SHA-256.
 * CMT_WRONG_HEAD    the head has a wrong kind, a layer or an equation that the
 *                   table has not, or withholds no member of the equation.
 * CMT_WRONG_HASH    a hash doesn't lead to the root. cmt_second_value() is the
 *                   position of the first member with such a hash: 0 is the
 *                   first that is given, and the withheld one comes after all
 *                   that are. cmt_value() is the first layer, going up from
 *                   that member, whose page has another hash than the one that
 *                   the page above it in the path, or of layer 0 the root, has
 *                   for it. It is the head's layer where that is the given
 *                   member itself, and less on its path; the withheld one has
 *                   a path alone, which starts one layer up. If the record is
 *                   the right one, ask again first for the topmost page on
 *                   this way up that doesn't fit, as for cmt_sample_check().
 * CMT_NO_FAULT      the hashes are equal.
 */
CMT_CHECKED
uint64_t cmt_proof_check(uint64_t depth, const uint8_t *record, size_t record_len,
                         const uint8_t *table, size_t table_len,
                         const uint8_t *proof, size_t proof_len);

/*
 * Repairs a tree, layer by layer from the top: makes a held page whose hash
 * is not the committed one absent, zeroes the absent places, and forms what the
 * equations give. Tree and marks are read and written. Stops with 1, 2, 11, 3,
 * 10, 12 or 4, as cmt_proof_check() and cmt_block_read() do, and then
 * cmt_repair_end() is CMT_NO_END. Otherwise the number is CMT_DONE, and
 * cmt_repair_end() is one of:
 *
 * CMT_WHOLE         every page is marked held, the tree is correctly coded and
 *                   agrees with the root and the table, and each byte of the
 *                   base's data pages from cmt_record_length() on is zero.
 * CMT_MISFILLED     as CMT_WHOLE, but such a byte is not zero: the volume was not
 *                   filled up as cmt_tree_write() does, or has another length
 *                   than the record says.
 * CMT_FAULT         the output begins with a fault proof that
 *                   cmt_proof_check() accepts, of cmt_repair_proof_bytes().
 * CMT_UNAVAILABLE   no equation has just one of the places of cmt_repair_layer()
 *                   that are now marked 0, so none gives any of them; those that
 *                   have none of these places hold.
 * CMT_TWINS         the output begins with two different pages of equal hash,
 *                   CMT_TWINS_BYTES in all. In a volume with places it is the
 *                   hash of one place, which cmt_repair_twins_layer() and
 *                   cmt_repair_twins_number() name, with each of them; in a plain
 *                   one their SHA-256, and these two are 0.
 *
 * Each also gives cmt_repair_stored(). The rest of the output, all of it where
 * nothing is written, and the layers below the last one entered are as they
 * were.
 */
CMT_CHECKED
uint64_t cmt_repair(uint64_t depth, const uint8_t *record, size_t record_len,
                    const uint8_t *table, size_t table_len,
                    uint8_t *tree, size_t tree_len,
                    uint8_t *marks, size_t marks_len,
                    uint8_t *output, size_t output_len);

/*
 * Recodes a volume: makes of a plain one the same with places, or of one with
 * places the same plain. The record says of which kind it is. Tree and marks must
 * be what a repair calls whole and leaves as they are; nothing is repaired here.
 * Record, table, tree and marks are only read. It does not work in place: the new
 * buffers must not overlap these, nor each other. All lengths are exact, those of
 * what is written too: new_tree has CMT_TREE_BYTES(depth), new_marks
 * CMT_MARKS_BYTES(depth), new_record CMT_RECORD_BYTES.
 *
 * CMT_DONE          new_tree, new_marks and new_record are what cmt_tree_write()
 *                   of the other kind makes of this volume, with the same depth,
 *                   table and length. Recoded once more they give the tree, the
 *                   marks and the record that were read.
 * CMT_WRONG_DEPTH   the depth is not 1 to CMT_DEPTH_MAX.
 * CMT_WRONG_LENGTH  a buffer has another length than this depth asks, or the
 *                   table's is over CMT_TABLE_BYTES_MAX or no multiple of 4.
 * CMT_WRONG_RECORD  as for cmt_block_read().
 * CMT_WRONG_TABLE   the table breaks a rule, as for cmt_table_check().
 * CMT_UNCOVERED     as for cmt_table_check().
 * CMT_OTHER_TABLE   as for cmt_proof_check().
 * CMT_WRONG_MARK    as for cmt_block_read().
 * CMT_NOT_WHOLE     a page is marked absent, or has another hash than the one
 *                   that is committed by the record's kind, or an equation does
 *                   not hold, or what fills the block up isn't zero: cmt_repair()
 *                   of copies would store a page, or end otherwise than
 *                   CMT_WHOLE, and says which.
 */
CMT_CHECKED
uint64_t cmt_recode(uint64_t depth, const uint8_t *record, size_t record_len,
                    const uint8_t *table, size_t table_len,
                    const uint8_t *tree, size_t tree_len,
                    const uint8_t *marks, size_t marks_len,
                    uint8_t *new_tree, size_t new_tree_len,
                    uint8_t *new_marks, size_t new_marks_len,
                    uint8_t *new_record, size_t new_record_len);

#ifdef __cplusplus
}
#endif

#endif
