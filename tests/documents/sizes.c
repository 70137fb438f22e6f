/*
 * The sizes of docs/FORMAT.md as the header has them: the names and the ends of
 * the rows of its tables, without commas. With an argument, those of README.md:
 * a row for each depth.
 */
#include "cedunmi.h"

#include <stdio.h>

#define ROW(name, SIZE)                                           \
    do {                                                          \
        printf("%s:", name);                                      \
        for (int depth = 1; depth <= CMT_DEPTH_MAX; depth++) {    \
            printf(" | %zu", SIZE(depth));                        \
        }                                                         \
        printf(" |\n");                                           \
    } while (0)

/* tests/c/coverage.c tries these tables. */
#define LONGEST_TABLE(depth) (4 * (108 * ((CMT_SIZE(1) << (depth)) - 1) + CMT_SIZE(depth) - 5))

static void proofs(int members)
{
    printf("%d:", members);
    for (int layer = 0; layer < CMT_DEPTH_MAX; layer++) {
        printf(" | %zu", CMT_PROOF_BYTES(layer, members));
    }
    printf(" |\n");
}

static void depths(void)
{
    for (int depth = 1; depth <= CMT_DEPTH_MAX; depth++) {
        printf("| %d | %zu | %zu | %zu | %zu | %zu | %zu |\n", depth, CMT_BLOCK_BYTES(depth), CMT_MARKS_BYTES(depth),
               CMT_TREE_BYTES(depth), CMT_HOUSE_TABLE_BYTES(depth), CMT_SAMPLE_BYTES(depth), CMT_OUTPUT_BYTES(depth));
    }
}

int main(int count, char **words)
{
    (void)words;
    if (count > 1) {
        depths();
        return 0;
    }
    ROW("block", CMT_BLOCK_BYTES);
    ROW("marks", CMT_MARKS_BYTES);
    ROW("tree", CMT_TREE_BYTES);
    ROW("house table", CMT_HOUSE_TABLE_BYTES);
    ROW("longest well-formed table", LONGEST_TABLE);
    ROW("sample", CMT_SAMPLE_BYTES);
    ROW("repair's output", CMT_OUTPUT_BYTES);
    proofs(2);
    proofs(3);
    proofs(4);
    proofs(8);
    return 0;
}
