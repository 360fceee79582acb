/*
 * Holds the proved codec against a table of descriptors that was written by hand from DDI 0487, as a test of another
 * codec would: each word is decoded, and where it is a descriptor encoded again. Prints a line for each word.
 */
#include <inttypes.h>
#include <stdio.h>

#include "gpt_rme.h"

struct l0_case {
    uint64_t word;
    int32_t code;
    struct gpt_rme_l0 entry;
};

struct l1_case {
    uint64_t word;
    int32_t code;
    struct gpt_rme_l1 entry;
};

static const struct l0_case l0_cases[] = {
    {0x1, GPT_RME_DONE, {0, GPT_RME_GPI_NO_ACCESS, 0}},
    {0x91, GPT_RME_DONE, {0, GPT_RME_GPI_NS, 0}},
    {0xf1, GPT_RME_DONE, {0, GPT_RME_GPI_ANY, 0}},
    {0x80000003, GPT_RME_DONE, {1, 0, 0x80000000}},
    {0xffffffffff003, GPT_RME_DONE, {1, 0, 0xffffffffff000}},
    {0x21, GPT_RME_BAD_WORD, {0, 0, 0}},             /* GPI 2 is reserved */
    {0x191, GPT_RME_BAD_WORD, {0, 0, 0}},            /* a level 1 word */
    {0x803, GPT_RME_BAD_WORD, {0, 0, 0}},            /* address bits below 12 */
    {0x10000000000003, GPT_RME_BAD_WORD, {0, 0, 0}}, /* an address of 2^52 */
};

static const struct l1_case l1_cases[] = {
    {0x9999999999999999, GPT_RME_DONE, {0, 0, 0x9999999999999999}},
    {0x999999999999b999, GPT_RME_DONE, {0, 0, 0x999999999999b999}},
    {0x0, GPT_RME_DONE, {0, 0, 0}},
    {0x191, GPT_RME_DONE, {GPT_RME_CONTIG_2MB, GPT_RME_GPI_NS, 0}},
    {0x2b1, GPT_RME_DONE, {GPT_RME_CONTIG_32MB, GPT_RME_GPI_REALM, 0}},
    {0x3f1, GPT_RME_DONE, {GPT_RME_CONTIG_512MB, GPT_RME_GPI_ANY, 0}},
    {0x91, GPT_RME_BAD_WORD, {0, 0, 0}},               /* contiguous without a size */
    {0x491, GPT_RME_BAD_WORD, {0, 0, 0}},              /* a size of 4 */
    {0x9999999999999992, GPT_RME_BAD_WORD, {0, 0, 0}}, /* GPI 2 in the first field */
};

static int failed;

static void expect(int holds, const char *what, uint64_t word)
{
    if (!holds) {
        failed = 1;
        printf("WRONG: %s of 0x%" PRIx64 "\n", what, word);
    }
}

static void run_l0(const struct l0_case *c)
{
    struct gpt_rme_l0 entry = {0, 0, 0};
    uint64_t word = 0;
    int32_t code = gpt_rme_l0_decode(c->word, &entry);

    expect(code == c->code && entry.table == c->entry.table && entry.gpi == c->entry.gpi
               && entry.address == c->entry.address,
           "l0", c->word);
    printf("l0 0x%" PRIx64 ": code %" PRId32, c->word, code);
    if (code == GPT_RME_DONE) {
        printf(" table %" PRIu32 " gpi %" PRIu32 " address 0x%" PRIx64, entry.table, entry.gpi, entry.address);
        expect(gpt_rme_l0_encode(&entry, &word) == GPT_RME_DONE && word == c->word, "l0 encoded", c->word);
    }
    printf("\n");
}

static void run_l1(const struct l1_case *c)
{
    struct gpt_rme_l1 entry = {0, 0, 0};
    uint64_t word = 0;
    int32_t code = gpt_rme_l1_decode(c->word, &entry);

    expect(code == c->code && entry.contig == c->entry.contig && entry.gpi == c->entry.gpi
               && entry.fields == c->entry.fields,
           "l1", c->word);
    printf("l1 0x%" PRIx64 ": code %" PRId32, c->word, code);
    if (code == GPT_RME_DONE) {
        uint32_t gpi = 0;

        expect(gpt_rme_l1_encode(&entry, &word) == GPT_RME_DONE && word == c->word, "l1 encoded", c->word);
        expect(gpt_rme_l1_gpi_at(c->word, 3, &gpi) == GPT_RME_DONE, "l1 gpi", c->word);
        printf(" contig %" PRIu32 " gpi %" PRIu32 " fields 0x%" PRIx64 "; granule 3 is %" PRIu32, entry.contig,
               entry.gpi, entry.fields, gpi);
    }
    printf("\n");
}

static void run_permission(void)
{
    for (uint32_t gpi = 0; gpi < 17; gpi++) {
        printf("gpi %" PRIu32 ":", gpi);
        for (uint32_t space = 0; space < 5; space++)
            printf(" %" PRId32, gpt_rme_permits(gpi, space));
        printf("\n");
    }
}

int main(void)
{
    uint64_t word = 0;
    int32_t code = gpt_rme_l1_with_field(0x9999999999999999, 3, GPT_RME_GPI_REALM, &word);

    for (size_t k = 0; k < sizeof l0_cases / sizeof l0_cases[0]; k++)
        run_l0(&l0_cases[k]);
    for (size_t k = 0; k < sizeof l1_cases / sizeof l1_cases[0]; k++)
        run_l1(&l1_cases[k]);
    run_permission();
    printf("granule 3 made realm: code %" PRId32 " word 0x%" PRIx64 "\n", code, word);
    return failed;
}
