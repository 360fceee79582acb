/*
 * Builds the tables of a small board in this program's own memory, prints their runs of equal words and the places of
 * one address, and shows how refusals are answered.
 */
#include <inttypes.h>
#include <stdio.h>

#include "gpt_rme.h"

#define TABLES 2
#define TABLE_WORDS 16384
#define TABLE_BYTES (8 * TABLE_WORDS)

static uint64_t l0[4];
static uint64_t l1[TABLES * TABLE_WORDS];

static const struct gpt_rme_setup setup = {4, 512, TABLES, 0xc0000000};

static const struct gpt_rme_region regions[] = {
    {0x00000000, 0x40000000, GPT_RME_KIND_GRANULE, GPT_RME_GPI_NS},
    {0x40000000, 0x00200000, GPT_RME_KIND_GRANULE, GPT_RME_GPI_REALM},
    {0x40200000, 0x00003000, GPT_RME_KIND_GRANULE, GPT_RME_GPI_SECURE},
    {0xc0000000, 0x40000000, GPT_RME_KIND_BLOCK, GPT_RME_GPI_ROOT},
};

/* runs of equal words: the first index, how many, and the word */
static void print_runs(const char *name, const uint64_t *words, uint64_t count)
{
    uint64_t first = 0;

    for (uint64_t k = 1; k <= count; k++) {
        if (k < count && words[k] == words[first])
            continue;
        printf("%s %" PRIu64 " %" PRIu64 " 0x%" PRIx64 "\n", name, first, k - first, words[first]);
        first = k;
    }
}

static void print_places(uint64_t address)
{
    struct gpt_rme_space space = {4, 1, TABLES, 0xc0000000, 512, 2, {0}};
    struct gpt_rme_places places = {0, 0, 0, 0, 0, 0, 0, 0};
    uint64_t count = 0;
    int32_t code;

    for (int q = 0; q < 4; q++)
        space.l0[q] = l0[q];
    code = gpt_rme_word_count(&space, &count);
    printf("shared words: code %" PRId32 " count %" PRIu64 "\n", code, count);
    code = gpt_rme_places(&space, address, &places);
    printf("places of 0x%" PRIx64 ": code %" PRId32 " lock %" PRIu64 " mask 0x%" PRIx64 " word %" PRIu64
           " field %" PRIu64 " line %" PRIu64 " generations %" PRIu64 " %" PRIu64 " %" PRIu64 "\n",
           address, code, places.lock, places.mask, places.word, places.field, places.line, places.two,
           places.thirty_two, places.five_twelve);
}

static void print_refusal(const char *what, const struct gpt_rme_setup *by, const struct gpt_rme_region *list,
                          size_t count, size_t room)
{
    struct gpt_rme_told told = {0, 0};
    int32_t code = gpt_rme_build(by, list, count, l0, 4, l1, room, &told);

    printf("%s: code %" PRId32 " told %" PRIu64 " %" PRIu64 "\n", what, code, told.first, told.second);
}

int main(void)
{
    struct gpt_rme_told told = {0, 0};
    struct gpt_rme_setup other = setup;
    const struct gpt_rme_region twice[] = {regions[0], regions[3], regions[0]};
    int32_t code = gpt_rme_build(&setup, regions, 4, l0, 4, l1, TABLES * TABLE_WORDS, &told);

    printf("built: code %" PRId32 " l0 words %" PRIu64 " l1 words %" PRIu64 "\n", code, told.first, told.second);
    print_runs("l0", l0, told.first);
    for (uint64_t t = 0; t < told.second / TABLE_WORDS; t++) {
        printf("table %" PRIu64 " at 0x%" PRIx64 "\n", t, setup.base + t * TABLE_BYTES);
        print_runs("l1", l1 + t * TABLE_WORDS, TABLE_WORDS);
    }
    print_places(0x40201000);
    print_refusal("no regions", &setup, regions, 0, TABLES * TABLE_WORDS);
    print_refusal("a shared granule", &setup, twice, 3, TABLES * TABLE_WORDS);
    print_refusal("an array too short", &setup, regions, 4, TABLE_WORDS);
    other.tables = 1;
    print_refusal("one table", &other, regions, 4, TABLES * TABLE_WORDS);
    other.tables = 2;
    other.base = 0xc0001000;
    print_refusal("a bad base", &other, regions, 4, TABLES * TABLE_WORDS);
    other.gigabytes = 5;
    print_refusal("5 GB", &other, regions, 4, TABLES * TABLE_WORDS);
    return code != 0;
}
