/*
 * Granule protection tables: descriptors, permission, places of shared words, and a table builder.
 *
 * Two static libraries stand behind this header. libgpt_rme_c.a has all but gpt_rme_build: it takes no
 * memory, and of the C library it needs memcpy and memset alone. libgpt_rme_build_c.a has gpt_rme_build,
 * which takes memory while it runs (see there). The crates are gpt_rme_c and gpt_rme_build_c.
 *
 * What is proved. For each function and each of its answers, what the answer means and what is written, for
 * every value of every number that is passed: the contract of the function of that name in src/ of its crate. No
 * contract requires anything of these numbers, since each call tests them. So sound data isn't refused, and where
 * data is refused none of the caller's words is written.
 *
 * Where that ends. It holds of the library's code, as far as the C program keeps to this:
 * - A pointer points to an object of its type, or, where a count follows it, to so many; none is null, also where
 *   the count is 0. What it points to is initialised, also where it is only written.
 * - During a call nobody else writes an object that is passed, and an object that may be written overlaps no other.
 * - The header and the archive are of one version; the C compiler, linker and library are right.
 * What a C program does with an answer isn't proved. The theorem on histories of transitions is of the crates
 * core_machine and race_run, and not of C.
 *
 * Ownership and threads. The libraries keep no pointer and have no state of their own: an object may be copied,
 * moved or dropped after a call. So calls from several threads may overlap as far as their objects allow it.
 *
 * Units. An address and a size in bytes are in bytes; a place is an index in an array of 64-bit words.
 * Numbers of a GPI are those of the field (DDI 0487, encodings of the GPI field); TF-A has the same as GPT_GPI_*.
 */
#ifndef GPT_RME_H
#define GPT_RME_H

#include <stddef.h>
#include <stdint.h>

#ifdef __cplusplus
extern "C" {
#endif

/* ---- answers: 0 is done, below 0 is refused, and then no word is written */

#define GPT_RME_DONE 0
/* a number of a struct or a parameter stands for nothing */
#define GPT_RME_BAD_DATA (-1)
/* the address isn't in the protected space, or an L0 block covers it */
#define GPT_RME_BAD_ADDRESS (-2)
/* the word isn't a descriptor, or not one of the kind that is needed */
#define GPT_RME_BAD_WORD (-3)

/* ---- numbers */

/* GPIs */
#define GPT_RME_GPI_NO_ACCESS 0u
#define GPT_RME_GPI_SECURE 8u
#define GPT_RME_GPI_NS 9u
#define GPT_RME_GPI_ROOT 10u
#define GPT_RME_GPI_REALM 11u
#define GPT_RME_GPI_ANY 15u

/* physical address spaces, by the bits NSE and NS of an access */
#define GPT_RME_SPACE_SECURE 0u
#define GPT_RME_SPACE_NS 1u
#define GPT_RME_SPACE_ROOT 2u
#define GPT_RME_SPACE_REALM 3u

/* the field Contig of a contiguous descriptor */
#define GPT_RME_CONTIG_2MB 1u
#define GPT_RME_CONTIG_32MB 2u
#define GPT_RME_CONTIG_512MB 3u

/* ---- descriptors (DDI 0487, GPT level 0 and level 1 descriptors) */

/* A level 0 entry. What isn't used is 0. */
struct gpt_rme_l0 {
    uint32_t table;   /* 0 a block of 1 GB, 1 a table */
    uint32_t gpi;     /* of a block */
    uint64_t address; /* of a table: bytes, a multiple of 4,096 below 2^52 */
};

/* A level 1 entry. What isn't used is 0. */
struct gpt_rme_l1 {
    uint32_t contig; /* 0 sixteen granules, else GPT_RME_CONTIG_* */
    uint32_t gpi;    /* of a contiguous block */
    uint64_t fields; /* of granules: sixteen GPIs, that of the first granule in bits 3:0 */
};

/* Decode: DONE exactly where the word is a descriptor, else BAD_WORD. */
int32_t gpt_rme_l0_decode(uint64_t word, struct gpt_rme_l0 *entry);
int32_t gpt_rme_l1_decode(uint64_t word, struct gpt_rme_l1 *entry);

/* Encode: DONE exactly where the numbers are those of an entry, else BAD_DATA. */
int32_t gpt_rme_l0_encode(const struct gpt_rme_l0 *entry, uint64_t *word);
int32_t gpt_rme_l1_encode(const struct gpt_rme_l1 *entry, uint64_t *word);

/*
 * The GPI that a level 1 word gives the granule at a place, 0 to 15. BAD_DATA where the place is another, else
 * BAD_WORD where the word isn't a descriptor.
 */
int32_t gpt_rme_l1_gpi_at(uint64_t word, uint32_t place, uint32_t *gpi);

/*
 * A granules word with the GPI at one place, 0 to 15, replaced. BAD_DATA where the place is another or the number
 * is no GPI, else BAD_WORD where the word isn't a granules descriptor.
 */
int32_t gpt_rme_l1_with_field(uint64_t word, uint32_t place, uint32_t gpi, uint64_t *replaced);

/*
 * Whether a granule with this GPI may be accessed in this space (DDI 0487, granule protection checks): 1 it may,
 * 0 it may not. BAD_DATA where a number is no GPI or no space.
 */
int32_t gpt_rme_permits(uint32_t gpi, uint32_t space);

/* ---- a protected space, and the places of its shared words */

struct gpt_rme_space {
    uint64_t gigabytes;   /* 4 or 64 (PPS) */
    uint64_t lock_blocks; /* blocks of 512 MB for one lock bit: 1, 2, 4, 8, or 0 for one lock (RME_GPT_BITLOCK_BLOCK) */
    uint64_t tables;      /* L1 tables that there is memory for, at most 16 */
    uint64_t base;        /* address of the first of them, a multiple of 131,072 where there is one */
    uint32_t max;         /* largest contiguous size in MB: 0 none, 2, 32, 512 (RME_GPT_MAX_BLOCK) */
    uint32_t cpus;        /* processors, at most 32 */
    uint64_t l0[64];      /* the L0 words, one a gigabyte; those above aren't read. The k-th table is at base + k * 131,072 */
};

/* Places in one array of 64-bit words: locks, generations, duty words, L1 words and line words. */
struct gpt_rme_places {
    uint64_t lock;        /* the word of its lock */
    uint64_t mask;        /* the one bit of the lock in it */
    uint64_t word;        /* its L1 word */
    uint64_t field;       /* its granule in that word, 0 to 15 */
    uint64_t line;        /* its line word */
    uint64_t two;         /* the generation of its 2 MB */
    uint64_t thirty_two;  /* of its 32 MB */
    uint64_t five_twelve; /* of its 512 MB */
};

/* The number of shared words. BAD_DATA where a number is out of range or the L0 words are no good table. */
int32_t gpt_rme_word_count(const struct gpt_rme_space *space, uint64_t *count);

/*
 * The places of an address in bytes, which needn't be aligned. BAD_DATA as above, else BAD_ADDRESS where the
 * address isn't in the space or an L0 block covers it.
 */
int32_t gpt_rme_places(const struct gpt_rme_space *space, uint64_t address, struct gpt_rme_places *places);

/* ---- the table builder, of libgpt_rme_build_c.a */

/* answers of gpt_rme_build alone, beside DONE and BAD_DATA */
#define GPT_RME_NO_MEMORY (-4)
/* an array is too short: told has the words of L0 and of L1 that are needed */
#define GPT_RME_NO_ROOM (-5)
#define GPT_RME_NO_REGIONS (-10)
/* more than 256 */
#define GPT_RME_TOO_MANY (-11)
/* base or size isn't a multiple of the granule, or the size is 0: told.first is the index of the region */
#define GPT_RME_UNALIGNED (-12)
/* a region ends above the protected space: told.first is its index */
#define GPT_RME_OUTSIDE (-13)
/* a region of blocks isn't of whole gigabytes: told.first is its index */
#define GPT_RME_NOT_BLOCK (-14)
/* two regions share a granule: told has both indices */
#define GPT_RME_OVERLAP (-15)
/* told.first is how many tables are needed */
#define GPT_RME_NO_TABLES (-16)
/* the base isn't a multiple of 131,072, or the last table ends above 2^52 */
#define GPT_RME_BAD_BASE (-17)

struct gpt_rme_setup {
    uint64_t gigabytes; /* 4 or 64 (PPS) */
    uint64_t max;       /* largest contiguous size in MB: 0 none, 2, 32, 512 (RME_GPT_MAX_BLOCK) */
    uint64_t tables;    /* L1 tables that there is memory for, at most 16 */
    uint64_t base;      /* address of the first of them */
};

#define GPT_RME_KIND_BLOCK 0u
#define GPT_RME_KIND_GRANULE 1u

struct gpt_rme_region {
    uint64_t base; /* its first address */
    uint64_t size; /* its bytes */
    uint32_t kind; /* GPT_RME_KIND_*: by L0 blocks, or granule by granule through an L1 table */
    uint32_t gpi;  /* GPT_RME_GPI_* */
};

struct gpt_rme_told {
    uint64_t first;
    uint64_t second;
};

/*
 * Builds the canonical tables of regions: an L0 word for each gigabyte at the beginning of l0, and 16,384 words for
 * each L1 table that is needed, one table after another, at the beginning of l1. What the arrays have behind them
 * stays. A granule in no region is GPI any. DONE: told has the numbers of words of L0 and of L1. Else the first
 * of these is answered: BAD_DATA, -10 to -17 in their order, NO_ROOM; or NO_MEMORY instead. told is always
 * written, with 0 where nothing is said above.
 *
 * It takes memory by rattle_alloc, rattle_realloc and rattle_dealloc and gives all of it back; liblibc_c.a of
 * the toolchain has these three over malloc, realloc and free. Not to be called from a signal handler.
 */
int32_t gpt_rme_build(const struct gpt_rme_setup *setup, const struct gpt_rme_region *regions, size_t region_count,
                      uint64_t *l0, size_t l0_count, uint64_t *l1, size_t l1_count, struct gpt_rme_told *told);

#ifdef __cplusplus
}
#endif

/* ---- the layout that the archives have */

#ifdef __cplusplus
#define GPT_RME_ASSERT(what) static_assert(what, #what)
#else
#define GPT_RME_ASSERT(what) _Static_assert(what, #what)
#endif
#define GPT_RME_SIZE(type, size) GPT_RME_ASSERT(sizeof(struct type) == (size))
#define GPT_RME_AT(type, field, at) GPT_RME_ASSERT(offsetof(struct type, field) == (at))

GPT_RME_ASSERT(sizeof(size_t) == 8);
GPT_RME_SIZE(gpt_rme_l0, 16);
GPT_RME_AT(gpt_rme_l0, table, 0);
GPT_RME_AT(gpt_rme_l0, gpi, 4);
GPT_RME_AT(gpt_rme_l0, address, 8);
GPT_RME_SIZE(gpt_rme_l1, 16);
GPT_RME_AT(gpt_rme_l1, contig, 0);
GPT_RME_AT(gpt_rme_l1, gpi, 4);
GPT_RME_AT(gpt_rme_l1, fields, 8);
GPT_RME_SIZE(gpt_rme_space, 552);
GPT_RME_AT(gpt_rme_space, gigabytes, 0);
GPT_RME_AT(gpt_rme_space, lock_blocks, 8);
GPT_RME_AT(gpt_rme_space, tables, 16);
GPT_RME_AT(gpt_rme_space, base, 24);
GPT_RME_AT(gpt_rme_space, max, 32);
GPT_RME_AT(gpt_rme_space, cpus, 36);
GPT_RME_AT(gpt_rme_space, l0, 40);
GPT_RME_SIZE(gpt_rme_places, 64);
GPT_RME_AT(gpt_rme_places, lock, 0);
GPT_RME_AT(gpt_rme_places, mask, 8);
GPT_RME_AT(gpt_rme_places, word, 16);
GPT_RME_AT(gpt_rme_places, field, 24);
GPT_RME_AT(gpt_rme_places, line, 32);
GPT_RME_AT(gpt_rme_places, two, 40);
GPT_RME_AT(gpt_rme_places, thirty_two, 48);
GPT_RME_AT(gpt_rme_places, five_twelve, 56);
GPT_RME_SIZE(gpt_rme_setup, 32);
GPT_RME_AT(gpt_rme_setup, gigabytes, 0);
GPT_RME_AT(gpt_rme_setup, max, 8);
GPT_RME_AT(gpt_rme_setup, tables, 16);
GPT_RME_AT(gpt_rme_setup, base, 24);
GPT_RME_SIZE(gpt_rme_region, 24);
GPT_RME_AT(gpt_rme_region, base, 0);
GPT_RME_AT(gpt_rme_region, size, 8);
GPT_RME_AT(gpt_rme_region, kind, 16);
GPT_RME_AT(gpt_rme_region, gpi, 20);
GPT_RME_SIZE(gpt_rme_told, 16);
GPT_RME_AT(gpt_rme_told, first, 0);
GPT_RME_AT(gpt_rme_told, second, 8);

#endif
