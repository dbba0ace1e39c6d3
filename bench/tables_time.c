// tables_time [ROUNDS]: milliseconds of plain C for building the widest list, a million walks and vetting; the best round counts.
// gcc -O2 -o tables_time bench/tables_time.c bench/tables_plain.c

#define _POSIX_C_SOURCE 200809L

#include <float.h>
#include <stdio.h>
#include <stdlib.h>
#include <time.h>

#include "tables_plain.h"

enum { HELD = 16, PAGE = 4096, ENTRIES = 512, WIDEST = 44 * ENTRIES, SLOTS = 2048, ALL = (1 + 4 + SLOTS) * ENTRIES, WALKS = 1000000 };

#define BASE UINT64_C(0x80000000)
#define SLOT (UINT64_C(1) << 21)

static struct plain_mapping list[HELD];
static uint64_t numbers[WIDEST], all[ALL];
static uint8_t reached[ALL / ENTRIES];
static uint64_t asked[WALKS];

// Fifteen pairs of pages over a slot's start, and 3586 pages over nine slots: 44 tables.
static void widest_list(void)
{
    list[0] = (struct plain_mapping){SLOT * (3 * 512 + 256) - PAGE, BASE, 3586 * PAGE, 2};
    for (unsigned i = 1; i < HELD; i++)
        list[i] = (struct plain_mapping){SLOT * ((i - 1) / 4 * 512 + (i - 1) % 4 * 4 + 2) - PAGE, BASE + (3584 + 2 * i) * PAGE, 2 * PAGE, 1};
}

// The largest tables that the list allows: a table for every slot.
static void all_tables(void)
{
    for (uint64_t gib = 0; gib < 4; gib++)
        all[gib] = (1 + gib) * PAGE + 3;
    for (uint64_t slot = 0; slot < SLOTS; slot++)
        all[ENTRIES + slot] = (5 + slot) * PAGE + 3;
    for (uint64_t page = 0; page < SLOTS * ENTRIES; page++) {
        uint64_t physical, attributes;
        if (plain_walk(numbers, WIDEST, page * PAGE, &physical, &attributes))
            all[5 * ENTRIES + page] = physical + 0x403 + (attributes == 1 ? 0 : 0x80) + (attributes == 2 ? 0 : UINT64_C(1) << 54);
    }
}

// Every other address is of the large mapping, the others anywhere below 2^32.
static void addresses(void)
{
    uint64_t state = 1;
    for (unsigned i = 0; i < WALKS; i++) {
        state = state * UINT64_C(6364136223846793005) + 1442695040888963407;
        asked[i] = i % 2 == 0 ? state >> 32 : list[0].virtual + (state >> 32) % list[0].size;
    }
}

static double now(void)
{
    struct timespec t;
    clock_gettime(CLOCK_MONOTONIC, &t);
    return (double)t.tv_sec * 1e3 + (double)t.tv_nsec / 1e6;
}

// What is timed: each gives 0 where all is as it has to be.

static unsigned build(void)
{
    return plain_build(list, HELD, numbers, WIDEST) != WIDEST;
}

static unsigned walks(void)
{
    uint64_t physical, attributes;
    unsigned nowhere = 0;
    for (unsigned i = 0; i < WALKS; i++)
        nowhere += !plain_walk(numbers, WIDEST, asked[i], &physical, &attributes);
    return nowhere > WALKS / 2;
}

static unsigned vet_widest(void)
{
    uint64_t address;
    return plain_vet(list, HELD, numbers, WIDEST, reached, &address);
}

static unsigned vet_all(void)
{
    uint64_t address;
    return plain_vet(list, HELD, all, ALL, reached, &address);
}

int main(int count, char **words)
{
    static const struct {
        const char *name;
        unsigned (*done)(void);
    } kinds[] = {{"44 tables built", build}, {"1000000 walks", walks}, {"44 tables vetted", vet_widest}, {"2053 tables vetted", vet_all}};
    int rounds = count > 1 ? atoi(words[1]) : 10;
    widest_list();
    build();
    all_tables();
    addresses();
    for (unsigned i = 0; i < sizeof kinds / sizeof *kinds; i++) {
        double best = DBL_MAX;
        for (int round = 0; round < rounds; round++) {
            double from = now();
            if (kinds[i].done() != 0)
                return fprintf(stderr, "tables_time: %s: refused\n", kinds[i].name), 1;
            double took = now() - from;
            if (took < best)
                best = took;
        }
        printf("%-20s %9.4f ms\n", kinds[i].name, best);
    }
    return 0;
}
