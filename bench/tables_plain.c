// Page tables in plain C, to compare speed with: see tables_plain.h.

#include <string.h>

#include "tables_plain.h"

enum { PAGE = 4096, ENTRIES = 512, GIBS = 4, TABLE = 3, LEAF_PAGE = 3, LEAF_BLOCK = 1 };

#define SLOT (UINT64_C(1) << 21)
#define GIB (UINT64_C(1) << 30)
#define ADDRESS UINT64_C(0x0000fffffffff000)
#define USABLE (UINT64_C(1) << 10)
#define READ_ONLY (UINT64_C(1) << 7)
#define NO_EXECUTE (UINT64_C(1) << 54)

static const uint64_t span[] = {0, GIB, SLOT, PAGE};  // what an entry covers, by level

static bool holds(const struct plain_mapping *m, uint64_t virtual)
{
    return virtual - m->virtual < m->size;
}

static bool meets(const struct plain_mapping *m, uint64_t start, uint64_t size)
{
    return m->virtual < start + size && start < m->virtual + m->size;
}

// The smallest mapping that holds an address.
static const struct plain_mapping *decider(const struct plain_mapping *list, size_t held, uint64_t virtual)
{
    const struct plain_mapping *found = NULL;
    for (size_t i = 0; i < held; i++)
        if (holds(&list[i], virtual) && (found == NULL || list[i].size < found->size))
            found = &list[i];
    return found;
}

// ---- building ----

static bool touched(const struct plain_mapping *list, size_t held, uint64_t start, uint64_t size)
{
    for (size_t i = 0; i < held; i++)
        if (meets(&list[i], start, size))
            return true;
    return false;
}

// The mapping that decides throughout a slot, if its addresses let it be a block.
static const struct plain_mapping *block(const struct plain_mapping *list, size_t held, uint64_t slot)
{
    const struct plain_mapping *d = decider(list, held, slot);
    if (d == NULL || d->virtual + d->size < slot + SLOT || (d->physical + (slot - d->virtual)) % SLOT != 0)
        return NULL;
    for (size_t i = 0; i < held; i++)
        if (list[i].size < d->size && meets(&list[i], slot, SLOT))
            return NULL;
    return d;
}

static uint64_t leaf(const struct plain_mapping *m, uint64_t virtual, uint64_t kind)
{
    uint64_t entry = m->physical + (virtual - m->virtual) + kind + USABLE;
    if (m->attributes != 1)
        entry += READ_ONLY;
    if (m->attributes != 2)
        entry += NO_EXECUTE;
    return entry;
}

static size_t count_tables(const struct plain_mapping *list, size_t held)
{
    size_t tables = 1;
    for (uint64_t gib = 0; gib < GIBS * GIB; gib += GIB) {
        if (!touched(list, held, gib, GIB))
            continue;
        tables++;
        for (uint64_t slot = gib; slot < gib + GIB; slot += SLOT)
            if (touched(list, held, slot, SLOT) && block(list, held, slot) == NULL)
                tables++;
    }
    return tables;
}

static void build_pages(const struct plain_mapping *list, size_t held, uint64_t slot, uint64_t *table)
{
    for (size_t i = 0; i < ENTRIES; i++) {
        const struct plain_mapping *d = decider(list, held, slot + i * PAGE);
        table[i] = d == NULL ? 0 : leaf(d, slot + i * PAGE, LEAF_PAGE);
    }
}

size_t plain_build(const struct plain_mapping *list, size_t held, uint64_t *numbers, size_t lent)
{
    size_t tables = 1;
    if (count_tables(list, held) * ENTRIES > lent)
        return 0;
    memset(numbers, 0, ENTRIES * sizeof *numbers);
    for (uint64_t gib = 0; gib < GIBS * GIB; gib += GIB) {
        if (!touched(list, held, gib, GIB))
            continue;
        uint64_t *second = numbers + tables * ENTRIES;
        numbers[gib / GIB] = tables++ * PAGE + TABLE;
        memset(second, 0, ENTRIES * sizeof *second);
        for (size_t i = 0; i < ENTRIES; i++) {
            uint64_t slot = gib + i * SLOT;
            if (!touched(list, held, slot, SLOT))
                continue;
            const struct plain_mapping *d = block(list, held, slot);
            if (d != NULL) {
                second[i] = leaf(d, slot, LEAF_BLOCK);
                continue;
            }
            build_pages(list, held, slot, numbers + tables * ENTRIES);
            second[i] = tables++ * PAGE + TABLE;
        }
    }
    return tables * ENTRIES;
}

// ---- walking ----

static bool reserved(uint64_t entry, unsigned level)
{
    uint64_t known = level == 3 ? ADDRESS + LEAF_PAGE : ADDRESS - (SLOT - PAGE) + LEAF_BLOCK;
    if (level == 1 || (level == 3 && (entry & 3) != LEAF_PAGE))
        return true;
    return (entry & USABLE) == 0 || (entry & ~(known + USABLE + READ_ONLY + NO_EXECUTE)) != 0;
}

static uint64_t attributes_of(uint64_t entry)
{
    return ((entry & READ_ONLY) == 0) + 2 * ((entry & NO_EXECUTE) == 0);
}

bool plain_walk(const uint64_t *numbers, size_t lent, uint64_t virtual, uint64_t *physical, uint64_t *attributes)
{
    size_t table = 0;
    if (virtual >= GIBS * GIB)
        return false;
    for (unsigned level = 1; level <= 3; level++) {
        size_t at = table + virtual / span[level] % ENTRIES;
        if (at >= lent || (numbers[at] & 1) == 0)
            return false;
        uint64_t entry = numbers[at];
        if (level < 3 && (entry & 3) == TABLE) {
            if ((entry & ~(ADDRESS + TABLE)) != 0)
                return false;
            table = (entry & ADDRESS) / sizeof *numbers;
            continue;
        }
        if (reserved(entry, level))
            return false;
        *physical = (entry & ADDRESS) + virtual % span[level];
        *attributes = attributes_of(entry);
        return true;
    }
    return false;
}

// ---- vetting ----

struct vetting {
    const struct plain_mapping *list;
    size_t held;
    const uint64_t *numbers;
    size_t lent;
    uint8_t *reached;
    uint64_t address;
};

// Every page that an entry covers, which leads to 'physical' on, or nowhere where the entry is clear.
static unsigned vet_pages(struct vetting *v, uint64_t entry, unsigned level, uint64_t first)
{
    for (uint64_t at = 0; at < span[level]; at += PAGE) {
        const struct plain_mapping *d = decider(v->list, v->held, first + at);
        bool same = (entry & 1) == 0 ? d == NULL
                                     : d != NULL && (entry & ADDRESS) + at == d->physical + (first + at - d->virtual) &&
                                           attributes_of(entry) == d->attributes;
        if (!same) {
            v->address = first + at;
            return 0x8d;
        }
    }
    return 0;
}

static unsigned vet_table(struct vetting *v, size_t table, unsigned level, uint64_t first)
{
    for (size_t i = 0; i < (level == 1 ? GIBS : ENTRIES); i++) {
        uint64_t entry = v->numbers[table * ENTRIES + i], start = first + i * span[level];
        unsigned status;
        v->address = start;
        if ((entry & 1) != 0 && level < 3 && (entry & 3) == TABLE) {
            size_t below = (entry & ADDRESS) / PAGE;
            if ((below + 1) * ENTRIES > v->lent)
                return 0x8a;
            if ((entry & ~(ADDRESS + TABLE)) != 0)
                return 0x8b;
            if (v->reached[below])
                return 0x8c;
            v->reached[below] = 1;
            status = vet_table(v, below, level + 1, start);
        } else {
            if ((entry & 1) != 0 && reserved(entry, level))
                return 0x8b;
            status = vet_pages(v, entry, level, start);
        }
        if (status != 0)
            return status;
    }
    return 0;
}

unsigned plain_vet(const struct plain_mapping *list, size_t held, const uint64_t *numbers, size_t lent, uint8_t *reached, uint64_t *address)
{
    struct vetting v = {list, held, numbers, lent, reached, 0};
    unsigned status = 0x8a;
    if (lent >= ENTRIES) {
        memset(reached, 0, lent / ENTRIES);
        reached[0] = 1;
        status = vet_table(&v, 0, 1, 0);
    }
    *address = status == 0 ? 0 : v.address;
    return status;
}
