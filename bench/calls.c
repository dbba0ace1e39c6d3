// calls ROUNDS: times each kind of call through the library and in plain C, and prints the nanoseconds of one call of each. The two
// take turns, and the best of the rounds counts. PADDING moves the code, so that several builds of this can be compared.

#define _POSIX_C_SOURCE 200809L

#include <float.h>
#include <stdio.h>
#include <stdlib.h>
#include <string.h>
#include <time.h>

#include "chiarumbeta.h"
#include "plain.h"

#ifdef PADDING
#define TEXT_OF(number) #number
#define TEXT(number) TEXT_OF(number)
__asm__(".text\n.skip " TEXT(PADDING) "\n");
#endif

enum { PAGES = 4096, PAGE = 4096, HELD = 15, CORE = 0 };

#define BASE UINT64_C(0x80000000)
#define FAR UINT64_C(0x40000000)

static struct chiarumbeta machine;

struct call {
    uint64_t x[8];
};

// What is timed: one call, or two in turn, the second of which undoes the first.
struct kind {
    const char *name;
    unsigned calls, times;
    struct call call[2];
};

static void fail(const char *what)
{
    fprintf(stderr, "calls: %s\n", what);
    exit(1);
}

// Makes a call on both sides, which have to tell the same, and it has to be granted.
static void make(const struct call *c)
{
    uint64_t told[CHIARUMBETA_TOLD], plain[CHIARUMBETA_TOLD];
    if (chiarumbeta_call(&machine, CORE, c->x, told) != 0 || plain_call(CORE, c->x, plain) != 0)
        fail("a call is no frame");
    if (memcmp(told, plain, sizeof plain) != 0)
        fail("the two answer differently");
    if (told[CHIARUMBETA_TOLD_REFUSED] != 0)
        fail("a call is refused");
}

static void set_up(void)
{
    static const uint8_t site[] = {0x11, 0, 0, 0, 0, 0x80, 0, 0, 0, 0x10, 0, 8}, normal[] = {0x12, 0, 0, 0x10, 0, 2};
    static const uint8_t entries[][5] = {
        {0x10, 0, 0, 1, 0}, {0x10, 2, 2, 1, 1}, {0x10, 4, 4, 1, 2}, {0x10, 48, 63, 1, 3}, {0x10, 50, 63, 0, 3}};
    plain_begin();
    chiarumbeta_fresh(&machine);
    unsigned refused = plain_set_up(site) | plain_set_up(normal);
    uint64_t ours = chiarumbeta_fix_site(&machine, BASE, PAGES, 8) |
                    chiarumbeta_name_pages(&machine, 0, PAGES, CHIARUMBETA_NORMAL);
    for (unsigned i = 0; i < sizeof entries / sizeof *entries; i++) {
        const uint8_t *e = entries[i];
        refused |= plain_set_up(e);
        ours |= chiarumbeta_enter_pairs(&machine, e[1], e[2], e[3], e[4]);
    }
    if (refused != 0 || ours != 0)
        fail("set-up is refused");
}

static struct call map(unsigned i)
{
    return (struct call){{CHIARUMBETA_CALL_MAP_PAGES, BASE + i * PAGE, FAR + i * 0x10000, PAGE, 1}};
}

static struct call unmap(unsigned i)
{
    return (struct call){{CHIARUMBETA_CALL_UNMAP_PAGES, FAR + i * 0x10000, PAGE}};
}

static double now(void)
{
    struct timespec t;
    clock_gettime(CLOCK_PROCESS_CPUTIME_ID, &t);
    return (double)t.tv_sec * 1e9 + (double)t.tv_nsec;
}

static double ours(const struct kind *k)
{
    uint64_t told[CHIARUMBETA_TOLD];
    double start = now();
    for (unsigned i = 0; i < k->times; i++)
        for (unsigned j = 0; j < k->calls; j++)
            chiarumbeta_call(&machine, CORE, k->call[j].x, told);
    return (now() - start) / k->times / k->calls;
}

static double plain(const struct kind *k)
{
    uint64_t told[CHIARUMBETA_TOLD];
    double start = now();
    for (unsigned i = 0; i < k->times; i++)
        for (unsigned j = 0; j < k->calls; j++)
            plain_call(CORE, k->call[j].x, told);
    return (now() - start) / k->times / k->calls;
}

static unsigned rounds;

static double smaller(double a, double b)
{
    return a < b ? a : b;
}

static void measure(struct kind k)
{
    double a = DBL_MAX, b = DBL_MAX;
    for (unsigned j = 0; j < k.calls; j++)
        make(&k.call[j]);
    for (unsigned i = 0; i < rounds; i++) {
        a = smaller(a, ours(&k));
        b = smaller(b, plain(&k));
    }
    printf("%s|%.1f|%.1f\n", k.name, a, b);
}

static void one(struct call c)
{
    make(&c);
}

// Each kind from a state in which its calls are granted.
static void measure_all(void)
{
    const struct call hand_over = {{0xF2000001, 1, 2, 3, 4, 5, 6, 7}}, finish = {{CHIARUMBETA_CALL_SECURE_FINISH, 1, 2, 3, 4}};
    enum { MANY = 100000, FEW = 1000 };
    measure((struct kind){"version", 1, MANY, {{{CHIARUMBETA_CALL_VERSION}}}});
    measure((struct kind){"owner question", 1, MANY, {{{CHIARUMBETA_CALL_OWNS_PAGE, BASE + 2000 * PAGE}}}});
    measure((struct kind){"map and unmap, 0 held", 2, MANY, {map(HELD), unmap(HELD)}});
    for (unsigned i = 0; i < HELD; i++)
        one(map(i));
    measure((struct kind){"map and unmap, 15 held", 2, MANY, {map(HELD), unmap(HELD)}});
    measure((struct kind){"where, the last of 15 held", 1, MANY, {{{CHIARUMBETA_CALL_WHERE_LEADS, FAR + (HELD - 1) * 0x10000 + 8}}}});
    for (unsigned i = 0; i < HELD; i++)
        one(unmap(i));
    one(hand_over);
    measure((struct kind){"transfer of 1 page", 2, MANY, {{{CHIARUMBETA_CALL_TAKE_PAGES, BASE + 100 * PAGE, 1}}, {{CHIARUMBETA_CALL_GIVE_PAGES, BASE + 100 * PAGE, 1}}}});
    one(finish);
    measure((struct kind){"hand-over and finish", 2, MANY, {hand_over, finish}});
    one(hand_over);
    measure((struct kind){"transfer of 4,096 pages", 2, FEW, {{{CHIARUMBETA_CALL_TAKE_PAGES, BASE, PAGES}}, {{CHIARUMBETA_CALL_GIVE_PAGES, BASE, PAGES}}}});
}

int main(int count, char **words)
{
    rounds = count > 1 ? (unsigned)atoi(words[1]) : 9;
    set_up();
    measure_all();
    return 0;
}
