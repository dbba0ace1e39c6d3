// A board over the monitor: document 01's example, then a hand-over to Secure, which takes pages, maps them and gives them back, and
// a core that starts, arrives and goes OFF; each with its refusals. `run` compares what it prints with board.out.

#include <inttypes.h>
#include <stdio.h>

#include "chiarumbeta.h"

enum { CORES = 2, PAGES = 16, PAGE = 4096 };

#define BASE UINT64_C(0x80000000)

static struct chiarumbeta machine;

static const char *world(uint64_t number)
{
    switch (number) {
    case CHIARUMBETA_SECURE:
        return "Secure";
    case CHIARUMBETA_NORMAL:
        return "Normal";
    case CHIARUMBETA_REALM:
        return "Realm";
    case CHIARUMBETA_NO_WORLD:
        return "nobody";
    default:
        return "Root";
    }
}

static void say_status(const char *what, uint64_t status)
{
    printf("%s: %02" PRIx64 "\n", what, status);
}

// A call on a core, and what is told of it: who runs, x0 to x3, who called, and a refusal.
static void call(const char *what, uint64_t core, uint64_t x0, uint64_t x1, uint64_t x2, uint64_t x3, uint64_t x4)
{
    const uint64_t x[8] = {x0, x1, x2, x3, x4};
    uint64_t told[CHIARUMBETA_TOLD];
    uint64_t status = chiarumbeta_call(&machine, core, x, told);
    if (status != CHIARUMBETA_ACCEPTED) {
        say_status(what, status);
        return;
    }
    printf("%s: %s runs, x0 to x3 are %" PRIx64 " %" PRIx64 " %" PRIx64 " %" PRIx64 "; %s called", what,
           world(told[CHIARUMBETA_TOLD_WORLD]), told[CHIARUMBETA_TOLD_X0], told[CHIARUMBETA_TOLD_X1],
           told[CHIARUMBETA_TOLD_X2], told[CHIARUMBETA_TOLD_X3], world(told[CHIARUMBETA_TOLD_CALLER]));
    if (told[CHIARUMBETA_TOLD_REFUSED] != 0)
        printf(" and is refused with -%" PRIu64, told[CHIARUMBETA_TOLD_REFUSED]);
    printf("\n");
}

static void say_owners(uint64_t first, uint64_t last)
{
    for (uint64_t page = first; page <= last; page++)
        printf("page %" PRIu64 " is %s's\n", page, world(chiarumbeta_owner(&machine, page)));
}

static void say_lead(uint64_t who, uint64_t address)
{
    uint64_t leading[CHIARUMBETA_LEADING];
    printf("%s at %" PRIx64 ": ", world(who), address);
    if (chiarumbeta_where(&machine, who, address, leading) == CHIARUMBETA_NOWHERE)
        printf("nowhere\n");
    else
        printf("%" PRIx64 ", attributes %" PRIu64 "\n", leading[CHIARUMBETA_LEADING_PHYS], leading[CHIARUMBETA_LEADING_ATTR]);
}

static void enter(const char *what, uint64_t lowest, uint64_t last, uint64_t handler)
{
    say_status(what, chiarumbeta_enter_pairs(&machine, lowest, last, CHIARUMBETA_FAST, handler));
}

static void name(const char *what, uint64_t lowest, uint64_t count, uint64_t to)
{
    say_status(what, chiarumbeta_name_pages(&machine, lowest, count, to));
}

static void set_up(void)
{
    chiarumbeta_fresh(&machine);
    name("pages before there is a window", 0, 8, CHIARUMBETA_NORMAL);
    say_status("a window of no pages", chiarumbeta_fix_site(&machine, BASE, 0, CORES));
    say_status("the window", chiarumbeta_fix_site(&machine, BASE, PAGES, CORES));
    say_status("another window", chiarumbeta_fix_site(&machine, BASE, PAGES, CORES));
    name("pages 0 to 7", 0, 8, CHIARUMBETA_NORMAL);
    name("pages 7 and 8", 7, 2, CHIARUMBETA_REALM);
    name("pages 15 and 16", 15, 2, CHIARUMBETA_REALM);
    enter("owner 4", 4, 4, CHIARUMBETA_STANDARD);
    enter("owner 2", 2, 2, CHIARUMBETA_BOARD);
    enter("owner 50", 50, 50, CHIARUMBETA_TRUSTED);
    enter("owners 0 to 4", 0, 4, CHIARUMBETA_ARCHITECTURE);
}

// The example's call, and what its acceptance closes.
static void example(void)
{
    call("a call on a core that is OFF", 1, CHIARUMBETA_CALL_POWER_VERSION, 1, 2, 3, 0);
    call("a call on no core", 2, CHIARUMBETA_CALL_POWER_VERSION, 1, 2, 3, 0);
    call("power version", 0, CHIARUMBETA_CALL_POWER_VERSION, 1, 2, 3, 0);
    call("version, which nobody serves", 0, CHIARUMBETA_CALL_VERSION, 1, 2, 3, 0);
    name("pages when set-up has ended", 8, 1, CHIARUMBETA_REALM);
}

static void transfers(void)
{
    call("Secure takes pages 2 and 3", 0, CHIARUMBETA_CALL_TAKE_PAGES, BASE + 2 * PAGE, 2, 0, 0);
    say_owners(1, 4);
    call("pages 3 and 4, one of them Secure's", 0, CHIARUMBETA_CALL_TAKE_PAGES, BASE + 3 * PAGE, 2, 0, 0);
    call("no page", 0, CHIARUMBETA_CALL_TAKE_PAGES, BASE, 0, 0, 0);
    call("a page past the window", 0, CHIARUMBETA_CALL_TAKE_PAGES, BASE + PAGES * PAGE, 1, 0, 0);
}

static void mappings(void)
{
    call("map both at 1000", 0, CHIARUMBETA_CALL_MAP_PAGES, BASE + 2 * PAGE, 0x1000, 2 * PAGE, 1);
    say_lead(CHIARUMBETA_SECURE, 0x2234);
    say_lead(CHIARUMBETA_SECURE, 0x3000);
    say_lead(CHIARUMBETA_NORMAL, 0x2234);
    call("map one of them again", 0, CHIARUMBETA_CALL_MAP_PAGES, BASE + 2 * PAGE, 0x8000, PAGE, 0);
    call("map a page of Normal's", 0, CHIARUMBETA_CALL_MAP_PAGES, BASE, 0x8000, PAGE, 0);
    call("map with attributes 3", 0, CHIARUMBETA_CALL_MAP_PAGES, BASE, 0x8000, PAGE, 3);
    call("map past the window", 0, CHIARUMBETA_CALL_MAP_PAGES, BASE + PAGES * PAGE, 0x8000, PAGE, 0);
    call("give them back while mapped", 0, CHIARUMBETA_CALL_GIVE_PAGES, BASE + 2 * PAGE, 2, 0, 0);
    call("unmap half", 0, CHIARUMBETA_CALL_UNMAP_PAGES, 0x1000, PAGE, 0, 0);
    call("unmap", 0, CHIARUMBETA_CALL_UNMAP_PAGES, 0x1000, 2 * PAGE, 0, 0);
    call("give them back", 0, CHIARUMBETA_CALL_GIVE_PAGES, BASE + 2 * PAGE, 2, 0, 0);
    say_owners(2, 3);
}

static void hand_over(void)
{
    call("a finish by Normal", 0, CHIARUMBETA_CALL_SECURE_FINISH, 5, 6, 7, 8);
    call("hand-over to Secure", 0, 0xF2000001, 5, 6, 7, 8);
    transfers();
    mappings();
    call("finish", 0, CHIARUMBETA_CALL_SECURE_FINISH, 0xa, 0xb, 0xc, 0xd);
}

static void power(void)
{
    call("start core 1 at a page of Root's", 0, CHIARUMBETA_CALL_CORE_START_WIDE, 1, BASE + 8 * PAGE, 0x77, 0);
    say_status("core 1 arrives, not started", chiarumbeta_arrive(&machine, 1));
    call("start core 1", 0, CHIARUMBETA_CALL_CORE_START_WIDE, 1, BASE + PAGE, 0x77, 0);
    say_status("core 1 arrives", chiarumbeta_arrive(&machine, 1));
    printf("its x0 is %" PRIx64 ", its start address %" PRIx64 "\n", chiarumbeta_number(&machine, 1, CHIARUMBETA_NORMAL, 0),
           chiarumbeta_number(&machine, 1, CHIARUMBETA_NORMAL, 8));
    call("cores that are ON", 1, CHIARUMBETA_CALL_COUNT_ON, 1, 2, 3, 0);
    call("core 1 goes OFF", 1, CHIARUMBETA_CALL_CORE_OFF, 1, 2, 3, 0);
    call("a call on it", 1, CHIARUMBETA_CALL_COUNT_ON, 1, 2, 3, 0);
}

int main(void)
{
    set_up();
    example();
    hand_over();
    power();
    return 0;
}
