// The monitor for firmware in C: link crates/firmware/out/libfirmware.a, which `rt lib` makes in crates/firmware.
//
// The board lends every table, so there is no allocation and no global. A struct chiarumbeta is one machine; what holds of it is
// in docs/RULES.md, whose sentences stand in quotation marks above the functions, and what is proved of it, and what this header
// leaves to its caller, in docs/GUARANTEES.md. In short: one call at a time on one machine, every array as long as it is declared,
// and no two of them over each other.
//
// `include/check` holds this file against the Rattle source.

#ifndef CHIARUMBETA_H
#define CHIARUMBETA_H

#include <stddef.h>
#include <stdint.h>

#ifdef __cplusplus
extern "C" {
#endif

// ---- numbers of the paper

// The worlds, which are the owners of pages too; and what is told where a core is not ON.
enum chiarumbeta_world {
    CHIARUMBETA_ROOT = 0,
    CHIARUMBETA_SECURE = 1,
    CHIARUMBETA_NORMAL = 2,
    CHIARUMBETA_REALM = 3,
    CHIARUMBETA_NO_WORLD = 255,
};

// The statuses of set-up steps, calls and arrivals. What stands here as a line that cannot be read, and as a frame that nobody
// knows, only chiarumbeta_feed answers.
enum chiarumbeta_status {
    CHIARUMBETA_ACCEPTED = 0x00,
    CHIARUMBETA_NO_HEX = 0x71,
    CHIARUMBETA_UNKNOWN = 0x72,
    CHIARUMBETA_MISPLACED = 0x73,
    CHIARUMBETA_OUT_OF_RANGE = 0x74,
    CHIARUMBETA_CLASH = 0x75,
};

// Why a call is refused: n, where x0 is -n.
enum chiarumbeta_refusal {
    CHIARUMBETA_UNSERVED = 1,
    CHIARUMBETA_INVALID = 2,
    CHIARUMBETA_WRONG_OWNER = 3,
    CHIARUMBETA_ALREADY_ON = 4,
    CHIARUMBETA_ALREADY_PENDING = 5,
    CHIARUMBETA_NO_PAGES = 5,
    CHIARUMBETA_MAPPED = 6,
    CHIARUMBETA_BAD_ADDRESS = 9,
    CHIARUMBETA_FULL = 12,
    CHIARUMBETA_OVERLAP = 1,
    CHIARUMBETA_NOT_OWNED = 13,
    CHIARUMBETA_NOWHERE = 14,
    CHIARUMBETA_MALFORMED = 22,
    CHIARUMBETA_NO_MAPPING = 22,
    CHIARUMBETA_BEYOND = 34,
};

// The types and handlers of a ledger entry.
enum chiarumbeta_kind { CHIARUMBETA_YIELDING = 0, CHIARUMBETA_FAST = 1 };

enum chiarumbeta_handler {
    CHIARUMBETA_ARCHITECTURE = 0,
    CHIARUMBETA_BOARD = 1,
    CHIARUMBETA_STANDARD = 2,
    CHIARUMBETA_TRUSTED = 3,
};

// The calls, by their identifiers, which stand in the low half of x0.
#define CHIARUMBETA_CALL_VERSION UINT32_C(0x80000000)
#define CHIARUMBETA_CALL_FEATURES UINT32_C(0x80000001)
#define CHIARUMBETA_CALL_POWER_VERSION UINT32_C(0x84000000)
#define CHIARUMBETA_CALL_CORE_OFF UINT32_C(0x84000002)
#define CHIARUMBETA_CALL_CORE_START UINT32_C(0x84000003)
#define CHIARUMBETA_CALL_CORE_START_WIDE UINT32_C(0xC4000003)
#define CHIARUMBETA_CALL_CORE_STATE UINT32_C(0x84000004)
#define CHIARUMBETA_CALL_CORE_STATE_WIDE UINT32_C(0xC4000004)
#define CHIARUMBETA_CALL_POWER_FEATURES UINT32_C(0x8400000A)
#define CHIARUMBETA_CALL_GRANULE_TO_REALM UINT32_C(0xC40001B0)
#define CHIARUMBETA_CALL_GRANULE_TO_NORMAL UINT32_C(0xC40001B1)
#define CHIARUMBETA_CALL_REALM_FIRST UINT32_C(0xC4000150)
#define CHIARUMBETA_CALL_REALM_LAST UINT32_C(0xC400018E)
#define CHIARUMBETA_CALL_REALM_FINISH UINT32_C(0xC400018F)
#define CHIARUMBETA_CALL_TAKE_PAGES UINT32_C(0xC2000010)
#define CHIARUMBETA_CALL_GIVE_PAGES UINT32_C(0xC2000011)
#define CHIARUMBETA_CALL_OWNS_PAGE UINT32_C(0xC2000012)
#define CHIARUMBETA_CALL_MAP_PAGES UINT32_C(0xC2000020)
#define CHIARUMBETA_CALL_UNMAP_PAGES UINT32_C(0xC2000021)
#define CHIARUMBETA_CALL_WHERE_LEADS UINT32_C(0xC2000022)
#define CHIARUMBETA_CALL_COUNT_ON UINT32_C(0xC2000030)
#define CHIARUMBETA_CALL_SECURE_FINISH UINT32_C(0xF2000000)

// ---- the machine, and what is told of it

// The tables of one machine. Their layout is the library's: read and write them through the functions alone.
struct chiarumbeta {
    uint64_t setup[5];
    uint64_t owners[256];
    uint64_t saved[288];
    uint64_t powers[24];
    uint64_t turns[8];
    uint64_t lists[260];
    uint16_t book[128];
    uint8_t named[4096];
};

// What is told of an accepted call: the world that then runs, or CHIARUMBETA_NO_WORLD where the core went OFF; x0 to x3 of that
// world, Normal's where the core went OFF; the world that called; and n where the call was refused with -n, else 0. Where the first
// and the caller differ, the call was a hand-over, a finish or OFF, which write no answer.
enum chiarumbeta_told {
    CHIARUMBETA_TOLD_WORLD,
    CHIARUMBETA_TOLD_X0,
    CHIARUMBETA_TOLD_X1,
    CHIARUMBETA_TOLD_X2,
    CHIARUMBETA_TOLD_X3,
    CHIARUMBETA_TOLD_CALLER,
    CHIARUMBETA_TOLD_REFUSED,
    CHIARUMBETA_TOLD,
};

// Where an address leads.
enum chiarumbeta_leading { CHIARUMBETA_LEADING_PHYS, CHIARUMBETA_LEADING_ATTR, CHIARUMBETA_LEADING };

// How far a chunk was read, and how much was printed.
enum chiarumbeta_counts { CHIARUMBETA_COUNTS_USED, CHIARUMBETA_COUNTS_PUT, CHIARUMBETA_COUNTS };

// ---- the functions of the archive, with each table lent by itself; those below pass them

void chiarumbeta_lent_fresh(uint64_t setup[5], uint8_t named[4096], uint16_t book[128], uint64_t owners[256],
                            uint64_t saved[288], uint64_t powers[24], uint64_t turns[8], uint64_t lists[260]);
uint64_t chiarumbeta_lent_fix_site(uint64_t setup[5], uint64_t owners[256], uint64_t base, uint64_t pages, uint64_t cores);
uint64_t chiarumbeta_lent_enter_pairs(const uint64_t setup[5], uint16_t book[128], uint64_t lowest, uint64_t last,
                                      uint64_t kind, uint64_t handler);
uint64_t chiarumbeta_lent_name_pages(const uint64_t setup[5], uint64_t owners[256], uint8_t named[4096],
                                     uint64_t lowest, uint64_t count, uint64_t to);
uint64_t chiarumbeta_lent_call(uint64_t setup[5], uint64_t core, const uint64_t x[8], uint64_t told[7],
                               const uint16_t book[128], uint64_t owners[256], uint64_t saved[288], uint64_t powers[24],
                               uint64_t turns[8], uint64_t lists[260]);
uint64_t chiarumbeta_lent_arrive(const uint64_t setup[5], uint64_t core, uint64_t saved[288], uint64_t powers[24],
                                 uint64_t turns[8]);
uint64_t chiarumbeta_lent_where(const uint64_t lists[260], uint64_t world, uint64_t address, uint64_t leading[2]);
uint64_t chiarumbeta_lent_owner(const uint64_t owners[256], uint64_t page);
uint64_t chiarumbeta_lent_number(const uint64_t saved[288], uint64_t core, uint64_t world, uint64_t i);
void chiarumbeta_lent_feed(const uint8_t *chunk, size_t chunk_length, uint8_t *out, size_t out_length, size_t counts[2],
                           uint64_t setup[5], uint8_t named[4096], uint16_t book[128], uint64_t owners[256],
                           uint64_t saved[288], uint64_t powers[24], uint64_t turns[8], uint64_t lists[260]);

// ---- what a board does

// Every table as it is before the first step: call it once, before anything else.
// "Core 0 begins ON, the others OFF; every core begins in Normal."
static inline void chiarumbeta_fresh(struct chiarumbeta *m)
{
    chiarumbeta_lent_fresh(m->setup, m->named, m->book, m->owners, m->saved, m->powers, m->turns, m->lists);
}

// Set-up, the first step.
// "fixes the window, in which every page is Root's, and the core count; once, before all others"
static inline uint64_t chiarumbeta_fix_site(struct chiarumbeta *m, uint64_t base, uint64_t pages, uint64_t cores)
{
    return chiarumbeta_lent_fix_site(m->setup, m->owners, base, pages, cores);
}

// Set-up: an entry of the ledger, for the owner numbers lowest to last.
// "It is refused when a number is out of its range, and then when any pair of type and owner in it has a handler already; a refused
// entry leaves even the free pairs of its range."
static inline uint64_t chiarumbeta_enter_pairs(struct chiarumbeta *m, uint64_t lowest, uint64_t last, uint64_t kind,
                                               uint64_t handler)
{
    return chiarumbeta_lent_enter_pairs(m->setup, m->book, lowest, last, kind, handler);
}

// Set-up: the count pages from page lowest on, by their number in the window.
// "names a run of pages and gives it to its owner"
static inline uint64_t chiarumbeta_name_pages(struct chiarumbeta *m, uint64_t lowest, uint64_t count, uint64_t to)
{
    return chiarumbeta_lent_name_pages(m->setup, m->owners, m->named, lowest, count, to);
}

// A call on a core. Where the status is not 0, nothing has changed, and nothing is told.
// "The world that runs on a core calls with eight numbers, which are first saved as its x0 to x7."
// "The first 20 that is accepted closes set-up, whatever its call is answered."
static inline uint64_t chiarumbeta_call(struct chiarumbeta *m, uint64_t core, const uint64_t x[8],
                                        uint64_t told[CHIARUMBETA_TOLD])
{
    return chiarumbeta_lent_call(m->setup, core, x, told, m->book, m->owners, m->saved, m->powers, m->turns, m->lists);
}

// A core that a call has started is there.
// "A pending core arrives: it is ON in Normal, its x0 is the context, x1 to x7 are zero, its start address is the one that the start
// call named."
static inline uint64_t chiarumbeta_arrive(struct chiarumbeta *m, uint64_t core)
{
    return chiarumbeta_lent_arrive(m->setup, core, m->saved, m->powers, m->turns);
}

// Where an address leads in a world's mappings: 0, and the physical address and the attributes; else CHIARUMBETA_NOWHERE, and
// leading stays. What C2000022 answers a caller, without a call.
// "where x1 leads: x0 is 0, x1 the physical address, x2 the attributes; nowhere: -14"
static inline uint64_t chiarumbeta_where(const struct chiarumbeta *m, uint64_t world, uint64_t address,
                                         uint64_t leading[CHIARUMBETA_LEADING])
{
    return chiarumbeta_lent_where(m->lists, world, address, leading);
}

// The owner of a page, by its number in the window; past the window Root.
// "Each page has one owner; before set-up names it, that is Root."
static inline uint64_t chiarumbeta_owner(const struct chiarumbeta *m, uint64_t page)
{
    return chiarumbeta_lent_owner(m->owners, page);
}

// Number i of those that are saved for a core and world: x0 to x7 and, as number 8, the start address; else 0.
// "For each core and world nine 64-bit numbers are saved: x0 to x7 and a start address, all zero at first."
static inline uint64_t chiarumbeta_number(const struct chiarumbeta *m, uint64_t core, uint64_t world, uint64_t i)
{
    return chiarumbeta_lent_number(m->saved, core, world, i);
}

// The bytes of a run, for tests: complete lines of frames are answered, as far as out has room for the longest answer, 71 bytes.
// "Input is lines of bytes that a newline ends; the last may lack it." A line without its newline is left for the next chunk.
static inline void chiarumbeta_feed(struct chiarumbeta *m, const uint8_t *chunk, size_t chunk_length, uint8_t *out,
                                    size_t out_length, size_t counts[CHIARUMBETA_COUNTS])
{
    chiarumbeta_lent_feed(chunk, chunk_length, out, out_length, counts, m->setup, m->named, m->book, m->owners, m->saved,
                          m->powers, m->turns, m->lists);
}

#ifdef __cplusplus
}
#endif

#endif
