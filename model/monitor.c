// The monitor of document 01 in plain C: frames on standard input, answers on standard output.

#include <errno.h>
#include <stdbool.h>
#include <stddef.h>
#include <stdint.h>
#include <string.h>
#include <unistd.h>

enum {
    PAGE = 4096,
    MOST_PAGES = 4096,
    MOST_CORES = 8,
    MOST_MAPPINGS = 16,
    ARGUMENTS = 8,  // x0 to x7
    START = 8,      // the place of the start address among the saved numbers
    NUMBERS = 9,    // saved numbers of one core and world
};

#define WINDOW_LIMIT (UINT64_C(1) << 48)
#define VIRTUAL_LIMIT (UINT64_C(1) << 32)

enum world { ROOT, SECURE, NORMAL, REALM, WORLDS, NO_WORLD = 0xff };
enum handler { ARCHITECTURE, BOARD, STANDARD, TRUSTED, HANDLERS, NOBODY = 0xff };
enum power { OFF, ON, PENDING };

// What a call leaves in x0 when it writes nothing there: the core went OFF or another world runs.
#define UNWRITTEN INT64_MIN

struct core {
    enum power power;
    enum world running;
    uint64_t address;  // kept from the start call until the arrival
    uint64_t context;
};

struct mapping {
    uint64_t virtual, physical, size, attributes;
};

// Window: 'base' is B, 'pages' is 0 until a frame 11 is accepted.
static uint64_t base, pages, cores;
static uint8_t owner[MOST_PAGES];
static struct mapping mappings[WORLDS][MOST_MAPPINGS];
static unsigned held[WORLDS];
static struct core core_table[MOST_CORES];
static uint64_t saved[MOST_CORES][WORLDS][NUMBERS];

// The ledger: the accepted entries, oldest first.
struct entry {
    uint8_t first, last, type, handler;
};
static struct entry ledger[128];
static unsigned entered;

// Set-up: it ends with the first accepted frame 20.
static bool calls_begun;
static bool named[MOST_PAGES];

// ---- pages ----

// Do 'count' pages from the aligned address 'start' lie in the window?
static bool pages_inside(uint64_t start, uint64_t count)
{
    if (start < base)
        return false;
    uint64_t first = (start - base) / PAGE;
    return first < pages && count <= pages - first;
}

static bool inside(uint64_t address)
{
    return address >= base && (address - base) / PAGE < pages;
}

static bool owns(enum world world, uint64_t address)
{
    return owner[(address - base) / PAGE] == world;
}

static bool owns_all(enum world world, uint64_t start, uint64_t count)
{
    const uint8_t *first = owner + (start - base) / PAGE;
    for (uint64_t i = 0; i < count; i++)
        if (first[i] != world)
            return false;
    return true;
}

// ---- mappings ----

static bool overlap(uint64_t a, uint64_t a_size, uint64_t b, uint64_t b_size)
{
    return a < b ? b - a < a_size : a - b < b_size;
}

// Does the first range hold the second one whole?
static bool around(uint64_t a, uint64_t a_size, uint64_t b, uint64_t b_size)
{
    return a <= b && b - a < a_size && b_size <= a_size - (b - a);
}

// Two mappings of a world may stand together when they have no address in common, or when one lies
// inside the other with virtual less physical equal in both, and their ranges differ.
static bool may_stand(const struct mapping *a, const struct mapping *b)
{
    if (!overlap(a->virtual, a->size, b->virtual, b->size) && !overlap(a->physical, a->size, b->physical, b->size))
        return true;
    if (a->virtual + b->physical != b->virtual + a->physical)  // sums below 2^49
        return false;
    if (a->virtual == b->virtual && a->size == b->size)
        return false;
    return around(a->virtual, a->size, b->virtual, b->size) || around(b->virtual, b->size, a->virtual, a->size);
}

static bool any_mapped(enum world world, uint64_t start, uint64_t size)
{
    for (unsigned i = 0; i < held[world]; i++)
        if (overlap(mappings[world][i].physical, mappings[world][i].size, start, size))
            return true;
    return false;
}

static int64_t map(enum world caller, uint64_t physical, uint64_t virtual, uint64_t size,
                   uint64_t attributes)
{
    if (size == 0)
        return 0;
    if ((physical | virtual | size) % PAGE != 0 || attributes > 2)
        return -22;
    if (!pages_inside(physical, size / PAGE))
        return -34;
    if (virtual > VIRTUAL_LIMIT || size > VIRTUAL_LIMIT - virtual)
        return -34;
    if (held[caller] == MOST_MAPPINGS)
        return -12;
    struct mapping wanted = {virtual, physical, size, attributes};
    for (unsigned i = 0; i < held[caller]; i++)
        if (!may_stand(&mappings[caller][i], &wanted))
            return -1;
    if (!owns_all(caller, physical, size / PAGE))
        return -13;
    mappings[caller][held[caller]++] = wanted;
    return 0;
}

static int64_t unmap(enum world caller, uint64_t virtual, uint64_t size)
{
    struct mapping *list = mappings[caller];
    for (unsigned i = 0; i < held[caller]; i++)
        if (list[i].virtual == virtual && list[i].size == size) {
            list[i] = list[--held[caller]];
            return 0;
        }
    return -22;
}

// Where a virtual address leads: the smallest mapping that holds it decides, and x1 and x2 are
// written on success only.
static int64_t where(enum world caller, uint64_t *x)
{
    const struct mapping *decider = NULL;
    for (unsigned i = 0; i < held[caller]; i++) {
        const struct mapping *m = &mappings[caller][i];
        if (x[1] >= m->virtual && x[1] - m->virtual < m->size && (decider == NULL || m->size < decider->size))
            decider = m;
    }
    if (decider == NULL)
        return -14;
    x[1] = decider->physical + (x[1] - decider->virtual);
    x[2] = decider->attributes;
    return 0;
}

// ---- transfers ----

static int64_t transfer(uint64_t start, uint64_t count, enum world from, enum world to)
{
    if (count == 0)
        return -5;
    if (start % PAGE != 0 || !pages_inside(start, count))
        return -2;
    if (!owns_all(from, start, count))
        return -3;
    if (any_mapped(from, start, count * PAGE))
        return -6;
    memset(owner + (start - base) / PAGE, to, count);
    return 0;
}

static int64_t ownership(enum world caller, uint64_t address)
{
    if (!inside(address))
        return -2;
    return owns(caller, address);
}

// ---- cores ----

static int64_t start_core(uint64_t target, uint64_t address, uint64_t context)
{
    if (target >= cores)
        return -2;
    if (address % 4 != 0 || !inside(address) || !owns(NORMAL, address))
        return -9;
    struct core *core = &core_table[target];
    if (core->power == ON)
        return -4;
    if (core->power == PENDING)
        return -5;
    core->power = PENDING;
    core->address = address;
    core->context = context;
    return 0;
}

static int64_t core_state(uint64_t target, uint64_t level)
{
    if (target >= cores || level != 0)
        return -2;
    switch (core_table[target].power) {
    case ON:
        return 0;
    case OFF:
        return 1;
    default:
        return 2;
    }
}

static int64_t cores_on(void)
{
    int64_t count = 0;
    for (uint64_t i = 0; i < cores; i++)
        count += core_table[i].power == ON;
    return count;
}

// The pending core begins in Normal; the numbers of its other worlds stay.
static void arrive(unsigned number)
{
    struct core *core = &core_table[number];
    uint64_t *x = saved[number][NORMAL];
    core->power = ON;
    core->running = NORMAL;
    memset(x, 0, ARGUMENTS * sizeof *x);
    x[0] = core->context;
    x[START] = core->address;
}

// ---- hand-over and finish ----

static int64_t hand_over(unsigned number, enum world to)
{
    memcpy(saved[number][to], saved[number][NORMAL], ARGUMENTS * sizeof(uint64_t));
    core_table[number].running = to;
    return UNWRITTEN;
}

// Realm returns five numbers, Secure four.
static int64_t finish(unsigned number)
{
    struct core *core = &core_table[number];
    unsigned returned = core->running == REALM ? 5 : 4;
    memcpy(saved[number][NORMAL], &saved[number][core->running][1], returned * sizeof(uint64_t));
    core->running = NORMAL;
    return UNWRITTEN;
}

// ---- handlers: the whole identifier, the caller's world, then the arguments ----

// Bit 16 of a fast identifier is a hint, which no comparison looks at.
static uint32_t unhinted(uint32_t id)
{
    return id >> 31 ? id & ~UINT32_C(0x10000) : id;
}

static int64_t architecture(uint32_t id, const uint64_t *x)
{
    switch (id) {
    case 0x80000000:
        return 0x10003;
    case 0x80000001:
        return unhinted((uint32_t)x[1]) == 0x80000000 || unhinted((uint32_t)x[1]) == 0x80000001 ? 0 : -1;
    default:
        return -1;
    }
}

static int64_t board(enum world caller, uint32_t id, uint64_t *x)
{
    switch (id) {
    case 0xc2000010:
        return caller == NORMAL ? -1 : transfer(x[1], x[2], NORMAL, caller);
    case 0xc2000011:
        return caller == NORMAL ? -1 : transfer(x[1], x[2], caller, NORMAL);
    case 0xc2000012:
        return ownership(caller, x[1]);
    case 0xc2000020:
        return map(caller, x[1], x[2], x[3], x[4]);
    case 0xc2000021:
        return unmap(caller, x[1], x[2]);
    case 0xc2000022:
        return where(caller, x);
    case 0xc2000030:
        return cores_on();
    default:
        return -1;
    }
}

// The core power calls, which Normal alone may make.
static int64_t core_power(unsigned number, uint32_t id, const uint64_t *x)
{
    switch (id) {
    case 0x84000000:
        return 0x10001;
    case 0x84000002:
        core_table[number].power = OFF;
        return UNWRITTEN;
    case 0x84000003:
        return start_core((uint32_t)x[1], (uint32_t)x[2], (uint32_t)x[3]);
    case 0xc4000003:
        return start_core(x[1], x[2], x[3]);
    case 0x84000004:
        return core_state((uint32_t)x[1], (uint32_t)x[2]);
    case 0xc4000004:
        return core_state(x[1], x[2]);
    case 0x8400000a:
        switch (unhinted((uint32_t)x[1])) {
        case 0x80000000:
        case 0x84000000:
        case 0x84000002:
        case 0x84000003:
        case 0xc4000003:
        case 0x84000004:
        case 0xc4000004:
        case 0x8400000a:
            return 0;
        default:
            return -1;
        }
    default:
        return -1;
    }
}

static int64_t standard(unsigned number, enum world caller, uint32_t id, const uint64_t *x)
{
    if (caller == NORMAL && id >= 0xc4000150 && id <= 0xc400018e)
        return hand_over(number, REALM);
    if (caller == NORMAL)
        return core_power(number, id, x);
    if (caller != REALM)
        return -1;
    switch (id) {
    case 0xc40001b0:
        return transfer(x[1], 1, NORMAL, REALM);
    case 0xc40001b1:
        return transfer(x[1], 1, REALM, NORMAL);
    case 0xc400018f:
        return finish(number);
    default:
        return -1;
    }
}

static int64_t trusted(unsigned number, enum world caller, uint32_t id)
{
    if (caller == NORMAL && id != 0xf2000000)
        return hand_over(number, SECURE);
    if (caller == SECURE && id == 0xf2000000)
        return finish(number);
    return -1;
}

// The handler that the ledger names; nobody where a fast call has a bit of 23 to 17 set.
static enum handler look_up(uint32_t id)
{
    bool fast = id >> 31;
    if (fast && (id & 0x00fe0000) != 0)
        return NOBODY;
    unsigned number = id >> 24 & 0x3f;
    for (unsigned i = 0; i < entered; i++)
        if (ledger[i].type == fast && ledger[i].first <= number && number <= ledger[i].last)
            return ledger[i].handler;
    return NOBODY;
}

// The call in the running world's registers is judged and done.
static void call(unsigned number)
{
    enum world caller = core_table[number].running;
    uint64_t *x = saved[number][caller];
    uint32_t id = unhinted((uint32_t)x[0]);
    int64_t result = -1;
    switch (look_up(id)) {
    case ARCHITECTURE:
        result = architecture(id, x);
        break;
    case BOARD:
        result = board(caller, id, x);
        break;
    case STANDARD:
        result = standard(number, caller, id, x);
        break;
    case TRUSTED:
        result = trusted(number, caller, id);
        break;
    default:
        break;
    }
    if (result == UNWRITTEN)
        return;
    bool short_refusal = result < 0 && (id >> 30 & 1) == 0;
    x[0] = short_refusal ? (uint32_t)result : (uint64_t)result;
}

// ---- answers ----

// Room for many answers, written out when it runs short and after each read.
static char output[1 << 16];
static size_t put;
enum { LONGEST_ANSWER = 71 };

static char digits_of[256][2];  // a byte as two digits

static void write_out(void)
{
    size_t at = 0;
    while (at < put) {
        ssize_t n = write(STDOUT_FILENO, output + at, put - at);
        if (n < 0 && errno == EINTR)
            continue;
        if (n < 0)
            _exit(1);
        at += (size_t)n;
    }
    put = 0;
}

static void put_byte(uint8_t byte)
{
    memcpy(output + put, digits_of[byte], 2);
    put += 2;
}

static void put_number(uint64_t number)
{
    for (int i = 0; i < 8; i++)
        memcpy(output + put + 2 * i, digits_of[number >> (56 - 8 * i) & 0xff], 2);
    put += 16;
}

static void put_status(uint8_t status)
{
    put_byte(0xa0);
    put_byte(status);
}

static void put_registers(unsigned number)
{
    const struct core *core = &core_table[number];
    const uint64_t *x = saved[number][core->running];  // a core goes OFF in Normal
    put_byte(0xa1);
    put_byte((uint8_t)number);
    put_byte(core->power == ON ? core->running : NO_WORLD);
    for (int i = 0; i < 4; i++)
        put_number(x[i]);
}

// ---- frames ----

enum {
    ACCEPTED = 0x00,
    NO_LINE = 0x71,
    NO_FRAME = 0x72,
    OUT_OF_PLACE = 0x73,
    OUT_OF_RANGE = 0x74,
    CLASH = 0x75,
};

enum { MOST_BYTES = 66, MOST_DIGITS = 2 * MOST_BYTES };

static unsigned short_at(const uint8_t *b)
{
    return (unsigned)b[0] << 8 | b[1];
}

static uint64_t number_at(const uint8_t *b)
{
    return (uint64_t)b[0] << 56 | (uint64_t)b[1] << 48 | (uint64_t)b[2] << 40 | (uint64_t)b[3] << 32 |
           (uint64_t)b[4] << 24 | (uint64_t)b[5] << 16 | (uint64_t)b[6] << 8 | b[7];
}

static uint8_t window_frame(const uint8_t *f)
{
    if (pages != 0)
        return OUT_OF_PLACE;
    uint64_t b = number_at(f + 1), p = short_at(f + 9), c = f[11];
    if (b % PAGE != 0 || p == 0 || p > MOST_PAGES || c == 0 || c > MOST_CORES)
        return OUT_OF_RANGE;
    if (b > WINDOW_LIMIT || p * PAGE > WINDOW_LIMIT - b)
        return OUT_OF_RANGE;
    base = b;
    pages = p;
    cores = c;
    return ACCEPTED;
}

static uint8_t ledger_frame(const uint8_t *f)
{
    if (pages == 0 || calls_begun)
        return OUT_OF_PLACE;
    unsigned first = f[1], last = f[2], type = f[3], handler = f[4];
    if (first > last || last > 63 || type > 1 || handler >= HANDLERS)
        return OUT_OF_RANGE;
    for (unsigned i = 0; i < entered; i++)
        if (ledger[i].type == type && ledger[i].first <= last && first <= ledger[i].last)
            return CLASH;
    ledger[entered++] = (struct entry){(uint8_t)first, (uint8_t)last, (uint8_t)type, (uint8_t)handler};
    return ACCEPTED;
}

static uint8_t owner_frame(const uint8_t *f)
{
    if (pages == 0 || calls_begun)
        return OUT_OF_PLACE;
    unsigned first = short_at(f + 1), count = short_at(f + 3), world = f[5];
    if (count == 0 || first + count > pages || world >= WORLDS)
        return OUT_OF_RANGE;
    for (unsigned i = first; i < first + count; i++)
        if (named[i])
            return CLASH;
    memset(named + first, true, count);
    memset(owner + first, (int)world, count);
    return ACCEPTED;
}

static uint8_t call_frame(const uint8_t *f)
{
    if (pages == 0)
        return OUT_OF_PLACE;
    unsigned number = f[1];
    if (number >= cores)
        return OUT_OF_RANGE;
    if (core_table[number].power != ON)
        return CLASH;
    calls_begun = true;
    uint64_t *x = saved[number][core_table[number].running];
    for (int i = 0; i < ARGUMENTS; i++)
        x[i] = number_at(f + 2 + 8 * i);
    call(number);
    return ACCEPTED;
}

static uint8_t arrival_frame(const uint8_t *f)
{
    if (pages == 0)
        return OUT_OF_PLACE;
    unsigned number = f[1];
    if (number >= cores)
        return OUT_OF_RANGE;
    if (core_table[number].power != PENDING)
        return CLASH;
    arrive(number);
    return ACCEPTED;
}

// One frame of 'length' bytes: what its first byte asks for, if its length is right.
static void answer_frame(const uint8_t *f, size_t length)
{
    uint8_t status = NO_FRAME;
    if (f[0] == 0x20 && length == 66) {
        status = call_frame(f);
        if (status == ACCEPTED) {
            put_registers(f[1]);
            return;
        }
    } else if (f[0] == 0x21 && length == 2)
        status = arrival_frame(f);
    else if (f[0] == 0x10 && length == 5)
        status = ledger_frame(f);
    else if (f[0] == 0x11 && length == 12)
        status = window_frame(f);
    else if (f[0] == 0x12 && length == 6)
        status = owner_frame(f);
    put_status(status);
}

// ---- lines ----

// A byte by its two digits as they lie in memory, with GOOD added; 0 where one is no digit.
static uint16_t byte_of[1 << 16];
enum { GOOD = 0x100 };

static bool decode(const uint8_t *line, size_t count, uint8_t *bytes)
{
    unsigned all = GOOD;
    for (size_t i = 0; i < count; i++) {
        uint16_t two;
        memcpy(&two, line + 2 * i, 2);
        all &= byte_of[two];
        bytes[i] = (uint8_t)byte_of[two];
    }
    return all != 0;
}

static void answer_line(const uint8_t *line, size_t length)
{
    uint8_t bytes[MOST_BYTES];
    if (put > sizeof output - LONGEST_ANSWER)
        write_out();
    if (length == 0 || length % 2 != 0 || length > MOST_DIGITS || !decode(line, length / 2, bytes))
        put_status(NO_LINE);
    else
        answer_frame(bytes, length / 2);
    output[put++] = '\n';
}

// Answers the whole lines of 'length' bytes; says where the unfinished one begins.
static size_t answer_lines(const uint8_t *input, size_t length)
{
    size_t at = 0;
    const uint8_t *end;
    while ((end = memchr(input + at, '\n', length - at)) != NULL) {
        answer_line(input + at, (size_t)(end - input) - at);
        at = (size_t)(end - input) + 1;
    }
    return at;
}

static size_t read_some(uint8_t *to, size_t room)
{
    for (;;) {
        ssize_t n = read(STDIN_FILENO, to, room);
        if (n >= 0)
            return (size_t)n;
        if (errno != EINTR)
            _exit(1);
    }
}

static void begin(void)
{
    static const char digit[] = "0123456789abcdef";
    for (unsigned i = 0; i < 256; i++) {
        uint16_t two;
        digits_of[i][0] = digit[i >> 4];
        digits_of[i][1] = digit[i & 15];
        memcpy(&two, digits_of[i], 2);
        byte_of[two] = (uint16_t)(GOOD | i);
    }
    entered = 0;
    for (unsigned i = 0; i < MOST_CORES; i++)
        core_table[i].running = NORMAL;
    core_table[0].power = ON;
}

int main(void)
{
    // An unfinished line waits at the front; one digit too many is enough to refuse it, so no
    // more than that is kept.
    static uint8_t input[MOST_DIGITS + 1 + (1 << 16)];
    size_t waiting = 0, n;
    begin();
    while ((n = read_some(input + waiting, 1 << 16)) > 0) {
        size_t length = waiting + n;
        size_t at = answer_lines(input, length);
        waiting = length - at;
        if (waiting > MOST_DIGITS + 1)
            waiting = MOST_DIGITS + 1;
        memmove(input, input + at, waiting);
        write_out();
    }
    if (waiting > 0)
        answer_line(input, waiting);
    write_out();
    return 0;
}
