// Asks the MMU where addresses lead by the tables at physical 0, in the regime of EL1 and EL0. Where the list has a home page it jumps
// there too, and asks and jumps in the regime of EL3.

#include <stdint.h>

// What was loaded beside the program.
struct question {
    uint64_t count, home, window, pages;  // home is 0 where the list has no home page
    uint64_t address[];
};

struct answer {
    uint64_t read1, write1, read0, jump1, jump0;  // as EL1 and EL0 do it
    uint64_t el3[3];                              // EL3 reads, writes and jumps
};

#define QUESTION ((const struct question *)0x42000000)
#define ANSWERS ((struct answer *)0x44000000)

enum { PAGE = 4096, MEMORY_NORMAL = 0xff, TRANSLATE = 1, AT_EL1 = 0x3c5, AT_EL0 = 0x3c0 };

// 32-bit virtual addresses, pages of 4 KiB, 48-bit physical addresses; the fields differ in place by regime.
#define CONTROL_1 (32 | UINT64_C(5) << 32 | 1 << 23)
#define CONTROL_3 (32 | 5 << 16)
#define SECURE_64 (1 << 10 | 0x30)  // what runs below EL3 is Secure, with 64-bit registers

// The home page, which runs from where the list has it.
extern uint32_t home[], home_end[];
void at_el3(uint64_t address, uint64_t told[3], uint64_t jump);
uint64_t jump_lower(uint64_t address, uint64_t state);
#define AT_HOME(function) ((__typeof__(&function))(QUESTION->home + ((uint64_t)function - (uint64_t)home)))

#define WRITE(name, value) __asm__ volatile("msr " #name ", %0\n isb" ::"r"((uint64_t)(value)) : "memory")
#define ASK(how, address, told) \
    __asm__ volatile("at " #how ", %1\n isb\n mrs %0, par_el1" : "=r"(told) : "r"(address) : "memory")

static uint64_t semihosting(uint64_t operation, const void *block)
{
    register uint64_t x0 __asm__("x0") = operation;
    register const void *x1 __asm__("x1") = block;
    __asm__ volatile("hlt #0xf000" : "+r"(x0) : "r"(x1) : "memory");
    return x0;
}

static void write_file(const char *name, uint64_t length, const void *from, uint64_t size)
{
    uint64_t open[] = {(uint64_t)name, 5, length};  // mode 5 is "wb"
    uint64_t file = semihosting(1, open);
    uint64_t write[] = {file, (uint64_t)from, size};
    semihosting(5, write);
    uint64_t close[] = {file};
    semihosting(2, close);
    uint64_t leave[] = {0x20026, 0};
    semihosting(0x18, leave);
}

// Each page of the window says its number in x12 when it is jumped to, and the home page has its code.
static void fill_window(void)
{
    for (uint64_t page = 0; page < QUESTION->pages; page++) {
        uint32_t *code = (uint32_t *)(QUESTION->window + page * PAGE);
        code[0] = 0xd280000c | (uint32_t)(page + 1) << 5;  // movz x12, page + 1
        code[1] = 0xd65f03c0;                              // ret
    }
    uint32_t *to = (uint32_t *)QUESTION->home;
    for (uint64_t i = 0; i < (uint64_t)(home_end - home); i++)
        to[i] = home[i];
}

static void begin(void)
{
    WRITE(scr_el3, SECURE_64);
    WRITE(mair_el1, MEMORY_NORMAL);
    WRITE(ttbr0_el1, 0);
    WRITE(tcr_el1, CONTROL_1);
    WRITE(sctlr_el1, TRANSLATE);
    WRITE(vbar_el1, QUESTION->home);
    WRITE(mair_el3, MEMORY_NORMAL);
    WRITE(ttbr0_el3, 0);
    WRITE(tcr_el3, CONTROL_3);
    WRITE(vbar_el3, QUESTION->home);
    __asm__ volatile("dsb sy\n ic iallu\n tlbi alle3\n tlbi alle1\n dsb sy\n isb" ::: "memory");
}

// Asks for one address, and jumps where it begins a page other than home.
static void ask(uint64_t address, struct answer *answer)
{
    ASK(s1e1r, address, answer->read1);
    ASK(s1e1w, address, answer->write1);
    ASK(s1e0r, address, answer->read0);
    if (QUESTION->home == 0)
        return;
    uint64_t jump = address % PAGE == 0 && address != QUESTION->home;
    AT_HOME(at_el3)(address, answer->el3, jump);
    if (jump) {
        answer->jump1 = AT_HOME(jump_lower)(address, AT_EL1);
        answer->jump0 = AT_HOME(jump_lower)(address, AT_EL0);
    }
}

int main(void)
{
    if (QUESTION->home != 0)
        fill_window();
    begin();
    for (uint64_t i = 0; i < QUESTION->count; i++)
        ask(QUESTION->address[i], &ANSWERS[i]);
    write_file("answers.bin", 11, ANSWERS, QUESTION->count * sizeof *ANSWERS);
    return 0;
}
