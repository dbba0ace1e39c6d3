// The program's start, and the home page: what runs while the tables under trial are in force. The list maps this page, executable,
// at its own physical address; it holds the vectors of EL1 and EL3 and the two probes, which keep to registers while they try.

    .section .start, "ax"
    .global _start
_start:
    ldr x0, =stack_top
    mov sp, x0
    bl main
    hlt #0xf000

    // A jump that faults comes here, and x12 says why. EL1 hands on to EL3.
    .macro vectors to
    .rept 8
    .balign 128
    mrs x14, CurrentEL
    tbnz x14, #3, 1f
    mrs x13, esr_el1
    smc #0
1:  mrs x14, esr_el3
    b \to
    .endr
    .endm

    .section .home, "ax"
    .balign 4096
    .global home
home:
    vectors from_el3
    vectors from_lower

    // at_el3(address, told[3], jump): the hardware's answers for reading and writing at EL3, and what a jump came to.
    .balign 2048
    .global at_el3
at_el3:
    mov x15, x30
    mrs x8, sctlr_el3
    orr x9, x8, #1
    msr sctlr_el3, x9
    isb
    at s1e3r, x0
    isb
    mrs x10, par_el1
    at s1e3w, x0
    isb
    mrs x11, par_el1
    mov x12, #0
    cbz x2, back
    adr x30, back
    br x0
from_el3:
    mov x12, x14
back:
    msr sctlr_el3, x8
    isb
    stp x10, x11, [x1]
    str x12, [x1, #16]
    ret x15

    // jump_lower(address, state): what a jump at EL1 or EL0 came to.
    .global jump_lower
jump_lower:
    mov x15, x30
    msr elr_el3, x0
    msr spsr_el3, x1
    mov x12, #0
    adr x30, leave
    isb
    eret
leave:
    svc #0
from_lower:
    cmp x12, #0
    csel x0, x12, x13, ne
    ret x15
    .global home_end
home_end:
