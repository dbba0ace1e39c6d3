ENTRY(_start)
SECTIONS
{
  . = 0x40100000;
  .text : { *(.start) *(.text*) *(.rodata*) }
  .home : ALIGN(4096) { *(.home) }
  .data : { *(.data*) *(.bss*) }
  . = ALIGN(16) + 0x10000;
  stack_top = .;
}
