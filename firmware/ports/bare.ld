/* An image in the board's memory, from the symbol `base` on. */
ENTRY(_start)
SECTIONS {
  . = base;
  .text : { *(.text.start) *(.text .text.*) }
  .rodata : { *(.rodata .rodata.*) }
  .data : { *(.data .data.*) }
  .bss : { *(.bss .bss.*) *(COMMON) }
  . = ALIGN(16);
  . += 0x4000;
  stack_top = .;
}
