/* A bare board: the vectors first, then code and constants; what begins with a value is copied from behind them at start-up (machine/board.c).
 * FLASH_AT, RAM_AT and ENTRY_AT are given on the linker's command line. */
MEMORY {
  FLASH (rx) : ORIGIN = FLASH_AT, LENGTH = 4M
  RAM (rwx) : ORIGIN = RAM_AT, LENGTH = 2M
}
SECTIONS {
  .text : { KEEP(*(.vectors)) *(.text*) *(.rodata* .srodata*) . = ALIGN(8); } > FLASH
  .ARM.exidx : { *(.ARM.exidx*) } > FLASH
  .data : { data_begin = .; *(.data* .sdata*) . = ALIGN(4); data_end = .; } > RAM AT > FLASH
  data_from = LOADADDR(.data);
  .bss (NOLOAD) : { bss_begin = .; *(.bss* .sbss* COMMON) . = ALIGN(4); bss_end = .; } > RAM
  stack_top = ORIGIN(RAM) + LENGTH(RAM);
  /DISCARD/ : { *(.comment) *(.note*) }
}
