/* The memory of the board mps2-an386: 4 MiB where the code stands, 4 MiB for stack and data, 16 MiB for the rooms. */
MEMORY
{
  code (rx) : ORIGIN = 0x00000000, LENGTH = 4M
  data (rw) : ORIGIN = 0x20000000, LENGTH = 4M
  room (rw) : ORIGIN = 0x21000000, LENGTH = 16M
}

ENTRY(reset)

SECTIONS
{
  .text : { KEEP(*(.vectors)) *(.text*) *(.rodata*) . = ALIGN(4); } > code
  .ARM.exidx : { *(.ARM.exidx*) } > code
  /* The stack lies lowest, where there is no memory below it: an overflow is a fault and overwrites nothing. */
  .stack (NOLOAD) : { stack_low = .; . += 32K; stack_top = .; } > data
  .data : { data_low = .; *(.data*) . = ALIGN(4); data_high = .; } > data AT > code
  data_kept = LOADADDR(.data);
  .bss (NOLOAD) : { bss_low = .; *(.bss*) *(COMMON) . = ALIGN(4); bss_high = .; } > room
}
