/* The stack lies lowest in RAM, so that a program that needs more takes an exception and writes over nothing. */
ENTRY(start)
SECTIONS {
  .vectors : { KEEP(*(.vectors)) } > flash
  .text : { *(.text*) *(.rodata*) } > flash
  .ARM.exidx : { *(.ARM.exidx*) } > flash
  .stack (NOLOAD) : { . = . + stack_size; . = ALIGN(8); stack_top = .; } > ram
  .data : { data_start = .; *(.data*) . = ALIGN(4); data_end = .; } > ram AT > flash
  data_from = LOADADDR(.data);
  .bss (NOLOAD) : { bss_start = .; *(.bss*) *(COMMON) . = ALIGN(4); bss_end = .; } > ram
  /DISCARD/ : { *(.comment) *(.note*) *(.ARM.attributes) }
}
