/* qemu's riscv32 board virt starts at the first byte of its RAM. 16 KB above the start are for data; what lies below the stack, machine.c
   makes unwritable. */
ENTRY(start)
MEMORY {
  code : ORIGIN = 0x80000000, LENGTH = 1M
  ram : ORIGIN = 0x80100000, LENGTH = 16K
}
SECTIONS {
  .vectors : { KEEP(*(.vectors)) } > code
  .text : { *(.text*) *(.rodata*) *(.srodata*) } > code
  .stack (NOLOAD) : { stack_bottom = .; . = . + stack_size; . = ALIGN(16); stack_top = .; } > ram
  .data : { *(.data*) *(.sdata*) . = ALIGN(4); } > ram
  .bss : { *(.sbss*) *(.bss*) *(COMMON) . = ALIGN(4); } > ram
  /DISCARD/ : { *(.comment) *(.note*) *(.eh_frame*) *(.riscv.attributes) }
}
