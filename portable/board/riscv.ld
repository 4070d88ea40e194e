/* qemu's RISC-V board: a MB of RAM for all. */
ENTRY(reset)
MEMORY { RAM (rwx) : ORIGIN = 0x80000000, LENGTH = 1M }
SECTIONS {
  .text : { KEEP(*(.vectors)) *(.text*) *(.rodata*) *(.srodata*) . = ALIGN(8); *(.data*) *(.sdata*) } >RAM
  .bss : { *(.sbss*) *(.bss*) *(COMMON) } >RAM
  . = ALIGN(16);
  . += 16K;
  stack_top = .;
}
