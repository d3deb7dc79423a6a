/* All shapes in one image for scratchpads of 65,536 bytes (`version = 2`). */
OUTPUT_ARCH(riscv)
MEMORY { code (rx) : ORIGIN = 0, LENGTH = 64K  data (rw) : ORIGIN = 0x20000000, LENGTH = 64K }
SECTIONS {
  .code : { *(.text .text.* .rodata .rodata.* .srodata .srodata.*) } > code
  .data : { *(.data .data.* .sdata .sdata.*) } > data
  .bss : { *(.bss .bss.* .sbss .sbss.* COMMON) } > data
  /DISCARD/ : { *(.comment .note.* .eh_frame .eh_frame.* .riscv.attributes) }
}
