/* The shapes for qemu-riscv32, with memory where the port is. */
OUTPUT_ARCH(riscv)
SECTIONS {
  . = 0x10000;
  .text : { *(.text .text.* .rodata .rodata.* .srodata .srodata.*) }
  . = 0x20000000;
  .data : { *(.data .data.* .sdata .sdata.*) }
  .bss : { *(.bss .bss.* .sbss .sbss.* COMMON) }
  . = 0x40000000;
  .port : { *(.port) }
  /DISCARD/ : { *(.comment .note.* .eh_frame .eh_frame.* .riscv.attributes) }
}
