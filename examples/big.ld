/* Two loads, which together fill the instruction scratchpad of 65,536 bytes. */
OUTPUT_ARCH(riscv)
ENTRY(start)
PHDRS
{
  low PT_LOAD FLAGS(5);
  high PT_LOAD FLAGS(5);
}
SECTIONS
{
  .first 0 : { *(.first) } :low
  .gap 0x100 : { *(.gap) } :low
  .last 0xff00 : { *(.last) } :high
  /DISCARD/ : { *(.comment .note.* .riscv.attributes) }
}
