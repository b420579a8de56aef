/* Text at 0x10000, then constants and data, each from a fresh page. No page is both written and run. */
ENTRY(_start)

PHDRS
{
  text PT_LOAD FLAGS(5);
  constants PT_LOAD FLAGS(4);
  data PT_LOAD FLAGS(6);
}

SECTIONS
{
  . = 0x10000;
  .text : { *(.text .text.*) } :text
  . = ALIGN(4096);
  .rodata : { *(.rodata .rodata.* .srodata .srodata.*) } :constants
  . = ALIGN(4096);
  .data : { *(.data .data.* .sdata .sdata.*) } :data
  .bss : { *(.bss .bss.* .sbss .sbss.* COMMON) } :data
  /DISCARD/ : { *(.eh_frame .eh_frame_hdr .note .note.* .comment .riscv.attributes) }
}
