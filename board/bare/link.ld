/* The image alone is loaded, and loaded again at each reset. The table and what is kept lie in RAM outside it: see machine.h. */
OUTPUT_ARCH(riscv)
ENTRY(_start)
SECTIONS {
  . = 0x80000000;
  .text : { *(.text.start) *(.text .text.*) }
  .rodata : { *(.rodata .rodata.* .srodata .srodata.*) }
  .data : { *(.data .data.* .sdata .sdata.*) }
  .bss : { . = ALIGN(8); bss_start = .; *(.sbss .sbss.* .bss .bss.* COMMON) . = ALIGN(8); bss_end = .; }
  /DISCARD/ : { *(.eh_frame*) *(.comment) *(.note*) *(.riscv.attributes) *(.llvm_addrsig) }
}
