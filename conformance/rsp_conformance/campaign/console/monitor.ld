OUTPUT_ARCH(mips)
ENTRY(_start)
SECTIONS {
  .boot 0xBFC00000 : { *(.boot) }
  __load = 0xBFC00000 + SIZEOF(.boot);
  .text 0x80040000 : AT(__load) { __text = .; *(.text*) *(.rodata*) *(.data*) *(.sdata*) *(.bss*) *(.sbss*) *(COMMON) . = ALIGN(16); }
  __end = .;
  /DISCARD/ : { *(.reginfo) *(.MIPS.abiflags) *(.pdr) *(.comment) *(.gnu.attributes) *(.note*) *(.mdebug*) }
}
