/* All in SRAM, with nothing in flash. */
MEMORY
{
    SRAM (rwx) : ORIGIN = 0x20000000, LENGTH = 512K
}
ENTRY(start)
SECTIONS
{
    .text : { KEEP(*(.vectors)) KEEP(*(.entry)) *(.text*) *(.rodata*) *(.srodata*) . = ALIGN(4); } > SRAM
    .note.gnu.build-id : { *(.note.gnu.build-id) } > SRAM
    .data : { data_start = .; *(.data*) *(.sdata*) . = ALIGN(4); data_end = .; } > SRAM
    data_load = LOADADDR(.data);
    .bss (NOLOAD) : { bss_start = .; *(.bss*) *(.sbss*) *(COMMON) . = ALIGN(4); bss_end = .; } > SRAM
    stack_top = 0x20082000;
    /DISCARD/ : { *(.ARM.*) *(.eh_frame*) *(.riscv.attributes) }
}
