/* The same, with a segment apart from the others. */
MEMORY
{
    FLASH (rx) : ORIGIN = 0x10000000, LENGTH = 4M
    SRAM (rwx) : ORIGIN = 0x20000000, LENGTH = 512K
}
ENTRY(start)
SECTIONS
{
    .text : { KEEP(*(.vectors)) KEEP(*(.entry)) KEEP(*(.definition)) *(.text*) *(.rodata*) *(.srodata*) . = ALIGN(4); } > FLASH
    .extra 0x10004000 : { KEEP(*(.extra)) . = ALIGN(4); }
    .note.gnu.build-id : { *(.note.gnu.build-id) } > FLASH
    .data : { data_start = .; *(.data*) *(.sdata*) . = ALIGN(4); data_end = .; } > SRAM AT > FLASH
    data_load = LOADADDR(.data);
    .bss (NOLOAD) : { bss_start = .; *(.bss*) *(.sbss*) *(COMMON) . = ALIGN(4); bss_end = .; } > SRAM
    stack_top = 0x20082000;
    /DISCARD/ : { *(.ARM.*) *(.eh_frame*) *(.riscv.attributes) }
}
