/* As memory.ld, but as real flash memory has it: the first values of .data are kept in ROM (AT> rom), and start.S, built with
   -DCOPY_DATA, copies them into RAM. The copying is then a part of the run, and of what faults can hit. Code in a section .ram_code
   is copied with the data, and runs in RAM. */
ENTRY(_start)
MEMORY
{
    rom (rx) : ORIGIN = 0x20000000, LENGTH = DEFINED(rom_size) ? rom_size : 65536
    ram (rwx) : ORIGIN = 0x80000000, LENGTH = ram_size
}
SECTIONS
{
    .text : { KEEP(*(.start)) *(.text*) *(.rodata*) *(.srodata*) . = ALIGN(4); } > rom
    .data : {
        data_start = .;
        *(.ram_code*) *(.data*) *(.sdata*)
        . = ALIGN(4);
        data_end = .;
    } > ram AT> rom
    data_load = LOADADDR(.data);
    .bss (NOLOAD) : { *(.bss*) *(.sbss*) *(COMMON) } > ram
    stack_top = ORIGIN(ram) + LENGTH(ram);
    /DISCARD/ : { *(.comment) *(.riscv.attributes) *(.note*) *(.eh_frame*) }
}
