/* The default map of fail_star: code and constants in ROM, data and the stack in RAM.
   .data has one address, in RAM, so that the image itself brings the first values there: no code copies them.
   The size of RAM is a symbol of the command line (-Wl,--defsym=ram_size=256): the stack begins at its end, and the same
   number goes to --ram. */
ENTRY(_start)
MEMORY
{
    rom (rx) : ORIGIN = 0x20000000, LENGTH = DEFINED(rom_size) ? rom_size : 65536
    ram (rw) : ORIGIN = 0x80000000, LENGTH = ram_size
}
SECTIONS
{
    .text : { KEEP(*(.start)) *(.text*) *(.rodata*) *(.srodata*) } > rom
    .data : { *(.data*) *(.sdata*) } > ram
    .bss (NOLOAD) : { *(.bss*) *(.sbss*) *(COMMON) } > ram
    stack_top = ORIGIN(ram) + LENGTH(ram);
    /DISCARD/ : { *(.comment) *(.riscv.attributes) *(.note*) *(.eh_frame*) }
}
