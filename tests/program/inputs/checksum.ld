/* Code and constants in ROM, data and the stack in RAM. Data is loaded into RAM at once: no code copies it. */

ENTRY(_start)

MEMORY
{
    rom (rx) : ORIGIN = 0x20000000, LENGTH = 512
    ram (rw) : ORIGIN = 0x80000000, LENGTH = 32
}

SECTIONS
{
    .text : { *(.start) *(.text*) *(.rodata*) } > rom
    .data : { *(.data*) *(.sdata*) } > ram
    .bss : { *(.bss*) *(.sbss*) } > ram
    stack_top = ORIGIN(ram) + LENGTH(ram);
}
