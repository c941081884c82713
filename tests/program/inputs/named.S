# Symbols that overlap, have one value or no size, lie in no section, or have a name with a space, which GNU as leaves out.
    .file "named.S"
    .text
    .globl  mixed
    .type   mixed, @function
mixed:
    slli    a0, a0, 1
    # A function within a function.
    .type   within, @function
within:
    addi    a0, a0, 1
    .size   within, . - within
    bnez    a0, 1f
    # A label with a type and no size, which is none of those that are counted.
    .type   sizeless, @function
sizeless:
    nop
1:  ret
    .size   mixed, . - mixed

    # A second name of the same place, of half the size.
    .type   half, @function
    .set    half, mixed
    .size   half, 8

    .globl  replaced
    .type   replaced, @function
replaced:
    xori    a0, a0, 0x55
    ret
    .size   replaced, . - replaced

    .data
    .globl  replaced_byte
    .type   replaced_byte, @object
replaced_byte:
    .byte   4
    .size   replaced_byte, 1
    .type   "odd name", @object
"odd name":
    .byte   1
    .size   "odd name", 1

    # A place in no section, of all RAM: what has no name of its own belongs to it.
    .globl  all_ram
    .type   all_ram, @object
    .set    all_ram, 0x80000000
    .size   all_ram, 64
