# Reset: the stack at the top of RAM, the initialised data where the program expects it, then main.
# There is nothing to clear: all RAM that the image does not fill is 0 when a run begins.
    .file   "start.S"
    .section .start, "ax"
    .globl _start
_start:
    la      sp, stack_top
#ifdef COPY_DATA
    # The linker script flash.ld keeps the first values of .data in ROM, as flash memory does: copy them, word by word.
    la      t0, data_load
    la      t1, data_start
    la      t2, data_end
    beq     t1, t2, 2f
1:  lw      t3, 0(t0)
    sw      t3, 0(t1)
    addi    t0, t0, 4
    addi    t1, t1, 4
    bltu    t1, t2, 1b
2:
#endif
    tail    main
