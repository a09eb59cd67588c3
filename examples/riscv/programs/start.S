# Where every program begins: sets the stack, calls main, and ends with what main returns.
    .section .text.start, "ax"
    .globl _start, stop
_start:
    lui sp, %hi(stack_top)
    addi sp, sp, %lo(stack_top)
    call main
    li a7, 93
stop:
    ecall
