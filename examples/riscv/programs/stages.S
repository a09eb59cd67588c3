# A few instructions that show the pipeline at work: a load whose value is used at once, and a branch that is taken.
    .globl main
main:
    sw ra, -4(sp)
    lw a0, -4(sp)
    addi a0, a0, -2
    bne a0, ra, 1f
    li a0, 1
    li a0, 2
1:  li a0, 0
    ret
