# Each instruction of RV32I but ebreak, with checks of its result. Then results that are used one, two and three
# instructions later, loads that are used at once, and branches on what was just calculated. The exit code is the number
# of the first check that failed, or 0 if none did. A dot is written after each group.

    # The next check: the register has this value.
    .macro check register, expected
    addi s0, s0, 1
    li t6, \expected
    bne \register, t6, wrong
    .endm

    # An instruction with two registers, and with a register and a constant.
    .macro binary name, left, right, expected
    li t0, \left
    li t1, \right
    \name t2, t0, t1
    check t2, \expected
    .endm
    .macro immediate name, left, constant, expected
    li t0, \left
    \name t2, t0, \constant
    check t2, \expected
    .endm

    # A branch that is taken, and one that isn't.
    .macro taken name, left, right
    addi s0, s0, 1
    li t0, \left
    li t1, \right
    \name t0, t1, 1f
    j wrong
1:
    .endm
    .macro not_taken name, left, right
    addi s0, s0, 1
    li t0, \left
    li t1, \right
    \name t0, t1, wrong
    .endm

    .macro dot
    li a0, 1
    la a1, point
    li a2, 1
    li a7, 64
    ecall
    .endm

    .data
point: .ascii "."
    .balign 16
bytes: .byte 0x01, 0x82, 0x03, 0x84, 0xff, 0x7f, 0x80, 0x00, 0x11, 0x92, 0x33, 0xb4, 0x55, 0xd6, 0x77, 0xf8
room:  .zero 32

    .text
    .globl main
main:
    mv s11, ra
    li s0, 0

    # ---- two registers
    binary add, 0x7fffffff, 1, 0x80000000
    binary add, -1, 1, 0
    binary add, 0x12345678, 0x11111111, 0x23456789
    binary sub, 0, 1, -1
    binary sub, 0x80000000, 1, 0x7fffffff
    binary sub, 5, 7, -2
    binary sll, 1, 31, 0x80000000
    binary sll, 0x12345678, 4, 0x23456780
    binary sll, 3, 33, 6
    binary sll, 7, -32, 7
    binary slt, -1, 0, 1
    binary slt, 0, -1, 0
    binary slt, 0x80000000, 0x7fffffff, 1
    binary slt, 4, 4, 0
    binary sltu, -1, 0, 0
    binary sltu, 0, -1, 1
    binary sltu, 0x80000000, 0x7fffffff, 0
    binary sltu, 4, 4, 0
    binary xor, 0xff00ff00, 0x0ff00ff0, 0xf0f0f0f0
    binary srl, 0x80000000, 31, 1
    binary srl, 0xf0000000, 4, 0x0f000000
    binary srl, 0x80, 36, 8
    binary sra, 0x80000000, 31, -1
    binary sra, 0xf0000000, 4, 0xff000000
    binary sra, 0x70000000, 60, 7
    binary or, 0xff00ff00, 0x0ff00ff0, 0xfff0fff0
    binary and, 0xff00ff00, 0x0ff00ff0, 0x0f000f00
    dot

    # ---- a register and a constant
    immediate addi, 0x7ffff800, 2047, 0x7fffffff
    immediate addi, 0, -2048, 0xfffff800
    immediate slti, -2048, -2047, 1
    immediate slti, 5, -2048, 0
    immediate slti, 5, 5, 0
    immediate sltiu, 5, -1, 1
    immediate sltiu, -1, -1, 0
    immediate sltiu, 0, 1, 1
    immediate xori, 0x0f0f0f0f, -1, 0xf0f0f0f0
    immediate xori, 0x12345678, 0x7ff, 0x12345187
    immediate ori, 0x12345600, 0x78, 0x12345678
    immediate ori, 0, -2048, 0xfffff800
    immediate andi, 0x12345678, 0xff, 0x78
    immediate andi, -1, -2048, 0xfffff800
    immediate slli, 1, 31, 0x80000000
    immediate slli, 0x12345678, 0, 0x12345678
    immediate srli, 0x80000000, 31, 1
    immediate srli, 0xffffffff, 16, 0xffff
    immediate srai, 0x80000000, 31, -1
    immediate srai, 0x7fffffff, 16, 0x7fff
    lui t2, 0xfffff
    check t2, 0xfffff000
    lui t2, 0x80000
    check t2, 0x80000000
    dot

    # ---- addresses of instructions
1:  auipc t0, 0
    lui t1, %hi(1b)
    addi t1, t1, %lo(1b)
    sub t2, t0, t1
    check t2, 0
2:  auipc t0, 0xfffff
    lui t1, %hi(2b - 4096)
    addi t1, t1, %lo(2b - 4096)
    sub t2, t0, t1
    check t2, 0
3:  jal t0, 4f
    j wrong
4:  lui t1, %hi(3b)
    addi t1, t1, %lo(3b)
    sub t2, t0, t1
    check t2, 4
    lui t1, %hi(5f + 1)           # jalr drops the lowest bit of the sum
    jalr t0, %lo(5f + 1)(t1)
    j wrong
5:  lui t1, %hi(5b)
    addi t1, t1, %lo(5b)
    sub t2, t0, t1
    check t2, -4
    la t0, 6f                     # the register that is read is also written
    jalr t0, 0(t0)
    j wrong
6:  addi s0, s0, 1
    la t1, 6b
    sub t2, t0, t1
    check t2, -4
    call leaf
    check a0, 77
    li s1, 3                      # a branch backwards
7:  addi s1, s1, -1
    bnez s1, 7b
    check s1, 0
    dot

    # ---- branches
    taken beq, 5, 5
    not_taken beq, 5, 6
    taken bne, 5, 6
    not_taken bne, -1, -1
    taken blt, -1, 0
    taken blt, 0x80000000, 0x7fffffff
    not_taken blt, 0, -1
    not_taken blt, 3, 3
    taken bge, 0, -1
    taken bge, 3, 3
    not_taken bge, -1, 0
    not_taken bge, 0x80000000, 0x7fffffff
    taken bltu, 0, -1
    not_taken bltu, -1, 0
    not_taken bltu, 3, 3
    taken bgeu, -1, 0
    taken bgeu, 3, 3
    not_taken bgeu, 0x7fffffff, 0x80000000
    dot

    # ---- loads
    la s1, bytes
    lb t0, 0(s1)
    check t0, 1
    lb t0, 1(s1)
    check t0, 0xffffff82
    lb t0, 15(s1)
    check t0, 0xfffffff8
    lbu t0, 1(s1)
    check t0, 0x82
    lbu t0, 4(s1)
    check t0, 0xff
    lbu t0, 15(s1)
    check t0, 0xf8
    lh t0, 0(s1)
    check t0, 0xffff8201
    lh t0, 4(s1)
    check t0, 0x7fff
    lh t0, 14(s1)
    check t0, 0xfffff877
    lhu t0, 2(s1)
    check t0, 0x8403
    lhu t0, 14(s1)
    check t0, 0xf877
    lw t0, 0(s1)
    check t0, 0x84038201
    lw t0, 4(s1)
    check t0, 0x00807fff
    lw t0, 12(s1)
    check t0, 0xf877d655
    addi t1, s1, 12
    lw t0, -8(t1)
    check t0, 0x00807fff
    dot

    # ---- stores
    la s2, room
    li t0, 0x12345678
    sw t0, 0(s2)
    lw t1, 0(s2)
    check t1, 0x12345678
    sb t0, 5(s2)
    lw t1, 4(s2)
    check t1, 0x00007800
    sh t0, 10(s2)
    lw t1, 8(s2)
    check t1, 0x56780000
    sw t0, 12(s2)
    sb zero, 14(s2)
    lw t1, 12(s2)
    check t1, 0x12005678
    sh zero, 12(s2)
    lw t1, 12(s2)
    check t1, 0x12000000
    lw t1, 0(s2)
    check t1, 0x12345678
    li t0, -1
    sb t0, 16(s2)
    sb t0, 31(s2)
    lw t1, 16(s2)
    check t1, 0xff
    lw t1, 28(s2)
    check t1, 0xff000000
    lw t1, 20(s2)
    check t1, 0
    dot

    # ---- results that are used at once, and later
    li t0, 1
    add t0, t0, t0
    add t0, t0, t0
    add t0, t0, t0
    check t0, 8
    li t0, 3
    nop
    add t1, t0, t0
    check t1, 6
    li t0, 4
    nop
    nop
    add t1, t0, t0
    check t1, 8
    li t0, 5                      # the newest of three results counts
    li t0, 6
    li t0, 7
    add t1, t0, t0
    check t1, 14
    lw t0, 0(s1)                  # a load, used at once, one later, and two later
    add t1, t0, t0
    check t1, 0x08070402
    lw t0, 4(s1)
    nop
    add t1, t0, zero
    check t1, 0x00807fff
    lw t0, 4(s1)
    nop
    nop
    add t1, zero, t0
    check t1, 0x00807fff
    li t1, 9                      # a load after a result of the same register
    lw t1, 4(s1)
    mv t2, t1
    check t2, 0x00807fff
    lw t1, 0(s1)                  # and a result after a load
    li t1, 10
    mv t2, t1
    check t2, 10
    la t0, room                   # an address that was just loaded
    sw s1, 0(t0)
    lw t0, 0(t0)
    lw t0, 4(t0)
    check t0, 0x00807fff
    lw t0, 0(s1)                  # a value that was just loaded is stored
    sw t0, 4(s2)
    lw t1, 4(s2)
    check t1, 0x84038201
    lw t0, 4(s1)                  # a branch on a value that was just loaded
    beqz t0, wrong
    lbu t0, 7(s1)
    bnez t0, wrong
    li t0, 5                      # a branch on a value that was just calculated, and what it drops
    addi t0, t0, -5
    beqz t0, 1f
    li t0, 99
    j wrong
1:  check t0, 0
    j 2f                          # jumps to jumps
    li t0, 1
2:  j 3f
    li t0, 2
3:  check t0, 0
    beq t0, t0, 4f                # what is no instruction may be fetched, if it is dropped
    .word 0
4:  j 5f
    .word 0
    .word 0xffffffff
5:  li t1, 8                      # register 0 stays 0, and nothing is forwarded from it
    add zero, t1, t1
    add t2, zero, zero
    check t2, 0
    lw zero, 0(s1)
    add t2, zero, zero
    check t2, 0
    jal zero, 6f
6:  add t2, zero, zero
    check t2, 0
    dot
    add t2, a0, a0                # a call's result, used at once
    dot
    mv t1, a0
    check t1, 1
    fence
    fence rw, w
    li a0, 10                     # the end of the line
    la a1, room
    sb a0, 0(a1)
    li a0, 1
    ecall
    li a0, 0
    jr s11

leaf:
    li a0, 77
    ret

wrong:
    mv a0, s0
    li a7, 93
    ecall
