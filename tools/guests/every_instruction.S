/* A guest that runs every instruction of RV32IMA and FENCE.I but EBREAK, writes x1 to x31 twice to descriptor 1, and exits.
   every_instruction.py makes every_instruction.elf of it. */

    .option norelax

    .macro put_registers
    .irp n, 1, 2, 3, 4, 5, 6, 7, 8, 9, 10, 11, 12, 13, 14, 15, 16, 17, 18, 19, 20, 21, 22, 23, 24, 25, 26, 27, 28, 29, 30, 31
    sw x\n, 4 * \n - 4(x3)
    .endr
    .endm

    .globl _start
_start:
    lui x1, 0x80000
    addi x2, x0, -3
    lui x3, 0x11
    addi x4, x0, 37

    /* what registers alone give */
    add x5, x1, x2
    sub x6, x4, x2
    sll x7, x2, x4
    slt x8, x1, x4
    sltu x9, x1, x4
    xor x10, x2, x4
    srl x11, x1, x4
    sra x12, x1, x4
    or x13, x1, x4
    and x14, x2, x4
    addi x15, x2, -2048
    slti x16, x2, 5
    sltiu x17, x2, -1
    xori x18, x2, 0x555
    ori x19, x1, -2048
    andi x20, x2, 0x7FF
    slli x21, x4, 27
    srli x22, x2, 4
    srai x23, x2, 1
    mul x24, x2, x4
    mulh x25, x1, x2
    mulhsu x26, x2, x1
    mulhu x27, x1, x2
    div x28, x1, x2
    divu x29, x1, x4
    rem x30, x1, x4
    remu x31, x2, x4
    put_registers

    /* memory behind the words put out */
    addi x5, x3, 512
    sw x28, 0(x5)
    sh x2, 4(x5)
    sb x24, 7(x5)
    lb x6, 7(x5)
    lh x7, 3(x5)
    lw x8, 0(x5)
    lbu x9, 7(x5)
    lhu x10, 4(x5)

    /* a word there, changed */
    lr.w x11, (x5)
    sc.w.rl x12, x1, (x5)
    sc.w x13, x2, (x5)
    amoswap.w x14, x4, (x5)
    amoadd.w x15, x2, (x5)
    amoxor.w x16, x1, (x5)
    amoor.w x17, x26, (x5)
    amoand.w x18, x2, (x5)
    amomin.w x19, x4, (x5)
    amomaxu.w x20, x2, (x5)
    amominu.w x21, x1, (x5)
    amomax.w.aqrl x22, x4, (x5)
    fence
    fence.i
    lw x23, 0(x5)

    /* jumps, and a bit for each branch that is not taken */
    auipc x24, 0x80001
    jal x25, 1f
    ebreak
1:  jalr x26, 17(x25)
    ebreak
    ebreak
    addi x27, x0, 0
    beq x1, x2, 1f
    addi x27, x27, 1
1:  bne x1, x2, 1f
    addi x27, x27, 2
1:  blt x1, x2, 1f
    addi x27, x27, 4
1:  bge x1, x2, 1f
    addi x27, x27, 8
1:  bltu x2, x1, 1f
    addi x27, x27, 16
1:  bgeu x2, x1, 1f
    addi x27, x27, 32
1:  lui x28, 0xFFFFF
    addi x3, x3, 124
    put_registers

    /* write(1, 0x11000, 248), then exit(0) */
    addi x10, x0, 1
    lui x11, 0x11
    addi x12, x0, 248
    addi x17, x0, 64
    ecall
    addi x10, x0, 0
    addi x17, x0, 93
    ecall

    .bss
    .zero 4096
