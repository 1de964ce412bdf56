/* A guest of one thread that counts to 400 by LR and SC, and counts the SCs that fail: a slice that ends between an LR and its SC
   makes it fail, and the thread tries again by 13 instructions more. At each multiple of 32 it writes both counts to descriptor 1,
   at the other multiples of 16 it yields. In the end it raises the break, copies there how many SCs had failed at each of the last
   64 numbers, writes 16 of these words to descriptor 2, and exits with the failures as its status; its exit clears a word.
   `tools/run slice_rows increments` makes ../data/increments.elf of it. */

    .option norelax

    .globl _start
_start:
    lui  s1, 0x11           /* count, failures, cleared word, scratch; the table from 64 on */
    addi a0, s1, 8
    li   a7, 96             /* set_tid_address */
    ecall
    li   s2, 400
next:
    lr.w t0, (s1)
    addi t0, t0, 1
    sw   t0, 12(s1)
    mul  t1, t0, t0
    xor  t1, t1, s2
    lw   t2, 12(s1)
    bne  t0, t2, wrong
    sc.w t3, t0, (s1)
    beqz t3, counted
    lw   t4, 4(s1)
    addi t4, t4, 1
    sw   t4, 4(s1)
    j    next
counted:
    andi t5, t0, 63
    slli t5, t5, 2
    add  t5, t5, s1
    lw   t4, 4(s1)
    sw   t4, 64(t5)
    andi t5, t0, 31
    bnez t5, no_write
    li   a0, 1
    mv   a1, s1
    li   a2, 8
    li   a7, 64             /* write */
    ecall
    li   t6, 8
    bne  a0, t6, wrong
    j    counted_down
no_write:
    andi t5, t0, 15
    bnez t5, counted_down
    li   a7, 124            /* sched_yield */
    ecall
    bnez a0, wrong
counted_down:
    addi s2, s2, -1
    bnez s2, next

    li   a0, 0
    li   a7, 214            /* brk */
    ecall
    mv   s3, a0
    lui  t0, 2
    add  s4, a0, t0
    mv   a0, s4
    ecall
    bne  a0, s4, wrong
    addi t0, s1, 64
    mv   t1, s3
    li   t2, 64
copy:
    lw   t3, 0(t0)
    sw   t3, 0(t1)
    addi t0, t0, 4
    addi t1, t1, 4
    addi t2, t2, -1
    bnez t2, copy
    li   a0, 2
    addi a1, s3, 192
    li   a2, 64
    li   a7, 64             /* write */
    ecall
    lw   a0, 4(s1)
    li   a7, 93             /* exit */
    ecall
wrong:
    ebreak

    .bss
    .zero 4096
