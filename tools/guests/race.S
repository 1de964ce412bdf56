/* Four threads add to one word without a lock, 20,000 times each, by a load, an addition and a store: a thread that is switched out
   between its load and its store undoes what the others have added since. The first thread waits for the three that it makes, writes
   the word in eight hexadecimal digits and a newline, and exits with its low byte. */

    .equ WRITE, 64
    .equ EXIT, 93
    .equ CLONE, 220
    .equ MMAP, 222
    .equ FUTEX, 422
    /* VM, FS, FILES, SIGHAND, THREAD, SYSVSEM, SETTLS, PARENT_SETTID and CHILD_CLEARTID */
    .equ FLAGS, 0x3D0F00
    .equ TURNS, 20000

    .option norelax
    .globl _start
_start:
    la s0, word
    la s1, tids
    li s2, 3            /* threads to make */
1:  li a0, 0            /* a stack of a page, which the thread doesn't use */
    li a1, 4096
    li a2, 3
    li a3, 0x22
    li a4, -1
    li a5, 0
    li a7, MMAP
    ecall
    li t0, 4096
    add a1, a0, t0
    li a0, FLAGS
    mv a2, s1
    mv a3, s1
    mv a4, s1
    li a7, CLONE
    ecall
    beqz a0, thread
    addi s1, s1, 4
    addi s2, s2, -1
    bnez s2, 1b

    call count
    la s1, tids
    li s2, 3
2:  lw a2, 0(s1)        /* waits until the thread has ended */
    beqz a2, 3f
    mv a0, s1
    li a1, 0
    li a3, 0
    li a7, FUTEX
    ecall
    j 2b
3:  addi s1, s1, 4
    addi s2, s2, -1
    bnez s2, 2b

    lw s3, 0(s0)
    la s1, line
    li s2, 28
4:  srl t0, s3, s2
    andi t0, t0, 15
    li t1, 10
    blt t0, t1, 5f
    addi t0, t0, 'a' - 10 - '0'
5:  addi t0, t0, '0'
    sb t0, 0(s1)
    addi s1, s1, 1
    addi s2, s2, -4
    bgez s2, 4b
    li t0, '\n'
    sb t0, 0(s1)
    li a0, 1
    la a1, line
    li a2, 9
    li a7, WRITE
    ecall
    mv a0, s3
    li a7, EXIT
    ecall

thread:
    call count
    li a0, 0
    li a7, EXIT
    ecall

count:
    li t0, TURNS
6:  lw t1, 0(s0)
    addi t1, t1, 1
    addi t0, t0, -1
    sw t1, 0(s0)
    bnez t0, 6b
    ret

    .bss
    .balign 4
word:
    .skip 4
tids:
    .skip 12
line:
    .skip 12
