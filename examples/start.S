/* The start of an example: what a C library would do. */

    .file "start.S"

    .equ EXIT, 93
    .equ EXIT_GROUP, 94
    .equ CLONE, 220
    /* VM, FS, FILES, SIGHAND, THREAD, SYSVSEM, SETTLS, PARENT_SETTID, CHILD_CLEARTID and DETACHED, as a C library passes them */
    .equ FLAGS, 0x7D0F00

/* Calls main with the number of words and the words, and ends the program with what it answers. */
    .globl _start
_start:
    .option push
    .option norelax
    la gp, __global_pointer$
    .option pop
    lw a0, 0(sp)
    addi a1, sp, 4
    call main
    li a7, EXIT_GROUP
    ecall

/* int start_thread(void (*work)(void *), void *argument, char *stack_end, unsigned *tid)
   makes a thread that calls work(argument) and exits. The tid is answered, put at `tid`, and cleared there at the end. */
    .globl start_thread
start_thread:
    mv t0, a0           /* the thread begins with a copy of these registers */
    mv t1, a1
    li a0, FLAGS
    mv a1, a2
    mv a2, a3
    mv a4, a3
    li a7, CLONE
    ecall
    beqz a0, 1f
    ret
1:  mv a0, t1
    jalr t0
    li a0, 0
    li a7, EXIT
    ecall
