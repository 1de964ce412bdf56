/* The first instructions of a guest and of a thread. The rest is C: pthread.c. */

    .cfi_sections .debug_frame

    .equ CLONE, 220
    /* VM, FS, FILES, SIGHAND, THREAD, SYSVSEM, SETTLS, PARENT_SETTID, CHILD_CLEARTID and DETACHED, as a C library passes them */
    .equ FLAGS, 0x7D0F00

/* Calls kit_start with the number of words and the words. Neither it nor a thread has a caller, and a debugger is told so. */
    .globl _start
    .type _start, @function
_start:
    .cfi_startproc
    .cfi_undefined ra
    .option push
    .option norelax
    la gp, __global_pointer$
    .option pop
    lw a0, 0(sp)
    addi a1, sp, 4
    call kit_start
    .cfi_endproc
    .size _start, . - _start

/* int kit_clone(char *stack_end, struct pthread *thread, volatile int *tid)
   makes a thread that calls kit_run, with `thread` in tp. Answers the tid, or a negated errno; the tid is also put at `tid`, and cleared
   there at the end. */
    .globl kit_clone
    .type kit_clone, @function
kit_clone:
    .cfi_startproc
    mv a3, a1
    mv a1, a0
    mv a4, a2
    li a0, FLAGS
    li a7, CLONE
    ecall
    beqz a0, kit_thread
    ret
    .cfi_endproc
    .size kit_clone, . - kit_clone

    .type kit_thread, @function
kit_thread:
    .cfi_startproc
    .cfi_undefined ra
    call kit_run
    .cfi_endproc
    .size kit_thread, . - kit_thread

    .file "start.S" /* the name in the table of symbols */
