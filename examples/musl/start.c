/* Where a guest begins, in place of musl's crt1. cc and guest-words put arguments and an environment into the section
   guest_words: words that end in a zero byte, each after a letter, `a` of an argument or `e` of the environment. The
   guest's own name stays the first argument. Without such words main gets what the guest was started with. */

enum { PAGE = 4096, MOST = PAGE / 2 };

int main();
int __libc_start_main(int (*)(), int, char **, void (*)(), void (*)(), void (*)());
void __guest_begin(void);
void __guest_start(long *);

__attribute__((section("guest_words"), used)) volatile char guest_block[PAGE] = "";

/* A debugger is told that nobody called it. */
__asm__(".text\n.global _start\n.type _start, %function\n_start:\n.cfi_startproc\n.cfi_undefined ra\n"
        ".option push\n.option norelax\nlla gp, __global_pointer$\n.option pop\n"
        "mv a0, sp\nandi sp, sp, -16\ncall __guest_start\n.cfi_endproc\n.size _start, . - _start\n");

/* Adds the words of a letter to a block of words, and a zero; returns the place after that. */
static int add(long *block, int at, char letter)
{
    const char *words = (const char *)guest_block, *end = words + PAGE;
    while (words < end && *words) {
        if (*words++ == letter)
            block[at++] = (long)words;
        while (words < end && *words)
            words++;
        words++;
    }
    block[at++] = 0;
    return at;
}

/* Puts the words together as a program finds them on its stack (docs/GUEST.md, "Programs"). XSH exec, XBD 8.1. */
__attribute__((used)) void __guest_start(long *stack)
{
    long block[MOST + 40], *from = stack;
    if (*guest_block) {
        const long *rest = stack + stack[0] + 2;
        block[1] = stack[1];
        int at = add(block, 2, 'a');
        block[0] = at - 2;
        at = add(block, at, 'e');
        while (*rest++)
            ;
        do
            block[at] = rest[0], block[at + 1] = rest[1], at += 2, rest += 2;
        while (block[at - 2] && at < MOST + 38);
        from = block;
    }
    __guest_begin();
    __libc_start_main(main, (int)from[0], (char **)(from + 1), 0, 0, 0);
}
