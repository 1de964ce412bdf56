"""The small kit, examples/kit: what POSIX promises of conditions that are destroyed, of keys and of signals.

Expected values: IEEE Std 1003.1-2017, and what the program counts itself.

Each program is compiled, and recorded with several quanta. Only `./check --real` does.
"""
import pathlib
import subprocess
from typing import ClassVar

from rrv_tools.program import ROOT, Word
from rrv_tools.testing import Case

CC = ROOT / "examples" / "kit" / "cc"
QUANTA = (64, 65, 70, 100, 150, 333, 1000, 50000)
# A condition is destroyed and freed as soon as no thread waits at it, as the page of pthread_cond_destroy shows.
DESTROYED = """\
#include <pthread.h>
#include <stdio.h>
#include <stdlib.h>
#include <string.h>
enum { THREADS = 4, ROUNDS = 5 };
struct gate { pthread_cond_t opened; int is_open; };
static pthread_mutex_t lock = PTHREAD_MUTEX_INITIALIZER;
static pthread_cond_t arrived = PTHREAD_COND_INITIALIZER;
static int waiting, passed;
static void *pass(void *argument)
{
    struct gate *gate = argument;
    pthread_mutex_lock(&lock);
    if (++waiting == THREADS)
        pthread_cond_signal(&arrived);
    while (!gate->is_open)
        pthread_cond_wait(&gate->opened, &lock);
    if (--waiting == 0)
        pthread_cond_signal(&arrived);
    passed++;
    pthread_mutex_unlock(&lock);
    return NULL;
}
int main(void)
{
    int refused = 0;
    for (int round = 0; round < ROUNDS; round++) {
        pthread_t threads[THREADS];
        struct gate *gate = malloc(sizeof *gate);
        pthread_cond_init(&gate->opened, NULL);
        gate->is_open = 0;
        pthread_mutex_lock(&lock);
        for (int i = 0; i < THREADS; i++)
            pthread_create(&threads[i], NULL, pass, gate);
        while (waiting < THREADS)
            pthread_cond_wait(&arrived, &lock);
        gate->is_open = 1;
        pthread_cond_broadcast(&gate->opened);
        if (round % 2)
            while (waiting)
                pthread_cond_wait(&arrived, &lock);
        refused += pthread_cond_destroy(&gate->opened) != 0;
        if (round % 2) {
            memset(gate, 0x55, sizeof *gate);
            int byte = *(volatile unsigned char *)gate;
            refused += byte != 0x55;
        }
        pthread_mutex_unlock(&lock);
        for (int i = 0; i < THREADS; i++)
            pthread_join(threads[i], NULL);
        for (unsigned at = 0; round % 2 && at < sizeof *gate; at++)
            refused += ((unsigned char *)gate)[at] != 0x55;
        free(gate);
    }
    printf("passed %d, refused %d\\n", passed, refused);
    return 0;
}
"""
KEYS = """\
#include <pthread.h>
#include <signal.h>
#include <stdint.h>
#include <stdio.h>
#include <unistd.h>
static pthread_key_t keys[128];
static int destroyed;
static void destroy(void *value) { destroyed += (int)(intptr_t)value; }
static void *set(void *unused)
{
    for (int i = 0; i < 128; i++)
        pthread_setspecific(keys[i], (void *)1);
    return unused;
}
int main(void)
{
    pthread_t thread;
    int made = 0;
    while (made < 128 && !pthread_key_create(&keys[made], destroy))
        made++;
    pthread_create(&thread, NULL, set, NULL);
    pthread_join(thread, NULL);
    printf("keys %d, destroyed %d, kill %d\\n", made, destroyed, kill(getpid(), 0));
    return 0;
}
"""


class Kit(Case):
    """Programs of the kit."""

    is_real = True
    seconds = 10
    needs: ClassVar[tuple[str, ...]] = ("riscv64-unknown-elf-gcc",)

    def run_compiler(self, *words: Word) -> None:
        """Runs the kit's compiler, which has to end with 0 and print nothing."""
        done = subprocess.run([CC, *map(str, words)], stdin=subprocess.DEVNULL, capture_output=True, text=True,
                              check=False)
        if "picolibc.specs" in done.stderr:
            self.skipTest("picolibc is not installed")
        self.need(f"{words}", ("", 0), (done.stderr, done.returncode))

    def need_prints(self, source: str, wanted: bytes) -> None:
        """A program prints this with each quantum, and ends with 0."""
        pathlib.Path("program.c").write_text(source, encoding="ascii")
        self.run_compiler("-Wall", "-Wextra", "program.c", "-o", "program.elf")
        self.need_line("new", "store")
        for quantum in QUANTA:
            self.need_line("record", "--fail", "--quantum", quantum, "store", "program.elf", out=wanted, err=None)

    def test_destroyed_conditions(self) -> None:
        """A condition may be destroyed after a broadcast, and its memory used anew."""
        self.need_prints(DESTROYED, b"passed 20, refused 0\n")

    def test_keys(self) -> None:
        """There are 128 keys, and signal 0 to oneself sends nothing."""
        self.need_prints(KEYS, b"keys 128, destroyed 128, kill 0\n")

    def test_objects(self) -> None:
        """The compiler makes objects, and links them."""
        pathlib.Path("one.c").write_text("int two(void);\nint main(void) { return two() - 2; }\n", encoding="ascii")
        pathlib.Path("two.c").write_text("int two(void) { return 2; }\n", encoding="ascii")
        self.run_compiler("-c", "one.c", "two.c")
        self.run_compiler("one.o", "two.o", "-o", "both.elf")
        self.run_compiler("--version")
        self.need_line("new", "store")
        self.need_line("record", "--fail", "store", "both.elf", err=None)
